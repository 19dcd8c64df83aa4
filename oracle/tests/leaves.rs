//! The machine's root and remainder against document 01's words, by whole numbers and for both widths: no float is nearer to the root,
//! and the wrap differs from d by whole turns.

use oracle::filter::{root, wrap};
use oracle::float::Float;

/// Splitmix64.
fn next(state: &mut u64) -> u64 {
    *state = state.wrapping_add(0x9e37_79b9_7f4a_7c15);
    let mut z = *state;
    z = (z ^ z >> 30).wrapping_mul(0xbf58_476d_1ce4_e5b9);
    z = (z ^ z >> 27).wrapping_mul(0x94d0_49bb_1331_11eb);
    z ^ z >> 31
}

/// How many bits the fraction has, and the exponent of two of the smallest number above 0.
fn layout<T: Float>() -> (u32, i64) {
    match T::HEX {
        16 => (52, -1074),
        _ => (23, -149),
    }
}

/// Any bits without a sign.
fn unsigned<T: Float>(state: &mut u64) -> u64 {
    next(state) >> (65 - 4 * T::HEX)
}

/// A finite number above 0 as significand and exponent of two.
fn parts<T: Float>(number: T) -> (u64, i64) {
    let (digits, least) = layout::<T>();
    let (exponent, fraction) = ((number.bits() >> digits) as i64, number.bits() & ((1 << digits) - 1));
    if exponent == 0 {
        (fraction, least)
    } else {
        (fraction | 1 << digits, exponent - 1 + least)
    }
}

#[test]
fn roots_are_nearest() {
    roots::<f64>();
    roots::<f32>();
}

/// With a = m·2^(2e) in whole m, and r·2^e its root of 53 bits (or 24): (2r−1)² < 4m < (2r+1)², and below a power of two,
/// where floats stand twice as dense, (4r−1)² < 16m.
fn roots<T: Float>() {
    let (digits, _) = layout::<T>();
    let mut state = 1;
    for turn in 0..200_000 {
        // A quarter of them subnormal, each length of the fraction as often as another.
        let short = if turn % 4 == 0 { 4 * T::HEX as u32 - 1 - digits + turn / 4 % digits } else { 0 };
        let bits = unsigned::<T>(&mut state) >> short;
        let a = T::of_bits(bits);
        if !a.is_finite() || a == T::ZERO {
            continue;
        }
        let (m, e) = parts(a);
        let (r, re) = parts(root(a).expect("a root"));
        assert_eq!(r >> digits, 1, "a root is never subnormal");
        let shift = e - 2 * re;
        assert!((0..=i64::from(2 * digits + 1)).contains(&shift));
        let (m, r) = (u128::from(m) << shift, u128::from(r));
        assert!(r * r < m + r && m <= r * r + r, "root of {bits:x}");
        assert!(r > 1 << digits || (4 * r - 1) * (4 * r - 1) < 16 * m, "root of {bits:x}");
    }
}

#[test]
fn wraps_are_exact() {
    wraps::<f64>();
    wraps::<f32>();
}

fn wraps<T: Float>() {
    let mut state = 2;
    for turn in 0..50_000 {
        let h = T::of_bits(unsigned::<T>(&mut state) | 1);
        let d = match turn % 3 {
            0 => T::of_bits(next(&mut state)),
            1 => h * T::of_size(next(&mut state) as usize % 64) / T::of_size(8),
            _ => -h * T::of_size(next(&mut state) as usize % 1_000_000),
        };
        let turn = h + h;
        if !d.is_finite() || !turn.is_finite() {
            continue;
        }
        let w = wrap(d, h).expect("a wrap");
        assert!(-h < w && w <= h);
        // |d| and |w| modulo 2h, in units of the smaller exponent: |d| ≡ w of the same sign.
        let (d, w) = if d < T::ZERO { (-d, -w) } else { (d, w) };
        let left = modulo(d, turn);
        let right = if w < T::ZERO { turn_less(modulo(-w, turn), turn) } else { modulo(w, turn) };
        assert_eq!(left, right, "wrap of {d:?} by {h:?}");
    }
}

/// d mod t as whole numbers over the unit 2^e, the smaller of the two units: (remainder, e). By doubling, bit after bit.
fn modulo<T: Float>(d: T, t: T) -> (u128, i64) {
    let ((dm, de), (tm, te)) = (parts(d), parts(t));
    if de >= te {
        let t = u128::from(tm);
        let mut r = u128::from(dm) % t;
        for _ in 0..de - te {
            r = r * 2 % t;
        }
        reduced(r, te)
    } else if te - de > 64 {
        // d is below t by far.
        reduced(u128::from(dm), de)
    } else {
        reduced(u128::from(dm) % (u128::from(tm) << (te - de)), de)
    }
}

/// One turn less this much.
fn turn_less<T: Float>((r, e): (u128, i64), t: T) -> (u128, i64) {
    let (tm, te) = parts(t);
    if r == 0 {
        return (0, 0);
    }
    if te >= e {
        reduced((u128::from(tm) << (te - e)) - r, e)
    } else {
        reduced(u128::from(tm) - (r << (e - te)), te)
    }
}

/// The same value with an odd number of units, so that equal values are equal pairs.
fn reduced(r: u128, e: i64) -> (u128, i64) {
    if r == 0 {
        (0, 0)
    } else {
        (r >> r.trailing_zeros(), e + i64::from(r.trailing_zeros()))
    }
}
