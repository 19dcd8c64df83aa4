//! Matrices and the leaves that document 01 lays down: what the published files find at `crate::matrix`.
//! Every operation rounds once, in document 01's order; nothing is fused (Rust never fuses by itself).

use crate::float::Float;

/// The one trait of `num_traits` that the published files name.
pub trait FromPrimitive: Sized {
    fn from_usize(n: usize) -> Option<Self>;
    fn from_u8(n: u8) -> Option<Self>;
    fn from_f64(n: f64) -> Option<Self>;
}

impl<T: Float> FromPrimitive for T {
    fn from_usize(n: usize) -> Option<T> {
        Some(T::of_size(n))
    }
    fn from_u8(n: u8) -> Option<T> {
        Some(T::of_size(n.into()))
    }
    fn from_f64(n: f64) -> Option<T> {
        Some(T::near(n))
    }
}

/// What the published `angles.rs` asks of a number.
pub trait MatrixDataTypeBase: Float + FromPrimitive {
    fn zero() -> Self {
        Self::ZERO
    }
}

impl<T: Float> MatrixDataTypeBase for T {}

/// What the published filter asks of a number.
pub trait MatrixDataType: MatrixDataTypeBase {
    fn square_root(self) -> Self {
        self.root()
    }
}

impl<T: Float> MatrixDataType for T {}

/// A matrix that can be read.
pub trait Matrix<const ROWS: usize, const COLS: usize, T> {
    fn get(&self, row: usize, column: usize) -> T;

    fn copy_to<B: MatrixMut<ROWS, COLS, T>>(&self, b: &mut B) {
        for i in 0..ROWS {
            for j in 0..COLS {
                b.set(i, j, self.get(i, j));
            }
        }
    }

    /// b = self + b.
    fn add_inplace_b<B: MatrixMut<ROWS, COLS, T>>(&self, b: &mut B)
    where
        T: MatrixDataType,
    {
        for i in 0..ROWS {
            for j in 0..COLS {
                b.set(i, j, self.get(i, j) + b.get(i, j));
            }
        }
    }

    /// c[i][j] = sum over k of self[i][k]·b[j][k]; the sum starts at +0 and runs upward.
    fn mult_transb<const U: usize, B: Matrix<U, COLS, T>, C: MatrixMut<ROWS, U, T>>(&self, b: &B, c: &mut C)
    where
        T: MatrixDataType,
    {
        for i in 0..ROWS {
            for j in 0..U {
                let mut sum = T::zero();
                for k in 0..COLS {
                    sum += self.get(i, k) * b.get(j, k);
                }
                c.set(i, j, sum);
            }
        }
    }
}

/// A matrix that can be written.
pub trait MatrixMut<const ROWS: usize, const COLS: usize, T>: Matrix<ROWS, COLS, T> {
    fn set(&mut self, row: usize, column: usize, value: T);

    fn set_zero(&mut self)
    where
        T: MatrixDataType,
    {
        for i in 0..ROWS {
            for j in 0..COLS {
                self.set(i, j, T::zero());
            }
        }
    }

    /// self = self − b.
    fn sub_inplace_a<B: Matrix<ROWS, COLS, T>>(&mut self, b: &B)
    where
        T: MatrixDataType,
    {
        for i in 0..ROWS {
            for j in 0..COLS {
                self.set(i, j, self.get(i, j) - b.get(i, j));
            }
        }
    }
}

/// The factor and the inverse.
pub trait SquareMatrix<const N: usize, T: MatrixDataType>: MatrixMut<N, N, T> {
    /// Puts the factor in place of the lower triangle and +0 above it; column after column.
    /// At a pivot that isn't finite or isn't above 0, or an entry that isn't finite, it answers false and leaves the
    /// rest as it stands. The published callers go on regardless.
    fn cholesky_decompose_lower(&mut self) -> bool {
        for j in 0..N {
            let mut pivot = self.get(j, j);
            for k in 0..j {
                pivot -= self.get(j, k) * self.get(j, k);
            }
            if !(pivot.is_finite() && pivot > T::zero()) {
                return false;
            }
            let root = pivot.square_root();
            self.set(j, j, root);
            for i in j + 1..N {
                let mut entry = self.get(i, j);
                for k in 0..j {
                    entry -= self.get(i, k) * self.get(j, k);
                }
                entry = entry / root;
                self.set(i, j, entry);
                if !entry.is_finite() {
                    return false;
                }
            }
        }
        for i in 0..N {
            for j in i + 1..N {
                self.set(i, j, T::zero());
            }
        }
        true
    }

    /// self is a factor L; inverse = the inverse of L·Lᵀ, column by column: down through L, then up through its transpose.
    fn invert_l_cholesky<V: MatrixMut<N, N, T>>(&self, inverse: &mut V) {
        for c in 0..N {
            for i in 0..N {
                let mut u = if i == c { T::ONE } else { T::zero() };
                for k in 0..i {
                    u -= self.get(i, k) * inverse.get(k, c);
                }
                inverse.set(i, c, u / self.get(i, i));
            }
            for i in (0..N).rev() {
                let mut v = inverse.get(i, c);
                for k in i + 1..N {
                    v -= self.get(k, i) * inverse.get(k, c);
                }
                inverse.set(i, c, v / self.get(i, i));
            }
        }
    }
}

impl<const N: usize, T: MatrixDataType, M: MatrixMut<N, N, T>> SquareMatrix<N, T> for M {}

/// The numbers of a matrix, row by row.
pub trait RowMajorSequentialDataMut<const ROWS: usize, const COLS: usize, T> {
    fn as_mut_slice(&mut self) -> &mut [T];
}

/// A buffer that is, or holds, a matrix.
pub trait AsMatrix<const ROWS: usize, const COLS: usize, T> {
    type Target: Matrix<ROWS, COLS, T>;
    fn as_matrix(&self) -> &Self::Target;
}

/// A buffer whose matrix can be written.
pub trait AsMatrixMut<const ROWS: usize, const COLS: usize, T>: AsMatrix<ROWS, COLS, T> {
    type TargetMut: MatrixMut<ROWS, COLS, T>;
    fn as_matrix_mut(&mut self) -> &mut Self::TargetMut;
}
