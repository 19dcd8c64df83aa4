"""Words and records of the program crates/vectors: a word is the 16 hex digits of a float's bits or of a count;
a record is (tag, words, answer), the answer a line without its end. NaN is always written 7ff8000000000000.
In scripts the words of an f32 have 8 digits, and NaN is 7fc00000 there."""
import os
import struct

HERE = os.path.dirname(os.path.abspath(__file__))
PROGRAM = os.path.join(HERE, '..', 'crates', 'vectors')


# By hex digits: the float, its bits, NaN.
FORMATS = {16: ('<d', '<Q', 0x7FF8000000000000), 8: ('<f', '<I', 0x7FC00000)}


def bits_of(x, digits=16):
    number, bits, nan = FORMATS[digits]
    if x != x:
        return nan
    return struct.unpack(bits, struct.pack(number, x))[0]


def float_of(bits, digits=16):
    number, whole, _ = FORMATS[digits]
    return struct.unpack(number, struct.pack(whole, bits))[0]


def word(value, digits=16):
    """A count (int) or a float as its word."""
    return f'{value if isinstance(value, int) else bits_of(value, digits):0{digits}x}'


def write(records):
    """Writes the program's input and the answers that it must give."""
    counts = {}
    with open(os.path.join(PROGRAM, 'stdin'), 'w') as put, open(os.path.join(PROGRAM, 'stdout'), 'w') as say:
        for tag, words, answer in records:
            counts[tag] = counts.get(tag, 0) + 1
            put.write(''.join(w + '\n' for w in [word(tag)] + words))
            say.write(answer + '\n')
    print('records by tag:', counts)
