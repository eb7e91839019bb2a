"""The bit patterns of floats, as the lines of `trial` and `replay` write them: upper-case hex digits."""
import struct


def x32(x):
    """The bits of an f32; of the one nearest to x."""
    return struct.pack(">f", x).hex().upper()


def x64(x):
    return struct.pack(">d", x).hex().upper()


def f32(word):
    return struct.unpack(">f", bytes.fromhex(word))[0]


def f64(word):
    return struct.unpack(">d", bytes.fromhex(word))[0]


def single(x):
    """The f32 nearest to x."""
    return struct.unpack(">f", struct.pack(">f", x))[0]


def bits32(x):
    """The bits of an f32 as a number."""
    return struct.unpack(">I", struct.pack(">f", x))[0]


def bits64(x):
    return struct.unpack(">Q", struct.pack(">d", x))[0]


def float32(bits):
    """The f32 of these bits."""
    return struct.unpack(">f", struct.pack(">I", bits))[0]


def float64(bits):
    return struct.unpack(">d", struct.pack(">Q", bits))[0]
