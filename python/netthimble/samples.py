"""Samples in the forms that callers have them in, as rows of f32 words: a row of bytes for each channel. Nothing is taken whose loudness or
shape would be a guess: whole numbers and bytes have ways in of their own, and so have frames by channels, and bit patterns.

Whole numbers and doubles become f32 by a call of the library. NumPy is used where the caller hands in its arrays, or what becomes one (a
tensor, a column of a table); nothing needs it."""
from __future__ import annotations

import numbers
import sys
from array import array
from ctypes import c_double, c_uint8, c_uint32
from typing import Any, List, Optional, Sequence, Tuple, Union

from .binding import CALL, check
from .errors import Refused, shown

CHANNELS = 32  # the most channels
PCM = "Clip.from_pcm(sample_rate, data, bits) scales them to -1..1"
BITS = "Clip.from_bits(sample_rate, channels) takes f32 bit patterns"
FROM_FRAMES = "for one row a frame there is Clip.from_frames(sample_rate, frames)"
FROM_ROWS = "for one row a channel there is Clip(sample_rate, channels)"
SHIFTED = "these are likely samples shifted up, as soundfile's int32: bits=32; 16-bit values in 24 go in as bits=16"
KINDS = {"f": {"f", "d"}, "b": {"B", "c"}, "i": set("bhilq"), "u": set("HILQ")}  # of memory's forms, as Python's struct names them
WIDTHS = {8: "B", 16: "h", 24: "i", 32: "i"}  # the arrays that hold samples of so many bits
SIGNS = bytes(0xFF if byte > 0x7F else 0 for byte in range(256))  # by a number's highest byte, the byte above it in two's complement

Rows = List[memoryview]  # of f32 words, a row for each channel
Packed = Union[bytes, bytearray]  # whole numbers, the lowest byte of each first


class Data:
    """What a caller handed in, read once: its dimensions, the kind of its numbers (f float, i signed, u unsigned, b bytes, or another), and
    itself, as an array of NumPy's or as memory of one dimension that lies in order."""

    def __init__(self, call: str, name: str, given: Any) -> None:
        self.array: Any = None
        self.memory: Optional[memoryview] = None
        self.shape: Tuple[int, ...] = ()
        self.kind = self.name = ""
        numpy = sys.modules.get("numpy")
        if numpy is not None and hasattr(given, "__array__") and getattr(given, "shape", None):
            if "numpy.ma" in sys.modules and isinstance(given, numpy.ma.MaskedArray) and numpy.ma.is_masked(given):
                raise TypeError(f"{call}: {name} has masked samples, which have no value: hand in what filled(0.0) gives, or another value")
            self.array = numpy.asarray(given)
            self.shape, self.name = self.array.shape, f"{type(given).__name__} of {self.array.dtype}"
            self.kind = "b" if self.array.dtype == numpy.uint8 else str(self.array.dtype.kind).replace("b", "?")
        elif not isinstance(given, (list, tuple)):
            self._look(call, name, given)

    def _look(self, call: str, name: str, given: Any) -> None:
        try:
            view = memoryview(given)
        except TypeError:
            return
        except (ValueError, BufferError) as wrong:  # memory that was released, or that Python has no form for
            raise ValueError(f"{call}: {name} cannot be read: {wrong}") from None
        form = view.format.lstrip("@=<")
        self.name = type(given).__name__ + (f" of {form!r}" if form not in KINDS["b"] else "")
        self.kind = next((kind for kind, forms in KINDS.items() if form in forms), form)
        if self.kind not in KINDS:
            raise TypeError(f"{call}: {name} must hold floats or whole numbers, in this machine's order of bytes, not {self.name}")
        self.memory, self.shape = _in_order(view, form), view.shape or ()

    def __bool__(self) -> bool:
        return self.array is not None or self.memory is not None

    @property
    def width(self) -> int:
        """The bytes of a number."""
        return int(self.array.itemsize) if self.array is not None else self.memory.itemsize if self.memory is not None else 0

    def rows(self) -> List[Any]:
        """Of two dimensions: its rows."""
        if self.array is not None:
            return list(self.array)
        flat, length = self.flat(), self.shape[1]
        return [flat[length * n : length * (n + 1)] for n in range(self.shape[0])]

    def columns(self) -> List[Any]:
        """Of two dimensions: its columns."""
        if self.array is not None:
            return list(self.array.T)
        flat = self.flat()
        return [flat[n :: self.shape[1]] for n in range(self.shape[1])]

    def flat(self) -> Any:
        """All numbers in order."""
        if self.array is not None:
            return self.array.reshape(-1)
        return self.memory


def _in_order(view: memoryview, form: str) -> memoryview:
    """The numbers in one dimension and in order, of the machine's own form; a copy where they lie otherwise."""
    if view.ndim == 1 and view.format == form and view.c_contiguous:
        return view
    if not view.nbytes:  # of a form that memory of no bytes can be cast from
        return memoryview(array("B" if form == "c" else form))
    return memoryview(view.tobytes()).cast(form)


def listed(call: str, name: str, given: Any) -> Sequence[Any]:
    """What a caller handed in as a list, or whatever can be gone through, but text."""
    if isinstance(given, (list, tuple)):
        return given
    try:
        if isinstance(given, (str, dict, set, frozenset)):
            raise TypeError
        return list(given)
    except TypeError:
        raise TypeError(f"{call}: {name} must be samples in a row, not {type(given).__name__} {shown(given)}") from None


# ---- floats


def float_row(call: str, name: str, given: Any) -> memoryview:
    """A row of floats, narrowed to f32."""
    data = Data(call, name, given)
    values: Any = given
    if data:
        if len(data.shape) != 1:
            raise TypeError(f"{call}: {name} must be a row of floats, not {data.name} of {len(data.shape)} dimensions")
        if data.kind != "f":
            raise _not_floats(call, name, data)
        values = data.flat()
        if data.array is not None:
            words = _narrowed(sys.modules["numpy"], values)
        else:
            words = values.tobytes() if values.format == "f" else _narrow(call, values)
    else:
        values = listed(call, name, given)
        for kind in set(map(type, values)):
            if not _is_float(kind):
                at = next(n for n, value in enumerate(values) if type(value) is kind)
                raise _not_a_float(call, f"{name}[{at}]", values[at])
        try:
            words = array("f", values).tobytes()
        except OverflowError:  # a fraction past a double
            raise ValueError(f"{call}: {name} has a value past f32's range; {BITS}") from None
    _check_finite(call, name, words, values)
    return memoryview(words)


def _narrowed(numpy: Any, given: Any) -> bytes:
    with numpy.errstate(over="ignore", under="ignore", invalid="ignore"):
        made = numpy.ascontiguousarray(given, dtype="<f4").tobytes()
    return bytes(made)


def _narrow(call: str, doubles: memoryview) -> bytes:
    values = (c_double * len(doubles)).from_buffer_copy(doubles if doubles.c_contiguous else doubles.tobytes())
    words = (c_uint32 * len(values))()
    check(call, CALL["narrow"](values, len(values), words, len(words)))
    return bytes(words)


def _is_float(kind: type) -> bool:
    return issubclass(kind, float) or issubclass(kind, numbers.Real) and not issubclass(kind, numbers.Integral)


def _not_floats(call: str, name: str, data: Data) -> TypeError:
    if data.kind in ("i", "u", "b"):
        return TypeError(f"{call}: {name} holds whole numbers or bytes ({data.name}), which have no loudness of their own: {PCM}, and {BITS}")
    return TypeError(f"{call}: {name} must hold floats, not {data.name}")


def _not_a_float(call: str, name: str, value: Any) -> TypeError:
    if isinstance(value, numbers.Integral):
        return TypeError(f"{call}: {name} is the whole number {shown(value)}: floats are taken; of whole numbers, {PCM}, and {BITS}")
    return TypeError(f"{call}: {name} must be a float, not {type(value).__name__} {shown(value)}")


def _check_finite(call: str, name: str, words: bytes, values: Any) -> None:
    """Turns down a NaN, an infinity, and a value that narrowing made one. An exponent of all ones shows in a word's highest byte."""
    top = words[3::4]
    if 0x7F not in top and 0xFF not in top:
        return
    for at, word in enumerate(array("I", words)):
        if word & 0x7F800000 == 0x7F800000:
            value = float(values[at])
            why = "is past f32's range" if value - value == 0 else "is not finite"
            raise ValueError(f"{call}: {name}[{at}] is {value!r}, which {why}; {BITS}")


# ---- bit patterns


def bit_row(call: str, name: str, given: Any) -> memoryview:
    """A row of f32 bit patterns: whole numbers of 32 bits without a sign."""
    data = Data(call, name, given)
    if data:
        if len(data.shape) != 1 or data.kind != "u" or data.width != 4:
            raise TypeError(f"{call}: {name} must be a row of unsigned 32-bit whole numbers, as array('I') or uint32, not {data.name}")
        return memoryview(data.array.astype("<u4").tobytes() if data.array is not None else data.flat().tobytes())
    values = listed(call, name, given)
    for at, value in enumerate(values):
        if not isinstance(value, numbers.Integral) or isinstance(value, bool):
            raise TypeError(f"{call}: {name}[{at}] must be an f32 bit pattern, a whole number, not {type(value).__name__} {shown(value)}")
        if not 0 <= int(value) < 2**32:
            raise ValueError(f"{call}: {name}[{at}] is {shown(value)}: an f32 bit pattern is 0 to 2^32 - 1")
    return memoryview(array("I", [int(value) for value in values]).tobytes())


# ---- rows and frames


def channel_rows(call: str, name: str, given: Any, row: Any = float_row) -> Rows:
    """A row of words for each channel, of one row a channel."""
    data = Data(call, name, given)
    if data and len(data.shape) == 2:
        channels = data.shape[0]
        if channels > CHANNELS:
            raise Refused(call, 1, f"{name} of {channels} x {data.shape[1]}", FROM_FRAMES[0].upper() + FROM_FRAMES[1:])
        rows = data.rows()
    elif data:
        if len(data.shape) == 1:
            raise TypeError(f"{call}: {name} is one row of numbers ({data.name}): hand in [row] for one channel; {FROM_FRAMES}")
        raise TypeError(f"{call}: {name} must have two dimensions, not {len(data.shape)}")
    else:
        rows = list(listed(call, name, given))
        if len(rows) > CHANNELS:
            raise Refused(call, 1, f"{name} of {len(rows)} rows", FROM_FRAMES[0].upper() + FROM_FRAMES[1:])
        for at, value in enumerate(rows):
            if isinstance(value, numbers.Number):
                raise TypeError(f"{call}: {name}[{at}] is a single number: hand in [row] for one channel; {FROM_FRAMES}")
    return [row(call, f"{name}[{at}]", value) for at, value in enumerate(rows)]


def frame_rows(call: str, name: str, given: Any) -> Rows:
    """A row of words for each channel, of one row a frame, or of one number a frame where there is one channel."""
    data = Data(call, name, given)
    if data:
        if len(data.shape) == 1:
            return [float_row(call, name, given)]
        if len(data.shape) != 2:
            raise TypeError(f"{call}: {name} must have one dimension or two, not {len(data.shape)}")
        count, columns = data.shape
    else:
        values = listed(call, name, given)
        if values and isinstance(values[0], numbers.Number):
            return [float_row(call, name, values)]
        frames = [frame if isinstance(frame, (list, tuple)) else listed(call, f"{name}[{at}]", frame) for at, frame in enumerate(values)]
        count, columns = len(frames), len(frames[0]) if frames else 0
        for at, frame in enumerate(frames):
            if len(frame) != columns:
                raise Refused(call, 1, f"{name}[{at}] of {len(frame)} channels, {name}[0] of {columns}")
    if columns > CHANNELS:
        raise Refused(call, 1, f"{name} of {count} x {columns}", FROM_ROWS[0].upper() + FROM_ROWS[1:])
    rows = data.columns() if data else list(zip(*frames))
    return [float_row(call, f"{name}[..][{at}]", row) for at, row in enumerate(rows)]


# ---- whole numbers


def pcm_rows(call: str, given: Any, bits: int, channels: Optional[int]) -> Rows:
    """A row for each channel, of whole numbers of so many bits: packed bytes, or numbers, interleaved; or one row a frame."""
    data = Data(call, "data", given)
    if data and len(data.shape) == 2:
        if channels is not None and channels != data.shape[1]:
            raise ValueError(f"{call}: data of {data.shape[0]} frames of {data.shape[1]} channels is not one of {channels} channels")
        if 0 < data.shape[0] < data.shape[1]:
            raise ValueError(f"{call}: data of {data.shape[0]} frames of {data.shape[1]} channels is likely the other layout: it is one row a frame here")
        channels = data.shape[1]
    elif data and len(data.shape) != 1:
        raise TypeError(f"{call}: data must have one dimension, or two, not {len(data.shape)}")
    if channels is None:
        channels = 1
    if not 1 <= channels <= CHANNELS:
        raise Refused(call, 1, f"channels={channels}")
    packed = _packed(call, data, given, bits)
    count = len(packed) // (bits // 8)
    if count % channels:
        raise ValueError(f"{call}: {count} samples are not whole frames of {channels} channels")
    return channels_of(call, packed, bits, channels)


def channels_of(call: str, packed: Packed, bits: int, channels: int) -> Rows:
    """A row for each channel of interleaved whole numbers, packed, the lowest byte of each first (docs/REFERENCE.md, 'Whole numbers')."""
    lent, frames = (c_uint8 * len(packed)).from_buffer_copy(packed), len(packed) // (bits // 8 * channels)
    rows = []
    for number in range(channels):
        words = (c_uint32 * frames)()
        check(call, CALL[f"pcm_{bits}"](lent, len(lent), channels, number, words, frames), f"{channels} channels of {frames} frames")
        rows.append(memoryview(words))
    return rows


def _packed(call: str, data: Data, given: Any, bits: int) -> Packed:
    """The bytes of whole numbers, as many for each as its bits need."""
    if not data:
        words = array(WIDTHS[bits], _in_range(call, listed(call, "data", given), bits)).tobytes()
        return _of_24_bits(call, words) if bits == 24 else words
    flat: bytes = data.flat().tobytes()
    if data.kind == "b" and (bits == 8 or len(data.shape) == 1):
        if len(flat) % (bits // 8):
            raise ValueError(f"{call}: {len(flat)} bytes are not whole samples of {bits} bits")
        return flat
    if data.kind != "i" or data.width != array(WIDTHS[bits]).itemsize or bits == 8:
        raise TypeError(f"{call}: data of {bits} bits is packed bytes, or {_wanted(bits)}, not {data.name}")
    words = flat if data.array is None else data.array.astype(f"<i{data.width}").tobytes()
    return _of_24_bits(call, words) if bits == 24 else words


def _wanted(bits: int) -> str:
    return {8: "unsigned 8-bit numbers", 16: "signed 16-bit numbers (int16, array('h'))"}.get(bits, "signed 32-bit numbers (int32, array('i'))")


def _in_range(call: str, values: Sequence[Any], bits: int) -> Sequence[int]:
    """The whole numbers of a list, all of which are ones of so many bits."""
    kinds = set(map(type, values))
    bad = {kind for kind in kinds if not issubclass(kind, numbers.Integral) or issubclass(kind, bool)}
    if bad:
        at = next(n for n, value in enumerate(values) if type(value) in bad)
        raise TypeError(f"{call}: data[{at}] must be a whole number, not {type(values[at]).__name__} {shown(values[at])}")
    made = values if kinds <= {int} else [int(value) for value in values]
    low, high = (0, 255) if bits == 8 else (-(2 ** (bits - 1)), 2 ** (bits - 1) - 1)
    if made and (min(made) < low or max(made) > high):
        raise _past(call, made, bits, low, high)
    return made


def _past(call: str, values: Sequence[int], bits: int, low: int, high: int) -> ValueError:
    hint = f"; {SHIFTED}" if bits == 24 else ""
    return ValueError(f"{call}: data has {shown(min(values))} to {shown(max(values))}; samples of {bits} bits are {low} to {high}{hint}")


def _of_24_bits(call: str, words: bytes) -> Packed:
    """The lower three bytes of each number of 32 bits, all of which are ones of 24 bits, and likely meant so."""
    low, middle, high, top = (words[byte::4] for byte in range(4))
    if top != high.translate(SIGNS):
        raise _past(call, array("i", words), 24, -(2**23), 2**23 - 1)
    if not low.lstrip(b"\0") and words.lstrip(b"\0"):
        values = array("i", words)
        raise ValueError(f"{call}: data has {min(values)} to {max(values)}, all of them multiples of 256; {SHIFTED}")
    packed = bytearray(3 * len(low))
    packed[0::3], packed[1::3], packed[2::3] = low, middle, high
    return packed
