"""WAV files of whole numbers. This module knows nothing of the library: the package has the library make samples of what is read here, and the
tool that makes clip files, which are short, has `read` make floats from -1 to 1 of it. The chunks are read here, so that every Python says the
same of a file."""
from __future__ import annotations

import os
import struct
from array import array
from typing import IO, TYPE_CHECKING, Iterator, List, Optional, Tuple, Union

if TYPE_CHECKING:
    Path = Union[str, "os.PathLike[str]"]

PLAIN, FLOATS, EXTENSIBLE = 1, 3, 0xFFFE  # what a WAV file says of its samples
PART = 1 << 13  # numbers that are worked on at a time


# ---- without the library


def read(path: "Path", first: int = 0, count: Optional[int] = None) -> "Tuple[int, List[array[float]]]":
    """The sample rate of a WAV file, and an array of floats from -1 to 1 for each channel: its frames from `first` on, `count` of them or as
    many as there are. ValueError says why a file cannot be read so."""
    rate, channels, width, data = frames_of(path, first, count)
    if width == 3:  # as the upper bytes of four: the value is 256 times as large, and so is full scale
        wide = bytearray(len(data) // 3 * 4)
        for byte in range(3):
            wide[byte + 1 :: 4] = data[byte::3]
        data, width = bytes(wide), 4
    numbers, floats = array("h" if width == 2 else "i", data), array("f")
    scale = 2.0 ** (1 - 8 * width)  # a power of two: the product is exact, and rounded once, to the nearest f32
    for at in range(0, len(numbers), PART):
        floats.fromlist([value * scale for value in numbers[at : at + PART]])
    return rate, [floats[c::channels] for c in range(channels)]


# ---- WAV files


def frames_of(path: "Path", first: int = 0, count: Optional[int] = None) -> Tuple[int, int, int, bytes]:
    """The sample rate of a WAV file, its channels, the bytes of a sample, and the bytes of its frames from `first` on: `count` of them or as many
    as there are. ValueError says why a file cannot be read so."""
    with open(path, "rb") as file:
        try:
            channels, rate, width = _format(_chunk(file, b"fmt "))
            return rate, channels, width, _values(file, channels * width, first, count)
        except ValueError as wrong:
            raise ValueError(f"{os.fspath(path)}: {wrong}") from None
        except OSError as wrong:  # of reading, which does not name the file
            raise OSError(wrong.errno, wrong.strerror, os.fspath(path)) from None


def _chunks(file: IO[bytes]) -> Iterator[Tuple[bytes, int]]:
    """The name and the size of each chunk, with the file standing at its first byte."""
    head = file.read(12)
    if len(head) < 12 or head[:4] != b"RIFF" or head[8:] != b"WAVE":
        raise ValueError("not a WAV file")
    at = 12
    while len(head := file.read(8)) == 8:
        size: int = struct.unpack("<I", head[4:])[0]
        yield head[:4], size
        at += 8 + size + size % 2
        file.seek(at)


def _chunk(file: IO[bytes], wanted: bytes) -> bytes:
    """The first bytes of a chunk."""
    file.seek(0)
    for name, size in _chunks(file):
        if name == wanted:
            return file.read(min(size, 64))
    raise ValueError("not a WAV file: it ends too soon")


def _format(data: bytes) -> Tuple[int, int, int]:
    """Channels, frames a second and bytes of a sample."""
    if len(data) < 16:
        raise ValueError("not a WAV file: its format is cut short")
    kind, channels, rate, _, align, bits = struct.unpack_from("<HHIIHH", data)
    if kind == EXTENSIBLE and len(data) >= 26:
        kind = struct.unpack_from("<H", data, 24)[0]
    if kind != PLAIN:
        raise ValueError("samples that are floats; whole numbers are read" if kind == FLOATS else f"samples of another kind ({kind}); whole numbers are read")
    if bits not in (16, 24, 32):
        raise ValueError(f"samples of {bits} bits; 16, 24 and 32 are read")
    if channels == 0:
        raise ValueError("not a WAV file: it has no channels")
    if align != channels * (bits // 8):
        raise ValueError(f"frames of {align} bytes, where {channels} channels of {bits} bits take {channels * (bits // 8)}")
    return channels, rate, bits // 8


def _values(file: IO[bytes], size_of_frame: int, first: int, count: Optional[int]) -> bytes:
    """The bytes of the frames from `first` on."""
    file.seek(0)
    for name, size in _chunks(file):
        if name == b"data":
            break
    else:
        raise ValueError("not a WAV file: it has no samples")
    frames, there = size // size_of_frame, os.fstat(file.fileno()).st_size - file.tell()
    if there < size:
        raise ValueError(f"cut short: of {frames} frames it has {max(there, 0) // size_of_frame}")
    if size % size_of_frame:
        raise ValueError(f"{size} bytes of samples are not whole frames of {size_of_frame} bytes")
    if not 0 <= first <= frames or count is not None and count < 0:
        raise ValueError(f"it has {frames} frames; from {first} on, {'all' if count is None else count} of them cannot be read")
    file.seek(first * size_of_frame, os.SEEK_CUR)
    return file.read(size_of_frame * (frames - first if count is None else min(count, frames - first)))
