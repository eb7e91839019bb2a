"""Clip files whose header was left as it was when the file was cut, or grew."""
from __future__ import annotations

from ctypes import c_uint8
from typing import NamedTuple, Union

from .arguments import bytes_of
from .binding import CALL, check, check_floats

__all__ = ["Mended", "mend"]


class Mended(NamedTuple):
    """A mended clip file. Each mark is True exactly where that field's bytes, or for `tail` the length, changed."""

    data: bytes
    """The bytes of the mended file, which `netthimble.load` takes."""
    frames: bool
    """Whether the frame count was altered."""
    offsets: bool
    """Whether the offsets were altered."""
    tail: bool
    """Whether leftover bytes at the end were dropped."""
    onset: bool
    """Whether the onset was lowered to the last frame."""
    tail_size: int
    """The bytes that were dropped, fewer than one frame for each channel."""


def mend(data: Union[bytes, bytearray, memoryview]) -> Mended:
    """Mends a clip file's bytes, with either header (docs/REFERENCE.md, 'Mending'): the frame count becomes the number of whole frames that
    the bytes behind the header hold for each channel, the offsets are rewritten, an onset past the end becomes the last frame, and leftover
    bytes at the end are dropped. Every other byte stays in its place: of several channels all but the first move where the file was cut.

    A sound file comes back as it was, with no mark. TypeError: no bytes. Refused: 15 (over 65,536 bytes, shorter than its header, or a
    header's length of neither form), 1 (the channels), 2 (the sample rate), 21 (not one frame for each channel remains)."""
    given = bytes_of("mend", "data", data)
    check_floats()
    size = len(given)
    file, out = (c_uint8 * size).from_buffer_copy(given), (c_uint8 * size)()
    mended = CALL["clip_mend"](file, size, out, size)
    check("mend", mended.refusal, f"{size} bytes")
    marks = mended.marks
    return Mended(bytes(out)[: mended.length], marks.frames, marks.offsets, marks.tail, marks.onset, mended.tail_size)
