"""The library: its records and its calls, as include/netthimble.h has them. They stay inside this package; a record is made by the
library alone.

The library is target/c/libnetthimble.so of this repository, or the file that the environment variable NETTHIMBLE_LIBRARY names."""
from __future__ import annotations

import ctypes
import os
from array import array
from ctypes import POINTER, c_bool, c_double, c_float, c_int32, c_size_t, c_uint8, c_uint32, c_uint64
from pathlib import Path
from typing import Any, Dict, List, Optional, Tuple

from .errors import Refused, shown

FRAMES = 128  # frames of a block
NEVER = 1.7976931348623157e308  # the largest double: a duration that is none
CHANNELS = 32  # the most channels
OUT = CHANNELS * FRAMES  # the words of a block's output
TRIALS = 1000  # the places of a staircase's track
U64_HIGH = 2**64 - 1  # the largest whole number of C

# ---- the records


class Shape(ctypes.Structure):
    channels: int
    frames: int
    rate: float
    _fields_ = [("channels", c_size_t), ("frames", c_size_t), ("rate", c_float)]


class LoopState(ctypes.Structure):
    is_looping: bool
    start: float
    end: float
    _fields_ = [("is_looping", c_bool), ("start", c_double), ("end", c_double)]


class RenderState(ctypes.Structure):
    buffer_time: float
    started: bool
    entered_loop: bool
    buffer_time_elapsed: float
    is_aligned: bool
    ended: bool
    _fields_ = [
        ("buffer_time", c_double), ("started", c_bool), ("entered_loop", c_bool), ("buffer_time_elapsed", c_double),
        ("is_aligned", c_bool), ("ended", c_bool),
    ]  # fmt: skip


class TolerancesRecord(ctypes.Structure):
    near: float
    near_zero: float
    relabel: float
    _fields_ = [("near", c_double), ("near_zero", c_double), ("relabel", c_float)]


class Options(ctypes.Structure):
    tolerances: TolerancesRecord
    ramp: int
    _fields_ = [("tolerances", TolerancesRecord), ("ramp", c_size_t)]


class RampRecord(ctypes.Structure):
    length: int
    count: int
    has_stop_sample: bool
    stop_sample: int
    _fields_ = [("length", c_size_t), ("count", c_uint64), ("has_stop_sample", c_bool), ("stop_sample", c_uint64)]


class PlayerRecord(ctypes.Structure):
    sample_rate: float
    start_time: float
    stop_time: float
    offset: float
    duration: float
    loop_state: LoopState
    render_state: RenderState
    has_start: bool
    has_buffer: bool
    shape: Shape
    has_block: bool
    block_time: float
    tolerances: TolerancesRecord
    ramp: RampRecord
    _fields_ = [
        ("sample_rate", c_float), ("start_time", c_double), ("stop_time", c_double), ("offset", c_double), ("duration", c_double),
        ("loop_state", LoopState), ("render_state", RenderState), ("has_start", c_bool), ("has_buffer", c_bool), ("shape", Shape),
        ("has_block", c_bool), ("block_time", c_double), ("tolerances", TolerancesRecord), ("ramp", RampRecord),
    ]  # fmt: skip


class Tolerated(ctypes.Structure):
    _fields_ = [("tolerances", TolerancesRecord), ("refusal", c_uint32)]


class BlockRecord(ctypes.Structure):
    _fields_ = [("position", c_double), ("channels", c_size_t), ("refusal", c_uint32), ("keep_alive", c_bool), ("ended", c_bool)]


class Factored(ctypes.Structure):
    _fields_ = [("factor", c_double), ("refusal", c_uint32)]


class Shaped(ctypes.Structure):
    _fields_ = [("shape", Shape), ("refusal", c_uint32)]


class ShapedWithOnset(ctypes.Structure):
    _fields_ = [("shape", Shape), ("onset", c_uint32), ("refusal", c_uint32)]


class Count(ctypes.Structure):
    _fields_ = [("count", c_size_t), ("refusal", c_uint32)]


class TrackRecord(ctypes.Structure):
    levels: List[int]
    heard: List[bool]
    reversals: int
    _fields_ = [("levels", c_uint8 * TRIALS), ("heard", c_bool * TRIALS), ("reversals", c_size_t)]


class Tracked(ctypes.Structure):
    _fields_ = [("track", TrackRecord), ("refusal", c_uint32)]


class CounterRecord(ctypes.Structure):
    channels: int
    frames: int
    next: int
    looping: bool
    _fields_ = [("channels", c_size_t), ("frames", c_size_t), ("next", c_size_t), ("looping", c_bool)]


class CounterMade(ctypes.Structure):
    _fields_ = [("counter", CounterRecord), ("refusal", c_uint32)]


class CountedRecord(ctypes.Structure):
    _fields_ = [("channels", c_size_t), ("refusal", c_uint32), ("keep_alive", c_bool), ("ended", c_bool)]


class Marks(ctypes.Structure):
    frames: bool
    offsets: bool
    tail: bool
    onset: bool
    _fields_ = [("frames", c_bool), ("offsets", c_bool), ("tail", c_bool), ("onset", c_bool)]


class MendedRecord(ctypes.Structure):
    _fields_ = [("length", c_size_t), ("tail_size", c_size_t), ("marks", Marks), ("refusal", c_uint32)]


# ---- the calls: what each answers, and what it is handed

_WORDS, _BYTES, _DOUBLES, _PLAYER = POINTER(c_uint32), POINTER(c_uint8), POINTER(c_double), POINTER(PlayerRecord)
_RENDERED: List[Any] = [_PLAYER, _WORDS, c_size_t, _WORDS, c_size_t, c_double, c_float]

# These take microseconds, and keep Python's interpreter meanwhile: a thread that let go of it for a block, as ctypes does, might get it
# back only when another has worked for 5 ms, which is longer than a block lasts. So each is one step for other threads, and for a signal's
# handler, which runs before it or after it.
SHORT: Dict[str, Tuple[Any, List[Any]]] = {
    "player_size": (c_size_t, []),
    "options_size": (c_size_t, []),
    "default_options": (Options, []),
    "tolerances_new": (Tolerated, [c_double, c_double, c_float]),
    "player_new_with": (c_uint32, [_PLAYER, c_float, Options]),
    "player_start": (c_uint32, [_PLAYER, c_double, c_double, c_double]),
    "player_stop": (c_uint32, [_PLAYER, c_double]),
    "player_loop": (c_uint32, [_PLAYER, c_bool]),
    "player_loop_start": (c_uint32, [_PLAYER, c_double]),
    "player_loop_end": (c_uint32, [_PLAYER, c_double]),
    "player_set_buffer": (c_uint32, [_PLAYER, c_size_t, c_size_t, c_float, _WORDS, c_size_t]),
    "player_process": (BlockRecord, [*_RENDERED, c_double]),
    "player_process_cents": (BlockRecord, [*_RENDERED, c_int32]),
    "player_preview": (BlockRecord, [*_RENDERED, c_double]),
    "player_preview_cents": (BlockRecord, [*_RENDERED, c_int32]),
    "factor": (Factored, [c_int32]),
    "converted_shape_with": (Shaped, [Shape, c_size_t, c_float, TolerancesRecord]),
    "clip_length": (Count, [Shape, c_size_t, c_uint32]),
    "counter_size": (c_size_t, []),
    "counter_new": (CounterMade, [c_size_t, c_size_t, c_bool]),
    "counter_process": (CountedRecord, [POINTER(CounterRecord), _WORDS, c_size_t, _WORDS, c_size_t]),
}

# These take as long as a clip, or a list, is: other threads go on meanwhile.
LONG: Dict[str, Tuple[Any, List[Any]]] = {
    "convert_with": (Shaped, [Shape, _WORDS, c_size_t, c_float, TolerancesRecord, _WORDS, c_size_t]),
    "clip_shape": (Shaped, [_BYTES, c_size_t]),
    "clip_frames": (c_uint32, [_BYTES, c_size_t, _WORDS, c_size_t]),
    "clip_with_onset": (ShapedWithOnset, [_BYTES, c_size_t]),
    "clip_frames_with_onset": (c_uint32, [_BYTES, c_size_t, _WORDS, c_size_t]),
    "clip_write": (c_uint32, [Shape, c_uint32, _WORDS, c_size_t, _BYTES, c_size_t]),
    "staircase": (Tracked, [c_uint64, c_uint64, c_uint64, c_size_t, POINTER(c_size_t), c_size_t]),
    "clip_mend": (MendedRecord, [_BYTES, c_size_t, _BYTES, c_size_t]),
    **{f"pcm_{bits}": (c_uint32, [_BYTES, c_size_t, c_size_t, c_size_t, _WORDS, c_size_t]) for bits in (8, 16, 24, 32)},
    "narrow": (c_uint32, [_DOUBLES, c_size_t, _WORDS, c_size_t]),
}


def _load() -> Dict[str, Any]:
    """The library's calls by their names; an ImportError says why it cannot be used."""
    named = os.environ.get("NETTHIMBLE_LIBRARY") or Path(__file__).resolve().parents[2] / "target/c/libnetthimble.so"
    path = os.path.abspath(named)  # a bare name would be looked for in the system's folders, and not in this one
    if not Path(path).is_file():
        raise ImportError(f"netthimble: {path} is not there. Build it with tools/build_library, or name it in NETTHIMBLE_LIBRARY")
    try:
        opened = ((ctypes.PyDLL(path), SHORT), (ctypes.CDLL(path), LONG))
    except OSError as wrong:
        raise ImportError(f"netthimble: {path} cannot be loaded: {wrong}") from None
    calls: Dict[str, Any] = {}
    for library, table in opened:
        for name, (answer, given) in table.items():
            if not hasattr(library, "netthimble_" + name):
                why = "it is older than this package" if calls else "it is another library, or one that is far older than this package"
                raise ImportError(f"netthimble: {path} has no netthimble_{name}: {why}. Build it with tools/build_library")
            call: Any = getattr(library, "netthimble_" + name)
            call.restype, call.argtypes = answer, given
            calls[name] = call
    sizes = calls["player_size"](), calls["options_size"](), array("f").itemsize, array("I").itemsize
    if sizes != (ctypes.sizeof(PlayerRecord), ctypes.sizeof(Options), 4, 4) or calls["counter_size"]() != ctypes.sizeof(CounterRecord):
        raise ImportError(f"netthimble: the records of {path} are not those of this package")
    return calls


CALL = _load()
DEFAULTS: TolerancesRecord = CALL["default_options"]().tolerances


def check(call: str, refusal: int, argument: Optional[str] = None, *value: Any) -> None:
    """Raises what the library refused: about an argument in words, or by its name and its value, which is looked at only then."""
    if refusal:
        raise Refused(call, refusal, f"{argument}={shown(value[0])}" if value else argument)


# ---- the thread's floating-point mode

_ONE, _HALF, _TINY = 1.0, 2.0**-53, 5e-324


def check_floats() -> None:
    """The library's answers take for granted that the processor rounds to nearest and keeps subnormal numbers, as it does when a program
    starts. A module built with -ffast-math can change that for the thread that loads it, and an audio host for the thread of its callback."""
    if not (_ONE + _HALF == 1.0 and -_ONE - _HALF == -1.0 and _ONE + 1.5 * _HALF > 1.0 and _TINY + _TINY > _TINY):
        flushes = not _TINY + _TINY > _TINY
        raise RuntimeError(
            f"netthimble: this thread {'flushes subnormal numbers to zero' if flushes else 'does not round to nearest'}: another module, or the "
            "audio host, has changed its floating-point mode, and answers would be wrong. In this thread, set the mode that programs start with, "
            'by import ctypes; ctypes.CDLL("libm.so.6").fesetenv(ctypes.c_void_p(-1)), after the module is imported and at the start of a '
            "callback's thread; or leave out the module (often one built with -ffast-math), or use it in a process of its own"
        )
