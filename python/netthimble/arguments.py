"""What a caller hands in, as the library takes it: a wrong type is a TypeError that names the call and the argument. A whole number
that C cannot hold becomes one that the library refuses with its own number."""
from __future__ import annotations

import errno
import functools
import inspect
import math
import numbers
import operator
import os
import sys
from typing import Any, Callable, Dict, TypeVar, cast

from .errors import shown

_F = TypeVar("_F", bound=Callable[..., Any])
I32_LOW, I32_HIGH = -(2**31), 2**31 - 1

# What other libraries call an argument, and what it is called here.
RATES = dict.fromkeys(("rate", "samplerate", "sampleRate", "fs"), "sample_rate")
SPEEDS = dict.fromkeys(("rate", "speed", "playbackRate"), "playback_rate")


def kind(value: object) -> str:
    """A value with its type, for a message."""
    return f"{type(value).__name__} {shown(value)}"


def is_flag(value: Any) -> bool:
    """Whether a value is True or False, NumPy's too, alone or in an array."""
    return isinstance(value, bool) or str(getattr(value, "dtype", "")) == "bool"


def number(call: str, argument: str, value: Any) -> float:
    """A number as a double: an int, a float, a Fraction, a Decimal, or one of NumPy's; no bool. A whole number past a double's range is an
    infinity."""
    if type(value) is float:
        return value
    is_complex = isinstance(value, numbers.Complex) and not isinstance(value, numbers.Real)
    try:
        if is_complex or getattr(value, "shape", None) or is_flag(value):
            raise TypeError
        return math.ldexp(value, 0)  # takes what C takes for a double, and no text
    except TypeError:
        raise TypeError(f"{call}: {argument} must be a number, not {kind(value)}") from None
    except OverflowError:
        return math.inf if value > 0 else -math.inf


def whole(call: str, argument: str, value: Any) -> int:
    """A whole number: an int, or what Python takes as an index; no bool."""
    try:
        if is_flag(value):
            raise TypeError
        return int(operator.index(value))
    except TypeError:
        raise TypeError(f"{call}: {argument} must be a whole number, not {kind(value)}") from None


def cents(call: str, value: Any) -> int:
    """Whole cents. What no i32 holds is refused as the i32 next to it is."""
    return max(I32_LOW, min(I32_HIGH, whole(call, "cents", value)))


def ramp(call: str, value: Any) -> int:
    """A ramp's frames; what no size_t holds becomes a number that the library refuses."""
    frames = whole(call, "ramp", value)
    return frames if 0 <= frames <= 48_000 else 48_001


def flag(call: str, argument: str, value: Any) -> bool:
    """True or False, NumPy's too, and nothing that is merely true or false."""
    if value is True or value is False:
        return bool(value)
    numpy = sys.modules.get("numpy")
    if numpy is not None and isinstance(value, numpy.bool_):
        return bool(value)
    raise TypeError(f"{call}: {argument} must be True or False, not {kind(value)}")


def takes(call: str, meant: Dict[str, str]) -> Callable[[_F], _F]:
    """Turns down names of arguments that a call does not have, with what is likely meant by them, before any that is missing."""

    def around(function: _F) -> _F:
        known = frozenset(inspect.signature(function).parameters)

        @functools.wraps(function)
        def told(*given: Any, **named: Any) -> Any:
            for name in named:
                if name not in known:
                    raise TypeError(f"{call} has no argument {name!r}" + (f": likely {meant[name]} is meant" if name in meant else ""))
            return function(*given, **named)

        return cast(_F, told)

    return around


def bytes_of(call: str, argument: str, value: Any) -> bytes:
    """A copy of bytes: of bytes, a bytearray or a memoryview; a ValueError where the memory was released."""
    if not isinstance(value, (bytes, bytearray, memoryview)):
        raise TypeError(f"{call}: {argument} must be a file's bytes, not {kind(value)}")
    try:
        return bytes(value)
    except ValueError as wrong:
        raise ValueError(f"{call}: {argument} cannot be read: {wrong}") from None


# ---- paths


def path_of(call: str, argument: str, given: Any) -> str:
    """A path as text: a TypeError where it is none, a ValueError where no file can be called so."""
    if not isinstance(given, (str, os.PathLike)):
        raise TypeError(f"{call}: {argument} must be a path, not {kind(given)}")
    path = os.fspath(given)
    try:
        if b"\0" in os.fsencode(path):
            raise ValueError("it has a NUL in it")
    except ValueError as wrong:
        raise ValueError(f"{call}: {argument} {shown(path)} is no path: {wrong}") from None
    return os.fsdecode(path)


def of_path(wrong: OSError, path: str) -> OSError:
    """The error with the path that the caller gave, whether it had one or not."""
    return OSError(wrong.errno or errno.EIO, wrong.strerror or str(wrong), path)
