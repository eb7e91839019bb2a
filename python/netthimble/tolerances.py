"""Tolerances: what a player and a conversion take as equal (docs/REFERENCE.md, 'Near tests and tolerances')."""
from __future__ import annotations

from typing import Any, Optional, Tuple, Type, TypeVar

from .arguments import number
from .binding import CALL, DEFAULTS, TolerancesRecord, check_floats
from .errors import Refused, shown

__all__ = ["Tolerances"]

_T = TypeVar("_T", bound="Tolerances")


class Tolerances:
    """What a player and a conversion take as equal: three numbers from 0 to 1. They do not change, and are equal by their numbers.

    A player takes two times, or two positions in the clip, as equal if they are apart by less than `near` times the larger one, and a
    position as 0 if it is less than `near_zero` seconds from it. A conversion takes two sample rates as equal if they are apart by at most
    `relabel` frames a second, which is rounded to the nearest f32 first: 1 + 1e-9 is 1. What is left out is the default: 2**-26, 2**-26, 0.1.

    Refused with 18: one that is not finite, or outside 0 to 1. TypeError: one that is no number."""

    __slots__ = ("_values",)
    _values: Tuple[float, float, float]

    def __new__(cls: Type[_T], near: float = DEFAULTS.near, near_zero: float = DEFAULTS.near_zero, relabel: float = DEFAULTS.relabel) -> _T:
        given = {"near": near, "near_zero": near_zero, "relabel": relabel}
        values = [number("Tolerances", name, value) for name, value in given.items()]
        check_floats()
        made = CALL["tolerances_new"](*values)
        if made.refusal:
            bad = [name for name, value in zip(given, values) if not 0 <= value <= 1] or ["relabel"]
            raise Refused("Tolerances", made.refusal, f"{bad[0]}={shown(given[bad[0]])}")
        return cls._of(made.tolerances)

    @classmethod
    def _of(cls: Type[_T], record: TolerancesRecord) -> _T:
        tolerances = super().__new__(cls)
        object.__setattr__(tolerances, "_values", (record.near, record.near_zero, record.relabel))
        return tolerances

    @property
    def near(self) -> float:
        """The near tolerance, a part of the larger magnitude."""
        return self._values[0]

    @property
    def near_zero(self) -> float:
        """Positions below it count as 0, in seconds."""
        return self._values[1]

    @property
    def relabel(self) -> float:
        """The relabel distance, in frames a second."""
        return self._values[2]

    def __setattr__(self, name: str, value: Any) -> None:
        raise AttributeError("netthimble.Tolerances do not change")

    def __delattr__(self, name: str) -> None:
        raise AttributeError("netthimble.Tolerances do not change")

    def __eq__(self, other: object) -> bool:
        if not isinstance(other, Tolerances):
            return NotImplemented
        return self._values == other._values

    def __hash__(self) -> int:
        return hash(self._values)

    def __reduce__(self) -> Tuple[Any, ...]:
        return type(self), self._values

    def __repr__(self) -> str:
        return "netthimble.Tolerances(near={!r}, near_zero={!r}, relabel={!r})".format(*self._values)


def record_of(call: str, given: Optional[Tolerances]) -> TolerancesRecord:
    """The library's record of tolerances, the defaults for None."""
    if given is None:
        return DEFAULTS
    if not isinstance(given, Tolerances):
        raise TypeError(f"{call}: tolerances must be a netthimble.Tolerances, or None, not {type(given).__name__} {shown(given)}")
    return TolerancesRecord(*given._values)
