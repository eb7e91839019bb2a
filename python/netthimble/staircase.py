"""A two-down one-up staircase with a simulated listener, tried before listeners come (docs/REFERENCE.md, 'Staircase')."""
from __future__ import annotations

from ctypes import c_size_t
from typing import Iterable, List

from .arguments import kind, takes, whole
from .binding import CALL, U64_HIGH, TrackRecord
from .errors import Refused, shown

__all__ = ["Track", "staircase"]

_MEANT = {
    **dict.fromkeys(("level", "start_level", "initial"), "start"),
    **dict.fromkeys(("step_size", "stepsize"), "step"),
    **dict.fromkeys(("n", "n_trials", "ntrials", "count"), "trials"),
    **dict.fromkeys(("lapse", "lapse_trials"), "lapses"),
}
_ACCEPTED = {"start": (0, 120), "threshold": (0, 120), "step": (1, 20), "trials": (1, 1000)}


class Track:
    """What a staircase went through, as `staircase` gives it.

    `levels` and `heard` have 1,000 places each: the first `trials` are the trials', and those behind them hold 0 and False. So
    `track.levels[:track.trials]` are the trials' levels."""

    __slots__ = {
        "trials": "The number of trials.",
        "levels": "Each trial's level in decibels, then only 0: 1,000 places.",
        "heard": "Each trial's reply, after a lapse: whether it is that the listener heard; then only False. 1,000 places.",
        "reversals": "How often the trials' levels change their direction, those that stay skipped.",
    }

    def __init__(self, trials: int, record: TrackRecord) -> None:
        self.trials: int = trials
        self.levels: List[int] = list(record.levels)
        self.heard: List[bool] = list(record.heard)
        self.reversals: int = record.reversals

    def __repr__(self) -> str:
        return f"<netthimble.Track: {self.trials} trial(s), {self.reversals} reversal(s)>"


def _trial(entry: object) -> int:
    """An entry of a list of lapses. One that C cannot hold is beyond every trial, as the largest that it holds is."""
    number = whole("staircase", "each of lapses", entry)
    if number < 0:
        raise ValueError(f"staircase: lapses has {shown(entry)}, which is no trial: trials count from 0")
    return min(number, U64_HIGH)


@takes("staircase", _MEANT)
def staircase(start: int, threshold: int, step: int, trials: int, lapses: Iterable[int] = ()) -> Track:
    """Tries a two-down one-up staircase from the level `start` on a simulated listener, who hears at and above `threshold`; both, and the `step`, in
    whole decibels. Two heard replies in a row lower the level by the step, one unheard raises it, and either restarts the count; levels stop at
    0 and 120. Trials count from 0; on each trial that stands in `lapses` the reply is reversed. An entry that stands there again, or is beyond
    the last trial, changes nothing.

    Refused with 22: a step of 0 or over 20, a start or threshold over 120, trials that are not 1 to 1,000. TypeError: no whole number.
    ValueError: a lapse trial below 0."""
    given = {"start": start, "threshold": threshold, "step": step, "trials": trials}
    values = {name: whole("staircase", name, value) for name, value in given.items()}
    try:
        listed = iter(lapses)
    except TypeError:
        raise TypeError(f"staircase: lapses must be a list of trials, not {kind(lapses)}") from None
    entries = [_trial(entry) for entry in listed]
    # what C cannot hold, also below 0, is refused as the largest that it holds
    held = [value if 0 <= value <= U64_HIGH else U64_HIGH for value in values.values()]
    answer = CALL["staircase"](*held, (c_size_t * len(entries))(*entries), len(entries))
    if answer.refusal:
        bad = [name for name, (low, high) in _ACCEPTED.items() if not low <= values[name] <= high]
        raise Refused("staircase", answer.refusal, ", ".join(f"{name}={shown(given[name])}" for name in bad))
    return Track(values["trials"], answer.track)
