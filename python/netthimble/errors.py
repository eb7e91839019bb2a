"""The errors of this package: `Refused`, and what its numbers say (docs/REFERENCE.md, 'Refusals')."""
from __future__ import annotations

from typing import Optional

__all__ = ["WORDS", "Refused"]

# What each number of the table of refusals says.
WORDS = {
    1: "channels not 1..32, frames over 16,777,216, or the samples' length not channels x frames",
    2: "a sample rate outside 3,000..768,000, or NaN",
    3: "copy: a channel number not below the count",
    4: "extend: rates or channel counts differ",
    5: "split: the point is above the frame count",
    6: "retired: no call gives it",
    7: "a result over 16,777,216 frames",
    8: "an output that is not exactly the result's length",
    9: "a value that is not finite; or negative, in start and stop",
    10: "a second start, or a second clip",
    11: "a stop before a start",
    12: "a clip of no frames",
    13: "a block's time that is not finite, negative, over 2^30, or not above the last accepted block's",
    14: "a playback rate that is not finite, or a factor that is NaN or outside 2^-64..2^64",
    15: "a clip file whose header, offsets or length differ from the layout; to be written, a clip of no frames or of a file over 65,536 bytes",
    16: "cents outside -12,000..12,000",
    17: "a clip's onset that is not below its frames",
    18: "a tolerance that is not finite, or outside 0..1",
    19: "a ramp of more than 48,000 frames",
    21: "a clip file to be mended of which not one frame for each channel remains",
    22: "a staircase's step of 0 or over 20, its start or threshold over 120, or its trials not 1..1,000",
}


def shown(value: object) -> str:
    """A value in few characters, for a message."""
    try:
        text = repr(value)
    except Exception:
        text = f"<{type(value).__name__}>"
    return text if len(text) <= 40 else f"{text[:36]} .."


class Refused(ValueError):
    """A call was turned down, and changed nothing.

    `number` is that of the table of refusals (docs/REFERENCE.md, 'Refusals'), `words` what it says. `call` names the call, and
    `argument` the value that was turned down, as it was given; None where no single one was. `hint` says what may have been meant, or is
    None. It can be pickled and copied."""

    def __init__(self, call: str, number: int, argument: Optional[str] = None, hint: Optional[str] = None) -> None:
        super().__init__(call, number, argument, hint)
        self.call, self.number, self.argument, self.hint = call, number, argument, hint

    @property
    def words(self) -> str:
        """What the number says."""
        return WORDS.get(self.number, "unknown")

    def __str__(self) -> str:
        given = f"({self.argument})" if self.argument else ""
        return f"{self.call}{given}: refused with {self.number}: {self.words}" + (f". {self.hint}" if self.hint else "")
