"""The counting player: a clip in blocks of 128 frames, by whole numbers alone."""
from __future__ import annotations

import threading
from array import array
from ctypes import c_uint32
from typing import Any, List, NoReturn

from .arguments import flag, kind, takes
from .binding import CALL, FRAMES, OUT, CounterRecord, check
from .clips import Clip
from .players import IS_HELD

__all__ = ["CountedBlock", "Counter"]

_Out = c_uint32 * OUT


class CountedBlock:
    """A block of 128 frames, as `Counter.block` gives it: as `Block`, but for the position, which a counter doesn't have.

    `bits` has an array('I') of 128 f32 bit patterns for each answered channel, `samples` an array('f') of the same. The answered channels are
    the clip's, or a single one, of zeros, once the counter had ended before the block.
    `ended`: the counter has ended, with this block or before it; all that follow are zeros, for good.
    `keep_alive`: this block played."""

    __slots__ = {
        "bits": "The f32 bit patterns, an array('I') of 128 for each answered channel.",
        "keep_alive": "Whether this block played.",
        "ended": "Whether the counter has ended, with this block or before it.",
    }

    def __init__(self, bits: "List[array[int]]", keep_alive: bool, ended: bool) -> None:
        self.bits, self.keep_alive, self.ended = bits, keep_alive, ended

    @property
    def channels(self) -> int:
        """How many channels are answered: the clip's, or 1 once the counter had ended."""
        return len(self.bits)

    @property
    def samples(self) -> "List[array[float]]":
        """The samples, an array('f') of 128 for each answered channel."""
        return [array("f", words.tobytes()) for words in self.bits]

    def __repr__(self) -> str:
        return f"<netthimble.CountedBlock: {len(self.bits)} channel(s), ended {self.ended}>"


class Counter:
    """Plays a clip from its first frame on, at its own sample rate, looped or once; it keeps the frame that comes next and no position in
    seconds, and is asked for blocks at no times. Sample i of block n is frame (128n + i) mod L of the clip's L frames with the loop on; without
    it frame 128n + i below L, and zero from there on (docs/REFERENCE.md, 'Counting player'). Under the frame rule's premises a player gives
    the same samples (docs/RULE.md, 'The rule in executable form').

    Any threads may share a counter: a block is one step. TypeError: no clip; a loop that is neither True nor False. Refused with 12: a clip of
    no frames."""

    __slots__ = ("_record", "_clip", "_lock", "__weakref__")
    _record: CounterRecord
    _clip: Clip

    @takes("Counter", {"looping": "loop", "looped": "loop"})
    def __init__(self, clip: Clip, loop: bool = False) -> None:
        if not isinstance(clip, Clip):
            raise TypeError(f"Counter: clip must be a netthimble.Clip, not {kind(clip)}")
        made = CALL["counter_new"](clip._shape.channels, clip._shape.frames, flag("Counter", "loop", loop))
        check("Counter", made.refusal)
        self._record, self._clip, self._lock = CounterRecord.from_buffer_copy(made.counter), clip, threading.Lock()

    def _play(self, out: Any) -> Any:
        return CALL["counter_process"](self._record, out, OUT, self._clip._lent, len(self._clip._lent))

    def block(self) -> CountedBlock:
        """The next block. Never refused."""
        out = _Out()
        if IS_HELD:
            r = self._play(out)
        else:
            with self._lock:
                r = self._play(out)
        check("block", r.refusal)
        data, size = memoryview(out).cast("B"), 4 * FRAMES
        return CountedBlock([array("I", bytes(data[size * c : size * (c + 1)])) for c in range(r.channels)], r.keep_alive, r.ended)

    @property
    def clip(self) -> Clip:
        """The clip that it plays."""
        return self._clip

    @property
    def loop(self) -> bool:
        """Whether frame 0 follows the last one."""
        return bool(self._record.looping)

    @property
    def next_frame(self) -> int:
        """The frame that comes next; the clip's number of frames once the counter has ended."""
        return int(self._record.next)

    @property
    def ended(self) -> bool:
        """Whether it has ended, for good: the clip has run out."""
        return self.next_frame >= self._clip.frames

    def __reduce__(self) -> NoReturn:
        raise TypeError("a netthimble.Counter cannot be pickled")

    def __repr__(self) -> str:
        state = "ended" if self.ended else f"next frame {self.next_frame}"
        return f"<netthimble.Counter: {state}, loop {'on' if self.loop else 'off'}>"
