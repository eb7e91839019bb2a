"""Players: a clip, played in blocks of 128 frames; and the factor of cents."""
from __future__ import annotations

import math
import sys
import threading
from array import array
from ctypes import c_float, c_uint32
from typing import Any, List, NoReturn, Optional

from .arguments import RATES, SPEEDS, flag, kind, number, takes
from .arguments import cents as _cents
from .arguments import ramp as _ramp
from .binding import CALL, FRAMES, NEVER, OUT, Options, PlayerRecord, check, check_floats
from .clips import Clip
from .errors import Refused, shown
from .tolerances import Tolerances, record_of

__all__ = ["Block", "Player", "factor"]

_Out, _NONE = c_uint32 * OUT, (c_uint32 * 0)()
_BLOCK = {**SPEEDS, "detune": "cents", "when": "time"}
_START = {**dict.fromkeys(("playback_rate", *SPEEDS), "playback_rate of block"), "time": "when", "loop": "the player's loop"}

# Whether a call of the library is one step, because Python's interpreter is held through it. In a Python without that lock, it takes the player's.
IS_HELD = bool(getattr(sys, "_is_gil_enabled", lambda: True)())


def factor(cents: int) -> float:
    """The factor of whole cents, -12,000 to 12,000: entry (cents mod 1,200) of the table of an octave over 2^30, times 2 to the whole octaves
    (docs/REFERENCE.md, 'Detune in cents'). Refused with 16: others. TypeError: no whole number."""
    given = _cents("factor", cents)
    check_floats()
    made = CALL["factor"](given)
    check("factor", made.refusal, "cents", cents)
    return float(made.factor)


class Block:
    """A block of 128 frames, as `Player.block` and `Player.preview` give it.

    `bits` has an array('I') of 128 f32 bit patterns for each answered channel, `samples` an array('f') of the same. The answered channels are
    the clip's, or a single one, of zeros, where nothing is played: before the block in which the start is, without a clip, and once the player
    had ended before the block.
    `position` is where the player stands after the block, in seconds of the clip.
    `ended`: the player has ended, with this block or before it; all that follow are zeros, for good.
    `keep_alive`: this block played, or a start is still to come; False says that the player may be let go, or was never started."""

    __slots__ = {
        "bits": "The f32 bit patterns, an array('I') of 128 for each answered channel.",
        "keep_alive": "Whether this block played, or a start is still to come.",
        "ended": "Whether the player has ended, with this block or before it.",
        "position": "Where the player stands after the block, in seconds of the clip.",
    }

    def __init__(self, bits: "List[array[int]]", keep_alive: bool, ended: bool, position: float) -> None:
        self.bits, self.keep_alive, self.ended, self.position = bits, keep_alive, ended, position

    @property
    def channels(self) -> int:
        """How many channels are answered: the clip's, or 1 where nothing is played."""
        return len(self.bits)

    @property
    def samples(self) -> "List[array[float]]":
        """The samples, an array('f') of 128 for each answered channel."""
        return [array("f", words.tobytes()) for words in self.bits]

    def __repr__(self) -> str:
        return f"<netthimble.Block: {len(self.bits)} channel(s), position {self.position:g}, ended {self.ended}>"


class Player:
    """Plays a clip for an output of `sample_rate` frames a second, by the `tolerances` that it keeps, or the defaults, with a ramp of `ramp`
    frames, 0 to 48,000, at onset and at the stop (docs/REFERENCE.md, 'Ramps'). It is made with neither a clip nor a start, and the loop off;
    it plays one clip, once (docs/REFERENCE.md, 'Player and messages').

    Any threads may share a player, and so may the handlers of signals: a message, a block, a preview and a copy are one step each, which waits for
    nothing, and none is lost; a message counts from the next block on. `set_clip` alone takes a lock.

    A call that is refused changes nothing. Refused with 2: the sample rate; then 19: the ramp."""

    __slots__ = ("_record", "_clip", "_lock", "__weakref__")
    _record: PlayerRecord
    _clip: Optional[Clip]  # the one that was given, if the record has a buffer; else it says nothing

    @takes("Player", RATES)
    def __init__(self, sample_rate: float, *, tolerances: Optional[Tolerances] = None, ramp: int = 0) -> None:
        options = Options(record_of("Player", tolerances), _ramp("Player", ramp))
        rate = number("Player", "sample_rate", sample_rate)
        check_floats()
        record = PlayerRecord()
        refusal = CALL["player_new_with"](record, rate, options)
        check("Player", refusal, *(("ramp", ramp) if refusal == 19 else ("sample_rate", sample_rate)))
        self._begin(record, None)

    def _begin(self, record: PlayerRecord, clip: Optional[Clip]) -> None:
        self._record, self._clip, self._lock = record, clip, threading.RLock()

    def _tell(self, call: str, *values: Any) -> int:
        """Sends a message, and gives the number of its refusal."""
        check_floats()
        if IS_HELD:
            return int(CALL[call](self._record, *values))
        with self._lock:
            return int(CALL[call](self._record, *values))

    # ---- messages

    def set_clip(self, clip: Clip) -> None:
        """Gives the player its clip, once; the player holds on to it. Refused: 10 (it has one), 12 (a clip of no frames)."""
        if not isinstance(clip, Clip):
            raise TypeError(f"set_clip: clip must be a netthimble.Clip, not {kind(clip)}")
        check_floats()
        shape, lent = clip._shape, clip._lent
        with self._lock:
            if not self._record.has_buffer:
                self._clip = clip  # before the call that makes it count, so that an exception between the two leaves nothing half done
            refusal = CALL["player_set_buffer"](self._record, shape.channels, shape.frames, shape.rate, lent, len(lent))
        check("set_clip", refusal)

    @takes("start", _START)
    def start(self, when: float = 0.0, offset: float = 0.0, duration: Optional[float] = None) -> None:
        """Start at `when` seconds of the context, `offset` seconds into the clip, for `duration` seconds of it (None: all), once. A player that was
        told to start, and has no clip at its next block, ends with that block.
        Refused: 9 (one is negative or not finite), 10 (a second start)."""
        given = {"when": when, "offset": offset, "duration": NEVER if duration is None else duration}
        values = [number("start", name, value) for name, value in given.items()]
        refusal = self._tell("player_start", *values)
        if refusal:
            bad = [name for name, value in zip(given, values) if not 0 <= value < math.inf]
            raise Refused("start", refusal, f"{bad[0]}={shown(given[bad[0]])}" if refusal == 9 and bad else None)

    def stop(self, when: float) -> None:
        """Stop at `when` seconds of the context; a later stop replaces it. Refused: 9 (negative or not finite), 11 (before a start)."""
        refusal = self._tell("player_stop", number("stop", "when", when))
        check("stop", refusal, f"when={shown(when)}" if refusal == 9 else None)

    @property
    def loop(self) -> bool:
        """Whether the clip is looped. To be set to True or False, and nothing else, before the first block or between any two: it counts from
        the next block on (docs/REFERENCE.md, 'The loop switch'). TypeError: no bool, Python's or NumPy's."""
        return bool(self._record.loop_state.is_looping)

    @loop.setter
    def loop(self, on: bool) -> None:
        self.set_loop(on)

    def set_loop(self, on: bool) -> None:
        """`loop`, as a call."""
        self._tell("player_loop", flag("loop", "loop", on))

    @property
    def loop_start(self) -> float:
        """Where the loop starts, in seconds of the clip. Once there is a clip it is brought into 0 to the clip's duration.
        Refused with 9: a value that is not finite."""
        return float(self._record.loop_state.start)

    @loop_start.setter
    def loop_start(self, at: float) -> None:
        self.set_loop_start(at)

    def set_loop_start(self, at: float) -> None:
        """`loop_start`, as a call."""
        check("loop_start", self._tell("player_loop_start", number("loop_start", "at", at)), "at", at)

    @property
    def loop_end(self) -> float:
        """Where the loop ends, in seconds of the clip. Once there is a clip, 0 or less, or more than it has, becomes its duration.
        Refused with 9: a value that is not finite."""
        return float(self._record.loop_state.end)

    @loop_end.setter
    def loop_end(self, at: float) -> None:
        self.set_loop_end(at)

    def set_loop_end(self, at: float) -> None:
        """`loop_end`, as a call."""
        check("loop_end", self._tell("player_loop_end", number("loop_end", "at", at)), "at", at)

    # ---- blocks

    def _play(self, render: Any, out: Any, at: float, rate: float, amount: float) -> Any:
        """The library's answer. A clip that comes in after it was looked for has the call refused with 1, and made again."""
        while True:
            clip = self.clip
            lent = _NONE if clip is None else clip._lent
            answer = render(self._record, out, OUT, lent, len(lent), at, rate, amount)
            if answer.refusal != 1 or self.clip is clip:
                return answer

    def _render(self, word: str, call: str, time: Any, playback_rate: Any, factor: Any, cents: Any) -> Block:
        at, rate = number(word, "time", time), number(word, "playback_rate", playback_rate)
        if cents is None:
            amount: float = 1.0 if factor is None else number(word, "factor", factor)
        elif factor is None:
            amount, call = _cents(word, cents), call + "_cents"
        else:
            raise TypeError(f"{word} takes a factor or cents, not both")
        check_floats()
        out = _Out()
        if IS_HELD:
            r = self._play(CALL[call], out, at, rate, amount)
        else:
            with self._lock:
                r = self._play(CALL[call], out, at, rate, amount)
        if r.refusal:
            raise _refused_block(word, r.refusal, time, playback_rate, factor, cents, rate)
        data, size = memoryview(out).cast("B"), 4 * FRAMES
        return Block([array("I", bytes(data[size * c : size * (c + 1)])) for c in range(r.channels)], r.keep_alive, r.ended, r.position)

    @takes("block", _BLOCK)
    def block(self, time: float, playback_rate: float = 1.0, factor: Optional[float] = None, *, cents: Optional[int] = None) -> Block:
        """The block at `time` seconds of the context, played at `playback_rate`, 1 being the clip's own speed, times `factor` (1 if it is left
        out), or times the factor of whole `cents` in its place. Times must rise from block to block; block n of an output without gaps is at
        128 n / sample_rate. The playback rate is rounded to the nearest f32.

        Refused: 13 (the time), 16 (the cents), 14 (the playback rate is not finite, or the factor is NaN or outside 2^-64 to 2^64).
        TypeError: a factor and cents, or a name that the call does not have, such as `rate`."""
        return self._render("block", "player_process", time, playback_rate, factor, cents)

    @takes("preview", _BLOCK)
    def preview(self, time: float, playback_rate: float = 1.0, factor: Optional[float] = None, *, cents: Optional[int] = None) -> Block:
        """The block that `block` would give for the same values, without playing it: the player goes on as if nobody had looked
        (docs/REFERENCE.md, 'Preview'). Refused as `block` is."""
        return self._render("preview", "player_preview", time, playback_rate, factor, cents)

    # ---- what can be read

    @property
    def sample_rate(self) -> float:
        """The output's frames a second, an f32."""
        return float(self._record.sample_rate)

    @property
    def rate(self) -> float:
        """Another name of `sample_rate`, as a clip has it."""
        return self.sample_rate

    @property
    def clip(self) -> Optional[Clip]:
        """The clip that it was given, or None."""
        return self._clip if self._record.has_buffer else None

    @property
    def tolerances(self) -> Tolerances:
        """The tolerances that the player was made with."""
        return Tolerances._of(self._record.tolerances)

    @property
    def ramp(self) -> int:
        """The frames of the ramp at onset and at the stop, 0 to 48,000; 0 is none."""
        return int(self._record.ramp.length)

    @property
    def ramp_count(self) -> int:
        """The number that the next sample has, the starting one being 0: how many have counted. Before the start it is 0."""
        return int(self._record.ramp.count)

    @property
    def stop_sample(self) -> Optional[int]:
        """The number of the sample at the stop, from which on all are zero with a ramp; None where there is no stop, or before the start."""
        return int(self._record.ramp.stop_sample) if self._record.ramp.has_stop_sample else None

    @property
    def position(self) -> float:
        """Seconds of the clip: 0 until it plays, whatever the offset; then where the next block goes on."""
        return float(self._record.render_state.buffer_time)

    @property
    def has_start(self) -> bool:
        """Whether it was told to start."""
        return bool(self._record.has_start)

    @property
    def has_started(self) -> bool:
        """Whether a block has begun to play the clip."""
        return bool(self._record.render_state.started)

    @property
    def ended(self) -> bool:
        """Whether it has ended, for good: the clip has run out, the duration is over, or the stop has come."""
        return bool(self._record.render_state.ended)

    @property
    def has_ended(self) -> bool:
        """`ended`, named like `has_started`."""
        return self.ended

    # ---- copies

    def copy(self) -> "Player":
        """A player that stands where this one does, with the same clip, and a life of its own."""
        player = type(self).__new__(type(self))
        if IS_HELD:
            player._begin(PlayerRecord.from_buffer_copy(self._record), self._clip)  # in this order: of a record with a buffer, the clip stays
        else:
            with self._lock:
                player._begin(PlayerRecord.from_buffer_copy(self._record), self._clip)
        return player

    __copy__ = copy

    def __deepcopy__(self, memo: Any) -> "Player":
        return self.copy()

    def __reduce__(self) -> NoReturn:
        raise TypeError("a netthimble.Player cannot be pickled; within a process it has copy()")

    def __repr__(self) -> str:
        state = "ended" if self.ended else "started" if self.has_started else "not started"
        return f"<netthimble.Player at {self.sample_rate:g}: {state}, position {self.position:g}, loop {'on' if self.loop else 'off'}>"


def _refused_block(word: str, refusal: int, time: Any, playback_rate: Any, factor: Any, cents: Any, rate: float) -> Refused:
    """A block's refusal, with the value that it is about."""
    is_fast = not math.isfinite(c_float(rate).value)
    given = {13: ("time", time), 14: ("playback_rate", playback_rate) if is_fast else ("factor", factor), 16: ("cents", cents)}.get(refusal)
    return Refused(word, refusal, f"{given[0]}={shown(given[1])}" if given else None)
