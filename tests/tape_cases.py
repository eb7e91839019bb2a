#!/usr/bin/env python3
"""The loop switch during playback: the Python package on random lists of blocks and loop messages, beside the tape of
docs/REFERENCE.md, 'The loop switch'. The tape is written here from its words, not taken from oracle/rust.
"""
import math
import random
import sys
from array import array
from fractions import Fraction
from functools import partial
from pathlib import Path

sys.path.insert(0, str(Path(__file__).resolve().parent.parent / "tools"))
from shared import TOP, Checks, library, seeds

sys.path.insert(0, str(TOP / "python"))
LATEST = 2.0**30
LISTS = 400
RATES = [3000, 8000, 11025, 11025.5, 22050, 44000, 44100, 48000, 96000, 192000, 768000]
BOUND = Fraction(1, 1024)
check = Checks("tape")


# ---- the tape


class Tape:
    def __init__(self, frames):
        self.frames, self.p, self.looped = frames, 0, False
        self.exact, self.ended = False, False

    def block(self):
        """What the samples of a block play: frames, or None for zero."""
        if self.ended:
            return [None] * 128
        played, wrapped = [], False
        while len(played) < 128:
            if self.p < self.frames:
                played.append(self.p)
                self.p += 1
            elif self.looped:
                played.append(0)
                self.p, wrapped = 1, True
            else:
                played.append(None)
                self.p += 1
        self.exact = not self.looped and self.p == self.frames
        self.ended = not self.looped and self.p > self.frames
        if self.p == self.frames and wrapped:
            self.p = 0
        return played


class Run:
    """A player and its tape. Its list is kept, to be shown."""

    def __init__(self, name, rate, rows):
        self.name, self.rows, self.calls = name, rows, []
        self.clip, self.player = netthimble.Clip.from_bits(rate, rows), netthimble.Player(rate)
        self.rate, self.tape = self.clip.rate, Tape(self.clip.frames)

    def begin(self, when=0.0, offset=0.0, loops=(), r=None):
        """The clip, the start and loop messages; in any order, where r is given."""
        calls = [partial(self.player.set_clip, self.clip), partial(self.player.start, when, offset)]
        calls += [partial(self.switch, on) for on in loops]
        if r:
            r.shuffle(calls)
        for call in calls:
            call()

    def switch(self, on):
        self.player.loop = self.tape.looped = on
        self.calls.append(f"loop {on}")

    def block(self, at):
        had_ended, played = self.player.ended, self.tape.block()
        self.calls.append(f"block {at!r}")
        given = self.player.block(at)
        rows = self.rows[: 1 if had_ended else len(self.rows)]
        bits = [[0 if n is None else row[n] for n in played] for row in rows]
        wrong = []
        if [list(row) for row in given.bits] != bits:
            wrong.append(f"samples, {len(given.bits)} channels")
        if given.keep_alive == had_ended:
            wrong.append(f"keep-alive {given.keep_alive}")
        if given.ended != self.tape.ended and (self.tape.ended or not self.tape.exact):
            wrong.append(f"ended {given.ended}")
        apart = abs(Fraction(given.position) * Fraction(self.rate) - self.tape.p)
        if not given.ended and apart > BOUND:
            wrong.append(f"{float(apart)} frames from {self.tape.p}")
        check(f"{self.name}, call {len(self.calls)}", not wrong, wrong and self.told(wrong))
        return given

    def told(self, wrong):
        return f"{wrong}, {self.tape.frames} frames at {self.rate!r}: {'; '.join(self.calls)}"

    def refused(self, number, call, *given):
        """A call that is refused, and changes nothing."""
        before = bytes(self.player._record)
        try:
            call(*given)
        except netthimble.Refused as refused:
            ok = refused.number == number and before == bytes(self.player._record)
            check(f"{self.name}, refused", ok, f"{refused}, not {number}")
        else:
            check(f"{self.name}, refused", False, f"not refused, {number} expected")


# ---- by hand


def by_hand():
    """Frames of a clip, the loop before each block, the frame that block's first sample plays, and
    whether it has ended the player (None: that block or the next one)."""
    ramp, zero = list(range(1, 2000)), None
    for frames, loops, first, ended in (
        (3, "111", [0, 2, 1], [0, 0, 0]),
        (3, "1100", [0, 2, 1, zero], [0, 0, 1, 1]),
        (128, "10", [0, zero], [0, 1]),
        (128, "110", [0, 0, 0], [0, 0, 1]),
        (100, "01", [0, zero], [1, 1]),
        (256, "1110", [0, 128, 0, 128], [0, 0, 0, 1]),
        (256, "11110", [0, 128, 0, 128, zero], [0, 0, 0, 0, 1]),
        (200, "0011", [0, 128, zero, zero], [0, 1, 1, 1]),
        (300, "01100", [0, 128, 256, 84, 212], [0, 0, 0, 0, 1]),
        (640, "000000", [0, 128, 256, 384, 512, zero], [0, 0, 0, 0, None, 1]),
    ):
        run = Run(f"{frames} frames, loop {loops}", 48000, [array("I", ramp[:frames])])
        run.begin()
        for n, on in enumerate(loops):
            if n == 0 or on != loops[n - 1]:
                run.switch(on == "1")
            given = run.block(128 * n / 48000)
            heard = given.bits[0][0] == (0 if first[n] is zero else first[n] + 1)
            said = ended[n] is None or given.ended == bool(ended[n])
            why = list(given.bits[0][:2]), given.ended
            check(f"{run.name}, by hand, {n}", heard and said, why)


# ---- random lists


def length(r):
    whole = 128 * r.choice([1, 1, 2, 3, 4, 5, r.randint(1, 12)])
    near = whole + r.choice([-2, -1, 0, 1, 2])
    small, any_length = r.randint(1, 20), r.randint(1, 1500)
    return r.choice([whole, whole, near, near, small, 32 * r.randint(1, 12), any_length])


def moved(r, last, first, count, rate, manner):
    """The next block's time; None where none is left."""
    if last is None:
        return first
    after, block = math.nextafter(last, math.inf), 128 / rate
    within, far = last + r.random() * block, last + block * 2.0 ** r.randint(0, 23)
    times = [first + 128 * count / rate, last + block, within, after, far]
    wanted = times[manner] if manner < 5 else r.choice(times)
    at = max(after, wanted) if wanted <= LATEST else after
    return at if at <= LATEST else None


def messages(r, tape, manner):
    """Loop messages before a block: none, any, one each time, or at the moments that matter."""
    if manner == 0:
        return []
    if manner == 1:
        return [r.random() < 0.5 for _ in range(r.choice([0, 0, 1, 2, 4]))]
    if manner == 2:
        return [not tape.looped]
    at_hand = tape.p <= 128 or tape.p + 128 >= tape.frames or tape.ended
    return [r.random() < 0.5 for _ in range(r.choice([0, 1, 1, 2]))] if at_hand else []


def strewn(r, run, last, at):
    """A call that is refused."""
    n, player = r.randrange(6), run.player
    if n == 0:
        run.refused(10, player.start, at)
    elif n == 1:
        run.refused(10, player.set_clip, netthimble.Clip(run.rate, [[1.0]]))
    elif n == 2:
        run.refused(9, player.stop, -1.0)
    elif n == 3:
        run.refused(14, player.block, at, float("nan"))
    else:
        run.refused(13, player.block, float("inf") if last is None else last)


def random_list(r, n):
    rate, frames = r.choice([*RATES, 48000 + r.random(), r.uniform(3000, 768000)]), length(r)
    first = r.choice([0.0, -0.0, 1.0, r.random(), r.uniform(0, LATEST), LATEST - r.random() / 8])
    rows = [array("I", r.sample(range(2**32), frames)) for _ in range(r.choice([1, 1, 2, 3]))]
    when = r.choice([first, 0.0, -0.0, abs(first) * r.random()])
    loops = [r.random() < 0.6 for _ in range(r.choice([0, 1, 1, 2, 4]))]
    run = Run(f"list {n}", rate, rows)
    run.begin(when, r.choice([0.0, -0.0]), loops, r)
    last, manner, times = None, r.randrange(5), r.randrange(6)
    for count in range(r.randint(1, 3 * frames // 128 + 8)):
        at = moved(r, last, first, count, run.rate, times)
        if at is None:
            break
        for on in messages(r, run.tape, manner) if count else ():
            # a premise: no loop-on message between an exact fit by an unlooped block and the next
            if not (on and run.tape.exact):
                run.switch(on)
        if r.random() < 0.05:
            strewn(r, run, last, at)
        run.block(at)
        last = at


def main(both):
    global netthimble
    if not library():
        return 0
    import netthimble

    by_hand()
    for seed in both:
        check.seed, r = seed, random.Random(seed)
        for n in range(LISTS):
            random_list(r, n)
    return check.ended()


if __name__ == "__main__":
    sys.exit(main(seeds(__doc__)))
