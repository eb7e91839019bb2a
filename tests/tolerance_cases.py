#!/usr/bin/env python3
"""Tolerances as settings: the Python package on random scripts of sub-sample blocks, beside a reading in Python of
docs/REFERENCE.md, 'Sub-sample block', whose near tests receive the same tolerances; and the defaults spelled out beside none.
"""
import ctypes
import math
import random
import struct
import sys
from array import array
from fractions import Fraction
from pathlib import Path

sys.path.insert(0, str(Path(__file__).resolve().parent.parent / "tools"))
from shared import TOP, Checks, library, seeds
from shared.bits import single

sys.path.insert(0, str(TOP / "python"))
NEVER = 1.7976931348623157e308
SCRIPTS = 250
check = Checks("tolerance", shown=20, width=600)


# ---- the reading


class Reading:
    """A player of one clip of one channel, its blocks read from the Rust's slow track in its order. `near`, `near_zero`: the tolerances."""

    def __init__(self, rate, clip_rate, frames, near, near_zero):
        self.rate, self.frames, self.near, self.near_zero = rate, frames, near, near_zero
        self.seconds, self.ratio = len(frames) / clip_rate, clip_rate / rate
        self.start, self.stop, self.offset, self.duration = NEVER, NEVER, 0.0, NEVER
        self.looping, self.loop_start, self.loop_end = False, 0.0, self.seconds
        self.position, self.elapsed, self.started, self.entered, self.ended = 0.0, 0.0, False, False, False

    def is_near(self, a, b):
        return a == b or abs(a - b) < self.near * max(abs(a), abs(b))

    def aligns(self, time, computed):
        """Whether the Rust would leave the slow track: no script goes on from there."""
        block = 1 / self.rate * 128
        moved = self.ratio != 1 or computed != 1 or self.loop_start != 0 or self.loop_end != self.seconds
        within = self.position + block > self.duration or time + block > self.stop
        return self.start == time and self.offset == 0 and not moved and not within

    def block(self, time, rate, factor):
        """The floats of a block; None where the script ends before it."""
        dt, computed = 1 / self.rate, rate * factor
        end = time + dt * 128
        if self.ended:
            return [0.0] * 128
        if self.start >= end:
            self.ended = self.stop <= end
            return [0.0] * 128
        if not self.started and self.start < time:
            self.start = time
        if self.aligns(time, computed):
            return None
        ordered = self.loop_start >= 0 and self.loop_end > 0 and self.loop_start < self.loop_end
        loop = ((self.loop_start, self.loop_end) if ordered else (0.0, self.seconds)) if self.looping else (0.0, 0.0)
        self.entered = self.entered and self.looping
        out = [self.sample(time + i * dt, dt, rate, computed, *loop) for i in range(128)]
        over = computed > 0 and self.position >= self.seconds or computed < 0 and self.position < 0
        self.ended = end >= self.stop or self.elapsed >= self.duration or not self.looping and over
        return out

    def sample(self, now, dt, rate, computed, loop_start, loop_end):
        """What the sample at the instant `now` plays; the position goes on."""
        if not self.started and self.is_near(now, self.start):
            self.start = now
        if self.is_near(self.elapsed, self.duration):
            self.elapsed = self.duration
        if now < self.start or now >= self.stop or self.elapsed >= self.duration:
            return 0.0
        if not self.started:
            self.begin(now - self.start, computed, loop_start, loop_end)
        if self.looping:
            self.turn(loop_start, loop_end)
        if abs(self.position) < self.near_zero:
            self.position = 0.0
        value = self.played(rate, loop_start, loop_end) if 0 <= self.position < self.seconds else 0.0
        self.position += dt * computed
        self.elapsed += abs(dt * computed)
        return value

    def begin(self, late, computed, loop_start, loop_end):
        self.offset = min(max(self.offset + late * computed, 0.0), self.seconds)
        if self.looping and computed >= 0 and self.offset > loop_end:
            self.offset = loop_end
        if self.looping and computed < 0 and self.offset < loop_start:
            self.offset = loop_start
        self.position, self.elapsed, self.started = self.offset, abs(late * computed), True

    def turn(self, start, end):
        if self.is_near(self.position, end):
            self.position = end
        if self.is_near(self.position, start):
            self.position = start
        if self.offset < end and self.position >= start or self.offset >= end and self.position < end:
            self.entered = True
        if self.entered and not start <= self.position < end:
            left = math.fmod(self.position - start, end - start)
            self.position = start + (left + (end - start) if left < 0 else left)

    def played(self, rate, loop_start, loop_end):
        place = self.position * self.ratio * self.rate
        frame, last = math.floor(place), len(self.frames) - 1
        if frame > last:
            return 0.0
        k = place - frame
        following = self.frames[frame + 1] if frame < last else self.after(frame, k, rate, loop_start * self.rate, loop_end * self.rate)
        exact = Fraction(1 - k) * Fraction(self.frames[frame]) + Fraction(k * following)
        return single(float(exact))

    def after(self, last, k, rate, loop_start, loop_end):
        """The sample after the last frame."""
        if self.looping:
            return self.frames[min(math.ceil(loop_start) if rate >= 0 else math.floor(loop_end), last)]
        return 0.0 if self.is_near(k, 1.0) or last == 0 else 2 * self.frames[last] - self.frames[last - 1]


# ---- random scripts


def beside(r, x):
    """A number from 0 to 1 at x, or next to it."""
    return min(max(r.choice([x, x, math.nextafter(x, 0.0), math.nextafter(x, 1.0)]), 0.0), 1.0)


class Script:
    """A clip, its messages and the times and speeds of its blocks; `tolerances` are near and near zero."""

    def __init__(self, r):
        self.rate = single(r.choice([44100.0, 48000.0, 48000.0, 192000.0, 768000.0, r.uniform(3000, 768000)]))
        self.clip_rate = r.choice([self.rate, self.rate, self.rate, single(r.uniform(3000, 768000))])
        self.frames = [single(r.uniform(0.5, 2.0)) for _ in range(r.choice([1, 2, 3, 20, 100, 128, 200, 400]))]
        self.first = r.choice([0.0, r.random(), r.uniform(0, 200), r.uniform(0, 10000)])
        self.speed = single(r.choice([1.0, 1.0, 0.5, 0.75, 1.25, 3.0, -1.0, -0.75])), r.choice([1.0, 1.0, 1.0, r.uniform(0.5, 2)])
        self.step = abs(self.speed[0] * self.speed[1]) / self.rate
        seconds = len(self.frames) / self.clip_rate
        self.start = max(self.first + r.choice([0.0, r.randint(-3, 150), r.uniform(-3, 150)]) / self.rate, 0.0)
        self.offset = r.choice([0.0, self.step, r.random() * seconds, seconds])
        self.duration = r.choice([NEVER, NEVER, seconds, self.step * r.randint(1, 300), r.random() * 2 * seconds])
        self.stop = r.choice([None, None, None, self.start + r.uniform(0, 400) / self.rate])
        self.loop = r.random() < 0.6
        self.loop_start, self.loop_end = r.choice([(0.0, seconds), (0.0, seconds), tuple(r.random() * seconds for _ in "ab"), (seconds / 4, seconds / 2)])
        self.times = [self.first + 128 * n / self.rate for n in range(5)]
        self.near, self.near_zero = self.nears(r), self.zeros(r)

    def nears(self, r):
        """Any near tolerance, or one beside the relative difference of two values that are compared."""
        i = r.randint(0, 200) / self.rate
        a, b = r.choice([(self.first + i, self.start), (i * abs(self.speed[0]), self.duration), (i, self.loop_end), (i, self.loop_start)])
        own = abs(a - b) / max(abs(a), abs(b)) if max(abs(a), abs(b)) else 0.0
        return r.choice([0.0, -0.0, 1.0, 2.0**-60, 2.0**-40, 2.0**-26, 2.0**-10, 0.1, 2.0**-1074, beside(r, own), beside(r, own), beside(r, own)])

    def zeros(self, r):
        near = beside(r, self.step), beside(r, self.step * r.randint(0, 9)), beside(r, self.offset)
        return r.choice([0.0, 1.0, 2.0**-60, 2.0**-26, 2.0**-26, 2.0**-10, *near])

    def player(self, tolerances):
        p = netthimble.Player(self.rate, tolerances=tolerances)
        p.set_clip(netthimble.Clip(self.clip_rate, [array("f", self.frames)]))
        self.message(p)
        return p

    def message(self, p):
        p.set_loop_start(self.loop_start)
        p.set_loop_end(self.loop_end)
        p.loop = self.loop
        p.start(self.start, self.offset, self.duration)
        if self.stop is not None:
            p.stop(self.stop)

    def reading(self):
        own = Reading(self.rate, self.clip_rate, self.frames, self.near, self.near_zero)
        own.start, own.offset, own.duration, own.looping = self.start, self.offset, self.duration, self.loop
        own.stop = NEVER if self.stop is None else self.stop
        own.loop_start = min(self.loop_start, own.seconds)
        own.loop_end = own.seconds if self.loop_end <= 0 or self.loop_end > own.seconds else self.loop_end
        return own

    def __str__(self):
        return ", ".join(f"{k} {v!r}" for k, v in vars(self).items() if k != "frames") + f", {len(self.frames)} frames"


def heard(block):
    return block.bits, block.position, block.ended, block.keep_alive


def fields(record):
    """The values of a record's fields; the bytes between them are anything."""
    return [fields(x) if isinstance(x, ctypes.Structure) else x for x in (getattr(record, name) for name, _ in record._fields_)]


def beside_reading(n, script):
    """The blocks of a player beside the reading's; whether some block is another than with the defaults."""
    own, made = script.reading(), netthimble.Tolerances(script.near, script.near_zero)
    p, plain, other = script.player(made), script.player(None), False
    for k, at in enumerate(script.times):
        row = own.block(at, *script.speed)
        if row is None:
            break
        shown, block = p.preview(at, *script.speed), p.block(at, *script.speed)
        expected = array("I", struct.pack(f"{len(row)}f", *row))
        got = list(block.bits[0]), block.position, block.ended
        same = got == (list(expected), own.position, own.ended) and len(block.bits) == 1 and heard(shown) == heard(block)
        wrong = [i for i in range(128) if block.bits[0][i] != expected[i]][:3]
        check(f"script {n}, block {k}", same and p.tolerances == made, f"samples {wrong}, {got[1:]}, not {own.position, own.ended}; {script}")
        other = other or heard(plain.block(at, *script.speed)) != heard(block)
        if not same:
            break
    return other


def by_default(n, script):
    """The defaults spelled out are none: block by block, and in a conversion."""
    spelled = netthimble.Tolerances(near=2.0**-26, near_zero=2.0**-26, relabel=0.1)
    p, q = script.player(spelled), script.player(None)
    for k, at in enumerate(script.times):
        same = heard(p.block(at, *script.speed)) == heard(q.block(at, *script.speed))
        check(f"defaults {n}, block {k}", same and fields(p._record) == fields(q._record), script)
    clip = netthimble.Clip(script.clip_rate, [array("f", script.frames)])
    rate = max(single(script.clip_rate * 0.75), 3000.0) if n % 2 else script.clip_rate
    made = [clip.convert(rate, **given) for given in ({}, {"tolerances": None}, {"tolerances": spelled})]
    check(f"defaults {n}, converted", len({(c.rate, c.frames, c.bits(0).tobytes()) for c in made}) == 1, script)


def main(both):
    global netthimble
    if not library():
        return 0
    import netthimble

    for seed in both:
        check.seed, r = seed, random.Random(seed)
        others = sum(beside_reading(n, Script(r)) for n in range(SCRIPTS))
        check("the tolerances matter", others > SCRIPTS / 10, f"{others} of {SCRIPTS} scripts differ from the defaults")
        for n in range(SCRIPTS // 5):
            by_default(n, Script(r))
    return check.ended()


if __name__ == "__main__":
    sys.exit(main(seeds(__doc__)))
