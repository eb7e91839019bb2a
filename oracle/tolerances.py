"""Tolerances for the scripts of scripts.py: those of a player on its `R` line, those of a conversion on its `Q` line.

Some are beside a difference that occurs in the script, the last one at which a test says no or the first at which it says yes. Which
differences occur is found by a walk along the samples with nothing taken as near: until the first near test says yes, a player that
has such a tolerance goes the same way.
"""
import math
import struct

from shared.bits import f32, f64, x32, x64

MAX = 1.7976931348623157e308
DEFAULTS = (2.0**-26, 2.0**-26, 0.1)
NEAR = [0.0, 0.0, -0.0, 2.0**-60, 2.0**-60, 2.0**-40, 2.0**-26, 2.0**-26, 2.0**-26, 2.0**-10, 2.0**-10, 0.1, 1.0]
NEAR_ZERO = [0.0, 0.0, -0.0, 2.0**-60, 2.0**-60, 2.0**-40, 2.0**-26, 2.0**-26, 2.0**-26, 2.0**-17, 2.0**-14, 2.0**-10, 0.1, 1.0]
RELABEL = [0.0, -0.0, 2.0**-60, 2.0**-10, 0.0625, 0.1, 0.1, 0.125, 0.5, 1.0]
UP, DOWN = (lambda x: math.nextafter(x, math.inf)), (lambda x: math.nextafter(x, -math.inf))
BAD_64 = ["7FF8000000000000", "7FF0000000000001", "FFF8000000000000", "7FF0000000000000", "FFF0000000000000", "3FF0000000000001",
          "4000000000000000", "7FEFFFFFFFFFFFFF", "8000000000000001", "BFF0000000000000"]
BAD_32 = ["7FC00000", "7F800001", "FFC00000", "7F800000", "FF800000", "3F800001", "40000000", "7F7FFFFF", "80000001", "BF800000"]


def moved32(x, steps):
    """The f32 this many patterns above x, which is not negative."""
    return f32(f"{max(int(x32(x), 16) + steps, 0):08X}")


def words_of(near=2.0**-26, near_zero=2.0**-26, relabel=0.1):
    return f"{x64(near)} {x64(near_zero)} {x32(relabel)}"


def relabel_distance(words):
    """Of the tolerances that end a conversion's line, or of none; no distance is beyond it where one of them is refused."""
    if not words:
        return f32(x32(DEFAULTS[2]))
    tolerances = [f64(words[0]), f64(words[1]), f32(words[2])]
    return tolerances[2] if all(0 <= each <= 1 for each in tolerances) else math.inf


def has_own(unit):
    """Whether the unit is a line `R`, or a conversion, with tolerances."""
    letter, *words = unit.split("\n")[0].split(" ")
    return letter == "R" and len(words) in (4, 5) or letter == "Q" and len(words) == 7


def takes_own(unit):
    """Whether the unit is a line `R`, or a conversion, that may have tolerances and has none."""
    letter, *words = unit.split("\n")[0].split(" ")
    return letter == "R" and len(words) in (1, 2) and len(words[0]) == 8 or letter == "Q" and len(words) == 4


def with_own(head, tolerances):
    """The first line of such a unit with these words of tolerances; those of an `R` come before its ramp."""
    words = head.split(" ")
    at = 2 if words[0] == "R" else len(words)
    return " ".join([*words[:at], tolerances, *words[at:]])


class Walk:
    """The way of a script's player, with nothing near. `near` holds the pairs that each near test compares, `zero` the positions."""

    def __init__(self, rate, samples):
        self.rate, self.left = rate, samples
        self.start = self.stop = self.duration = MAX
        self.offset = self.position = self.elapsed = 0.0
        self.loop, self.points, self.clip, self.last = False, [0.0, 0.0], None, None
        self.started = self.entered = self.aligned = self.ended = False
        self.near = {"start": [], "elapsed": [], "loop end": [], "loop start": [], "after the last": []}
        self.zero = []

    def line(self, unit):
        """A unit of the script; one that is refused or unknown is passed over."""
        letter, *words = unit.split("\n")[0].split(" ")
        try:
            if letter in ("B", "D") and len(words) == 3:
                self.block(letter, f64(words[0]), f32(words[1]), words[2])
            elif letter == "C" and self.clip is None and "\n" in unit:
                frames, rate = int(words[1]), f32(words[2])
                self.clip = (frames, rate, frames / rate)
            else:
                self.message(letter, words)
        except (ValueError, IndexError, struct.error, ZeroDivisionError, OverflowError):
            return
        self.clamp()

    def message(self, letter, words):
        if letter == "L":
            self.loop = words == ["1"]
            return
        values = [f64(word) for word in words] if letter in ("S", "T", "P", "E") else []
        if not all(map(math.isfinite, values)):
            return
        if letter == "S" and min(values) >= 0 and self.start == MAX:
            self.start, self.offset, self.duration = values
        elif letter == "T" and values[0] >= 0:
            self.stop = values[0]
        elif letter in ("P", "E"):
            self.points[letter == "E"] = values[0]

    def clamp(self):
        if self.clip:
            duration = self.clip[2]
            first, end = self.points
            self.points = [min(max(first, 0.0), duration), duration if end <= 0 or end > duration else end]

    def block(self, letter, time, rate, detune):
        if not (0 <= time <= 2.0**30 and (self.last is None or time > self.last) and math.isfinite(rate)):
            return
        if letter == "B":
            factor = f64(detune)
        else:
            octaves, cents = divmod(struct.unpack(">i", bytes.fromhex(detune))[0], 1200)
            factor = math.floor(2 ** (30 + cents / 1200)) / 2.0**30 * 2.0**octaves
        if not 2.0**-64 <= factor <= 2.0**64:
            return
        self.last = time
        length = 1 / self.rate * 128
        if self.ended or not self.clip or self.start >= time + length:
            self.ended |= not self.clip and self.start != MAX
            return
        if not self.started and self.start < time:
            self.start = time
        self.play(time, length, rate * factor)
        duration = self.clip[2]
        past = rate > 0 and self.position >= duration or rate < 0 and self.position < 0
        self.ended = time + length >= self.stop or self.elapsed >= self.duration or not self.loop and past

    def play(self, time, length, speed):
        frames, rate, duration = self.clip
        if self.start == time and self.offset == 0:
            self.aligned = True
        moved = self.points != [0.0, duration] or rate != self.rate or speed != 1
        if moved or self.position + length > self.duration or time + length > self.stop:
            self.aligned = False
        if not self.aligned:
            return self.sub_sample(time, speed)
        self.started |= self.start == time
        past = self.position + length > duration
        first = frames - int(self.position * self.rate + 0.5)
        self.position += length
        if past and self.loop and first < 128:
            wrap = max(first, 0) + (127 - max(first, 0)) // frames * frames
            self.position = math.fmod((128 - wrap) / self.rate, duration)
        self.elapsed += length

    def sub_sample(self, time, speed):
        frames, rate, duration = self.clip
        first, end = self.points if self.points[0] < self.points[1] else (0.0, duration)
        ratio, step, one = rate / self.rate, 1 / self.rate * speed, 1 / self.rate
        near, position, elapsed = self.near, self.position, self.elapsed
        self.entered &= self.loop
        self.left -= 128
        for i in range(128):
            now = time + i * one
            if not self.started:
                near["start"].append((now, self.start))
            near["elapsed"].append((elapsed, self.duration))
            if now < self.start or now >= self.stop or elapsed >= self.duration:
                continue
            if not self.started:
                late = now - self.start
                position = min(max(self.offset + late * speed, 0.0), duration)
                if self.loop:
                    position = min(position, end) if speed >= 0 else max(position, first)
                self.offset, elapsed, self.started = position, abs(late * speed), True
            if self.loop:
                near["loop end"].append((position, end))
                near["loop start"].append((position, first))
                self.entered |= first <= position if self.offset < end else position < end
                if self.entered and not first <= position < end:
                    rest = math.fmod(position - first, end - first)
                    position = first + (rest if rest >= 0 else rest + (end - first))
            self.zero.append(position)
            if not self.loop and 0 <= position < duration:
                frame = position * ratio * self.rate
                if frames - 1 <= frame < frames and frames > 1:
                    near["after the last"].append((frame - (frames - 1), 1.0))
            position += step
            elapsed += abs(step)
        self.position, self.elapsed = position, elapsed


def walked(units, samples=384):
    """The walk of a script over its sub-sample blocks' first samples, about this many."""
    walk = Walk(f32(units[0].split(" ")[1]), samples)
    for unit in units[1:]:
        if walk.left <= 0:
            break
        walk.line(unit)
    return walk


def last_not_near(a, b):
    """The largest tolerance at which a and b are not near: the difference is not below its product with the larger magnitude."""
    difference, larger = abs(a - b), max(abs(a), abs(b))
    tolerance = difference / larger
    while tolerance > 0 and tolerance * larger > difference:
        tolerance = DOWN(tolerance)
    for _ in range(4):
        if UP(tolerance) * larger <= difference:
            tolerance = UP(tolerance)
    return tolerance


class Tuner:
    """Hands tolerances to the scripts of a generator, by numbers of its own."""

    def __init__(self, rng):
        self.rng = rng

    def tuned(self, units):
        """The script, where each well-formed `R` and `Q` line has tolerances or keeps none, half of them each."""
        return [self.unit(unit, units) for unit in units]

    def unit(self, unit, units):
        if not takes_own(unit) or self.rng.random() < 0.5:
            return unit
        head, *rest = unit.split("\n")
        tolerances = self.player(units) if head.startswith("R") else self.conversion(*head.split(" ")[3:])
        return "\n".join([with_own(head, self.words(tolerances)), *rest])

    def words(self, tolerances):
        """As words; some of them are refused."""
        words = [x64(tolerances[0]), x64(tolerances[1]), x32(tolerances[2])]
        while self.rng.random() < 0.05:
            place = self.rng.randrange(3)
            words[place] = self.rng.choice(BAD_32 if place == 2 else BAD_64)
        return " ".join(words)

    def player(self, units):
        """Of a player: those that its script's near tests decide by, one or both beside a difference."""
        rng = self.rng
        if rng.random() < 0.08:
            return DEFAULTS
        near, zero, relabel = self.plain(NEAR), self.plain(NEAR_ZERO), self.plain(RELABEL)
        if rng.random() < 0.65:
            walk = walked(units)
            kind = rng.random()
            near = self.beside_pair(walk, near) if kind < 0.75 else near
            zero = self.beside_zero(walk, zero) if kind > 0.6 else zero
        return near, zero, relabel

    def plain(self, values):
        return self.rng.choice(values) if self.rng.random() < 0.85 else 2 ** -self.rng.uniform(0, 60)

    def beside_pair(self, walk, otherwise):
        """Beside the difference of two numbers that a near test compares; a close pair as often as any."""
        rng = self.rng
        kinds = [kind for kind, pairs in walk.near.items() if any(self.tells(*pair) for pair in pairs)]
        if not kinds:
            return otherwise
        pairs = [pair for pair in walk.near[rng.choice(kinds)] if self.tells(*pair)]
        if rng.random() < 0.5:
            pairs = sorted(pairs, key=lambda pair: abs(pair[0] - pair[1]))[:3]
        tolerance = last_not_near(*rng.choice(pairs))
        return rng.choice([tolerance, tolerance, DOWN(tolerance), UP(tolerance), UP(tolerance)])

    def tells(self, a, b):
        """Whether there are tolerances at which they are near, and others at which they are not."""
        return a != b and abs(a - b) < max(abs(a), abs(b)) < MAX

    def beside_zero(self, walk, otherwise):
        """Beside the magnitude of a position."""
        positions = [abs(position) for position in walk.zero if 0 < abs(position) < 1]
        if not positions:
            return otherwise
        if self.rng.random() < 0.5:
            positions = sorted(positions)[:3]
        tolerance = self.rng.choice(positions)
        return self.rng.choice([tolerance, tolerance, DOWN(tolerance), UP(tolerance), UP(tolerance)])

    def conversion(self, rate, other):
        """Of a conversion: a relabel distance, beside the difference of its rates where that is possible."""
        near, zero, relabel = self.plain(NEAR), self.plain(NEAR_ZERO), self.plain(RELABEL)
        if self.rng.random() < 0.08:
            return DEFAULTS
        difference = abs(f32(rate) - f32(other))
        if 0 < difference <= 1 and self.rng.random() < 0.7:
            relabel = moved32(difference, self.rng.choice([0, 0, 0, -1, -1, 1]))
        return near, zero, min(relabel, 1.0)
