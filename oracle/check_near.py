#!/usr/bin/env python3
"""Holds a program that speaks the replay protocol to a reading in fractions of docs/REFERENCE.md, 'Near tests and tolerances': near, near zero and
relabelling, with tolerances, each at thousands of numbers about the difference that decides.

Near is asked by a loop start beside the position, near zero by a position, both at rate 0, so that a block answers which was played;
near 1 by what the frame after the last one gives; relabelling by whether a NaN's bits are kept.
"""
import math
import random
import shlex
import struct
import sys
from fractions import Fraction
from pathlib import Path

sys.path.insert(0, str(Path(__file__).resolve().parent.parent / "tools"))
from shared import ORACLE, command_of, options, run
from shared.bits import single, x32, x64

MAX = "7FEFFFFFFFFFFFFF"
RATE, FRAMES = 48000.0, 480  # a clip of 0.01 s


def rounded(x):
    """The f64 nearest to a fraction, an even one of two (the division of two whole numbers is rounded so)."""
    return x.numerator / x.denominator


def is_near(a, b, tolerance):
    """Equal, or apart by less than the tolerance times the larger magnitude, where the difference and the product are rounded to f64 each."""
    difference = rounded(abs(Fraction(a) - Fraction(b)))
    return a == b or difference < rounded(Fraction(tolerance) * max(abs(Fraction(a)), abs(Fraction(b))))


def is_near_zero(a, tolerance):
    """The magnitude is below the tolerance."""
    return abs(Fraction(a)) < Fraction(tolerance)


def is_relabelled(a, b, distance):
    """The f32 difference is at most the distance; the difference of two f32s between 3,000 and 768,000 is exact in f64."""
    difference = single(rounded(Fraction(a) - Fraction(b)))
    return abs(Fraction(difference)) <= Fraction(distance)


def moved(bits, steps):
    return max(bits + steps, 0)


def beside_64(rng, x):
    """x, or an f64 a few patterns from it; 0 to 1."""
    bits = struct.unpack(">q", struct.pack(">d", x))[0]
    return min(struct.unpack(">d", struct.pack(">q", moved(bits, rng.choice([0, 0, 0, 1, 1, -1, -1, 2, -2, 3]))))[0], 1.0)


def beside_32(rng, x):
    bits = struct.unpack(">i", struct.pack(">f", x))[0]
    return min(struct.unpack(">f", struct.pack(">i", moved(bits, rng.choice([0, 0, 0, 1, 1, -1, -1, 2]))))[0], 1.0)


def close(rng, a):
    """A number near a, relative."""
    return a * (1 + rng.choice([1, -1]) * 2.0 ** -rng.uniform(0.1, 52))


def near_case(rng):
    """A position and a loop start in a clip, at ordinary sizes and at tiny ones, and the tolerance about their difference. The loop's end,
    which the position is held against before, is far from it."""
    size = rng.choice([0.009, 0.009, 0.009, 2.0**-40, 2.0**-500, 2.0**-1030, 2.0**-1060])
    a = rng.uniform(0.01, 1) * size
    b = rng.choice([close(rng, a), close(rng, a), rng.uniform(0.01, 1) * size, math.nextafter(a, 0.0), a])
    if not (0 < b < 0.0099 and a > 0):
        return near_case(rng)
    quotient = rounded(abs(Fraction(a) - Fraction(b)) / max(Fraction(a), Fraction(b)))
    tolerance = beside_64(rng, quotient) if rng.random() < 0.85 else rng.choice([0.0, 1.0, 2.0**-26, 2.0 ** -rng.uniform(0, 60)])
    if is_near(a, FRAMES / RATE, tolerance):
        return near_case(rng)
    lines = [f"S {x64(0.0)} {x64(a)} {MAX}", "L 1", f"P {x64(b)}", f"B {x64(0.0)} 00000000 {x64(1.0)}"]
    return [f"R {x32(RATE)} {x64(tolerance)} {x64(0.0)} {x32(0.0)}", *lines], x64(b if is_near(a, b, tolerance) else a), (a, b, tolerance)


def near_zero_case(rng):
    a = rng.choice([rng.uniform(0, 0.0099), 0.0099 * 2.0 ** -rng.uniform(0, 1060), 5e-324, 0.0])
    tolerance = beside_64(rng, a) if rng.random() < 0.85 else rng.choice([0.0, 1.0, 2.0**-26, 2.0 ** -rng.uniform(0, 60)])
    lines = [f"S {x64(0.0)} {x64(a)} {MAX}", f"B {x64(0.0)} 00000000 {x64(1.0)}"]
    return [f"R {x32(RATE)} {x64(0.0)} {x64(tolerance)} {x32(0.0)}", *lines], x64(0.0 if is_near_zero(a, tolerance) else a), (a, tolerance)


def near_one_case(rng):
    """Behind the last two frames, 0 and 1, the next is 2, but 0 where k is near 1: the sample is 1 + k, or (1 - k) rounded once."""
    at = (FRAMES - 1 + rng.choice([rng.random(), 1 - 2.0 ** -rng.uniform(1, 40)])) / RATE
    head = at * RATE
    k = head - math.floor(head)
    if not FRAMES - 1 <= head < FRAMES or at >= FRAMES / RATE or k == 0:
        return near_one_case(rng)
    tolerance = beside_64(rng, 1 - k) if rng.random() < 0.85 else rng.choice([0.0, 1.0, 2.0**-26, 2.0 ** -rng.uniform(0, 60)])
    lines = [f"S {x64(0.0)} {x64(at)} {MAX}", f"B {x64(0.0)} 00000000 {x64(1.0)}"]
    value = Fraction(1) - Fraction(k) if is_near(k, 1.0, tolerance) else Fraction(1) + Fraction(k)
    return [f"R {x32(RATE)} {x64(tolerance)} {x64(0.0)} {x32(0.0)}", *lines], x32(rounded(value)), (k, tolerance)


def relabel_case(rng):
    rate = struct.unpack(">f", struct.pack(">i", rng.randint(0x453B8000, 0x493B8000)))[0]
    gap = rng.choice([rng.uniform(0, 1.5), 2.0 ** -rng.uniform(0, 13), 0.1, 1.0, 0.0])
    other = single(min(max(rate + rng.choice([1, -1]) * gap, 3000.0), 768000.0))
    distance = beside_32(rng, min(abs(rate - other), 1.0)) if rng.random() < 0.85 else beside_32(rng, rng.choice([0.0, 1.0, 0.1, 0.5]))
    lines = [f"Q 1 1 {x32(rate)} {x32(other)} {x64(0.0)} {x64(0.0)} {x32(distance)}", "W 7F800001"]
    return lines, "7F800001" if is_relabelled(rate, other, distance) else "7FC00000", (rate, other, distance)


def clip(lines):
    """The case's lines behind a mark; a player gets the clip, whose frames are 0 but for the last, 1."""
    if not lines[0].startswith("R "):
        return lines
    words = ["00000000"] * (FRAMES - 1) + ["3F800000"]
    rows = [" ".join(["W", *words[i : i + 120]]) for i in range(0, FRAMES, 120)]
    return [lines[0], f"C 1 {FRAMES} {x32(RATE)}", *rows, *lines[1:]]


# What of a case's answer the test decides: the position, the first sample, or the frame.
KINDS = {
    "near": (near_case, lambda answer: answer[0].split(" ")[4]),
    "near zero": (near_zero_case, lambda answer: answer[0].split(" ")[4]),
    "near 1": (near_one_case, lambda answer: answer[1].split(" ")[3]),
    "relabel": (relabel_case, lambda answer: answer[1].split(" ")[3]),
}


def wrong_of(kind, command, rng, count):
    """How many cases of a kind are answered otherwise; the first three of them are printed."""
    make, decided = KINDS[kind]
    cases = [make(rng) for _ in range(count)]
    sent = "\n".join(line for n, (lines, *_) in enumerate(cases) for line in (f"# @{n}", *clip(lines))) + "\n"
    printed = run(command, sent.encode(), stderr=None).stdout.decode()
    answers = [part.split("\n")[1:] for part in ("\n" + printed).split("\n# @")[1:]]
    told = []
    for answer, (lines, expected, numbers) in zip(answers, cases):
        told.append(decided(answer) == expected)
        if not told[-1] and told.count(False) <= 3:
            print(f"{kind} {numbers}: expected {expected}: {answer[:2]}")
    print(f"{kind}: {count} cases, {count - sum(told)} differ")
    return count - sum(told)


def main(command, seed, count):
    rng = random.Random(seed)
    return 1 if sum([wrong_of(kind, command, rng, count) for kind in KINDS]) else 0


if __name__ == "__main__":
    words = options(__doc__)
    words.add_argument("command", metavar="CMD", nargs="?", default=shlex.quote(str(ORACLE)), help="target/oracle/replay where it is left out")
    words.add_argument("--seed", type=int, default=1)
    words.add_argument("--cases", type=int, default=4000, help="of each kind")
    given = words.parse_args()
    sys.exit(main(command_of(given.command), given.seed, given.cases))
