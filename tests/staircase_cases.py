#!/usr/bin/env python3
"""Staircases beside a reading of docs/REFERENCE.md, 'Staircase', in Python: the library on all small cases, on random ones and at the limits; the
package; the program that prints a staircase, ./staircase and tools/plot_staircase.py. The reading is written here from the reference's words, not
taken from crates/staircase, and the library is called by declarations of its own, not by the package.
"""
import ctypes
import itertools
import random
import re
import subprocess
import sys
import time
from ctypes import c_bool, c_size_t, c_uint8, c_uint32, c_uint64
from pathlib import Path

sys.path.insert(0, str(Path(__file__).resolve().parent.parent / "tools"))
from shared import TOP, Checks, library, program, run, seeds, subject

sys.path.insert(0, str(TOP / "python"))
PLACES, HIGHEST = 1000, 2**64 - 1
RANDOM_CASES, PRINTED_CASES = 3000, 60
check = Checks("staircases")


# ---- the reading


def reversals(levels):
    """Without the levels that stay, a reversal is a level with both neighbours below it, or both above it."""
    moved = [level for level, _ in itertools.groupby(levels)]
    return sum((b > a) == (b > c) for a, b, c in zip(moved, moved[1:], moved[2:]))


def tried(start, threshold, step, trials, lapses):
    """The trials' levels and replies, and the reversals; None where it is refused with 22."""
    if step == 0 or step > 20 or start > 120 or threshold > 120 or not 1 <= trials <= 1000:
        return None
    level, in_a_row, levels, replies = start, 0, [], []
    for trial in range(trials):
        heard = level >= threshold
        if trial in lapses:
            heard = not heard
        levels.append(level)
        replies.append(heard)
        in_a_row = in_a_row + 1 if heard else 0
        if not heard:
            level += step
        elif in_a_row == 2:
            level, in_a_row = level - step, 0
        level = max(0, min(120, level))
    return levels, replies, reversals(levels)


# ---- the library


class Track(ctypes.Structure):
    _fields_ = [("levels", c_uint8 * PLACES), ("heard", c_bool * PLACES), ("reversals", c_size_t), ("refusal", c_uint32)]


def opened():
    call = ctypes.CDLL(str(TOP / "target/c/libnetthimble.so")).netthimble_staircase
    call.restype = Track
    call.argtypes = [c_uint64, c_uint64, c_uint64, c_size_t, ctypes.POINTER(c_size_t), c_size_t]
    return call


def beside(call, start, threshold, step, trials, lapses):
    """Whether the library's answer is the reading's, in all 1,000 places, and whether it left the list of lapses as it was."""
    lent = (c_size_t * len(lapses))(*lapses)
    given = call(start, threshold, step, trials, lent, len(lapses))
    expected = tried(start, threshold, step, trials, set(lapses))
    levels, replies, turns = expected or ([], [], 0)
    same = bytes(given.levels) == bytes(levels).ljust(PLACES, b"\0") and bytes(given.heard) == bytes(replies).ljust(PLACES, b"\0")
    return same and given.reversals == turns and given.refusal == (0 if expected else 22) and list(lent) == list(lapses)


def known(call):
    """Cases worked out by hand: levels, replies (1 is heard) and reversals."""
    cases = [
        ((0, 0, 3, 7, [4]), [0, 0, 0, 0, 0, 3, 3], "1111011", 0),
        ((0, 0, 3, 8, [4]), [0, 0, 0, 0, 0, 3, 3, 0], "11110111", 1),
        ((2, 0, 5, 8, [4]), [2, 2, 0, 0, 0, 5, 5, 0], "11110111", 2),
        ((2, 0, 5, 8, [4, 1000, 4, 8, HIGHEST]), [2, 2, 0, 0, 0, 5, 5, 0], "11110111", 2),
        ((118, 120, 5, 7, []), [118, 120, 120, 115, 120, 120, 115], "0110110", 3),
        ((50, 10, 4, 5, [1]), [50, 50, 54, 54, 50], "10111", 1),
        ((120, 120, 20, 3, [0, 1, 2]), [120, 120, 120], "000", 0),
    ]
    for given, levels, replies, turns in cases:
        expected = levels, [reply == "1" for reply in replies], turns
        check(f"by hand {given}, the reading", tried(*given[:4], set(given[4])) == expected, str(tried(*given[:4], set(given[4]))))
        check(f"by hand {given}", beside(call, *given), "differs")


def small(call):
    """All lists of lapses of up to six trials, near both ends and around the threshold."""
    for start, threshold, step in itertools.product((0, 1, 3, 60, 119, 120), (0, 2, 60, 118, 120), (1, 2, 5, 20)):
        for trials in range(1, 7):
            for lapses in itertools.chain.from_iterable(itertools.combinations(range(trials), n) for n in range(trials + 1)):
                given = start, threshold, step, trials, list(lapses)
                check(f"{given}", beside(call, *given), "differs from the reading")


def limits(call):
    """Each number on both sides of its limits, and far outside; 2^32 and 2^64 are where a number could wrap."""
    far = [2**32, 2**32 + 5, 2**63, 2**64 - 1]
    for start, threshold in itertools.product([0, 120, 121, *far], repeat=2):
        for step, trials in itertools.product([0, 1, 20, 21, *far], [0, 1, 1000, 1001, *far]):
            given = start, threshold, step, trials, [0, 1000, HIGHEST]
            check(f"{given}", beside(call, *given), "differs from the reading")


def at_random(call, r):
    for _ in range(RANDOM_CASES):
        trials = r.choice([r.randint(1, 12), r.randint(1, 1000), 1000])
        count = r.choice([0, 1, 4, trials // 3, trials])
        entries = [r.choice([r.randrange(trials), r.randrange(trials), trials, 999, 1000, 1001, HIGHEST]) for _ in range(count)]
        given = r.randint(0, 120), r.randint(0, 120), r.randint(1, 20), trials, entries + r.sample(entries, len(entries) // 2)
        check(f"{given}"[:200], beside(call, *given), "differs from the reading")


def stays_near(call, r):
    """Without lapses, once the levels so far have a reversal, they are within a step of the threshold, and so within two."""
    for _ in range(300):
        start, threshold, step = r.randint(0, 120), r.randint(0, 120), r.randint(1, 20)
        levels = list(call(start, threshold, step, 80, None, 0).levels)[:80]
        after = [level for k, level in enumerate(levels) if reversals(levels[: k + 1])]
        check(f"near the threshold {(start, threshold, step)}", all(abs(level - threshold) <= step for level in after), f"{levels}")


def in_time(call):
    """A long list is read once, not once for each trial."""
    entries = (c_size_t * 1_000_000)(*range(1_000_000))

    def seconds(trials):
        begun = time.perf_counter()
        call(60, 40, 2, trials, entries, len(entries))
        return time.perf_counter() - begun

    one, all_of_them = (min(seconds(trials) for _ in range(5)) for trials in (1, 1000))
    check("1,000 trials and 1,000,000 entries", all_of_them < 20 * one + 0.001, f"{one:.6f} s with one trial, {all_of_them:.6f} s with 1,000")


# ---- the package


def error(*given, **named):
    try:
        return netthimble.staircase(*given, **named)
    except Exception as wrong:
        return wrong


def package(r):
    for given in [(0, 0, 3, 8, [4]), (2, 0, 5, 8, (4, 4, 9, 2**70)), (60, 42, 4, 1000, range(0, 1000, 7)), (5, 5, 5, 1)]:
        lapses = set(given[4]) if len(given) > 4 else set()
        levels, replies, turns = tried(*given[:4], lapses)
        track = netthimble.staircase(*given)
        same = track.levels[: track.trials] == levels and track.heard[: track.trials] == replies and track.reversals == turns
        check(f"package {given}"[:80], same and track.trials == len(levels), repr(track))
        rest = PLACES - track.trials
        check(f"package {given}, the rest"[:80], track.levels[track.trials :] == [0] * rest and track.heard[track.trials :] == [False] * rest, "")
    refused = [
        ((0, 0, 0, 1), "step=0"), ((0, 0, 21, 1), "step=21"), ((121, 0, 1, 1), "start=121"), ((0, 121, 1, 1), "threshold=121"),
        ((0, 0, 1, 0), "trials=0"), ((0, 0, 1, 1001), "trials=1001"), ((-1, 0, 1, 1), "start=-1"), ((0, 0, 2**64 + 1, 1), f"step={2**64 + 1}"),
        ((0, 0, -1, 2**64 + 5), f"step=-1, trials={2**64 + 5}"),
    ]  # fmt: skip
    for given, named in refused:
        wrong = error(*given)
        check(f"package {given}", isinstance(wrong, netthimble.Refused) and wrong.number == 22 and wrong.argument == named, repr(wrong))
    wrong_types = [(0.5, 0, 1, 1), (True, 0, 1, 1), ("0", 0, 1, 1), (0, 0, 1, 1, 3), (0, 0, 1, 1, [0.5]), (0, 0, 1, 1, [True])]
    for given in wrong_types:
        check(f"package {given}", isinstance(error(*given), TypeError), repr(error(*given)))
    check("package, a lapse below 0", isinstance(error(0, 0, 1, 1, [-1]), ValueError), "")
    check("package, another name", "likely lapses is meant" in str(error(0, 0, 1, 1, lapse=[1])), str(error(0, 0, 1, 1, lapse=[1])))
    check("package, words", netthimble.WORDS[22].startswith("a staircase's step"), netthimble.WORDS[22])


# ---- the program, its script and the picture


def text(start, threshold, step, trials, lapses):
    expected = tried(start, threshold, step, trials, lapses)
    if expected is None:
        return "X 22\n"
    levels, replies, turns = expected
    lines = [f"{k} {level} {'heard' if heard else 'unheard'}\n" for k, (level, heard) in enumerate(zip(levels, replies))]
    return f"start {start} threshold {threshold} step {step} trials {trials}\n{''.join(lines)}reversals {turns}\n"


def printed(*words):
    return subprocess.run([*subject("staircase_text"), *map(str, words)], stdout=subprocess.PIPE).stdout.decode()


def texts(r):
    cases = [(0, 0, 3, 8, [4]), (2, 0, 5, 8, [4, 4, HIGHEST, 2**64, 2**200]), (0, 0, 0, 1, []), (2**64 + 1, 0, 1, 1, []), (120, 120, 20, 1000, [])]
    for _ in range(PRINTED_CASES):
        trials = r.randint(1, 30)
        cases.append((r.randint(0, 121), r.randint(0, 121), r.randint(0, 21), trials, [r.randrange(2 * trials) for _ in range(r.randint(0, 5))]))
    for start, threshold, step, trials, lapses in cases:
        given = printed(start, threshold, step, trials, *lapses)
        check(f"text {(start, threshold, step, trials, lapses)}", given == text(start, threshold, step, trials, lapses), given[:200])
    for words in [[], [1, 2, 3], [1, 2, 3, "x"], [1, 2, 3, 4, ""], [1, 2, 3, 4, "-1"], ["1.5", 2, 3, 4], ["+1", 2, 3, 4]]:
        check(f"text {words}", printed(*words) == "X 0\n", printed(*words))


def script():
    told = run([TOP / "staircase", "-q", 2, 0, 5, 8, 4], stderr=subprocess.PIPE)
    check("./staircase", told.stdout.decode() == text(2, 0, 5, 8, {4}) and told.returncode == 0, told.stdout.decode() + told.stderr.decode())
    told = run([TOP / "staircase", "--help"])
    check("./staircase --help", told.returncode == 0 and b"usage: ./staircase" in told.stdout, told.stdout.decode()[:200])
    for words in [[], [1, 2, 3], [1, 2, 3, "x"], ["--other"], [1, 2, 3, 4, ""]]:
        check(f"./staircase {words}", run([TOP / "staircase", *words]).returncode == 2, "")


def picture(start, threshold, step, trials, lapses):
    done = run([TOP / "tools/plot_staircase.py"], text(start, threshold, step, trials, lapses).encode())
    return done.stdout.decode(), done.returncode


def pictures():
    """A mark for each trial, and a ring for each reversal; the legend has one of each more."""
    cases = [(60, 42, 4, 60, {20}), (2, 0, 5, 8, {4}), (0, 0, 1, 1, set()), (118, 120, 20, 1000, {3, 5}), (120, 0, 1, 1000, set())]
    for start, threshold, step, trials, lapses in cases:
        levels, replies, turns = tried(start, threshold, step, trials, lapses)
        drawn, status = picture(start, threshold, step, trials, lapses)
        rings = len(re.findall('fill="none" stroke="#c0392b"', drawn)) - 1
        marks = len(re.findall('<circle [^>]*stroke="#1f5fa8"', drawn)) - 2
        check(f"picture {(start, threshold, step, trials)}", status == 0 and rings == turns and marks == trials, f"{rings} rings, {marks} marks")
        check(f"picture {(start, threshold, step, trials)}, words", all(word in drawn for word in ("level (dB)", ">trial<", f"threshold, {threshold} dB")), "")
        mean = re.search(r"mean of the levels at reversals, ([0-9.]+) dB", drawn)
        check(f"picture {(start, threshold, step, trials)}, mean", (mean is not None) == (turns > 0), "")
    drawn, _ = picture(2, 0, 5, 8, {4})  # by hand: the levels at its two reversals are 0 and 5
    check("picture, mean of 0 and 5", "at reversals, 2.5 dB" in drawn, "")
    for wrong in (b"", b"X 22\n", b"0 1 heard\n", text(2, 0, 5, 8, {4}).encode()[:60]):
        done = run([TOP / "tools/plot_staircase.py"], wrong)
        told = b"plot_staircase: " in done.stdout and b"Traceback" not in done.stdout
        check(f"picture of {wrong[:20]!r}", done.returncode == 1 and told, done.stdout.decode())


def main():
    both = seeds(__doc__)
    if not library():
        return 0
    global netthimble
    import netthimble

    call = opened()
    known(call)
    small(call)
    limits(call)
    in_time(call)
    pictures()
    for seed in both:
        check.seed, r = seed, random.Random(seed)
        at_random(call, r)
        stays_near(call, r)
        package(r)
        if program("staircase_text").exists():
            texts(r)
    check.seed = None
    if program("staircase_text").exists():
        script()
    else:
        print("staircases: crates/staircase_text/out/staircase_text is not built, so what it prints is not compared")
    return check.ended()


if __name__ == "__main__":
    sys.exit(main())
