#!/usr/bin/env python3
"""Runs random scripts through two programs that speak the replay protocol and compares the answers.

A batch of scripts is one input of both programs; about 4 KB a script.

Where the oracle answers `P` (the original panicked) the rest of that script is skipped. The first script
whose answers differ is made as small as possible and printed, with both answers. The last line is
    N scripts, N with tolerances, N with ramps, N blocks, N calls in cents, N previews, N copies, N conversions, N to one frame, N panics, N differences
where scripts with tolerances have lines `R` or `Q` that name some, and those with ramps a line `R` that names one; calls in cents are lines
`D` and previews lines `M` and `N`, refused ones with them, conversions are those by a real change, and the exit status is 1 where something
differs.
"""
import shlex
import subprocess
import sys
import threading
from pathlib import Path

sys.path.insert(0, str(Path(__file__).resolve().parent.parent / "tools"))
from ramps import has_ramp
from scripts import MAX, Generator, converted_frames, words_text
from tolerances import DEFAULTS, has_own, words_of

from shared import ORACLE, command_of, options
from shared.bits import x32, x64

MARK = "# @"


class Side:
    """One program; `begin` starts it on an input, `answer` waits for what it printed."""

    def __init__(self, command):
        self.command = command_of(command)

    def begin(self, data):
        self.failed = None
        self.thread = threading.Thread(target=self.run, args=(data,))
        self.thread.start()

    def run(self, data):
        done = subprocess.run(self.command, input=data, stdout=subprocess.PIPE, stderr=subprocess.DEVNULL)
        self.output, self.failed = done.stdout, done.returncode

    def answer(self):
        self.thread.join()
        return self.output + (f"\nexit status {self.failed}\n".encode() if self.failed else b"")


def ask(sides, data):
    for side in sides:
        side.begin(data)
    return [side.answer() for side in sides]


def stream(scripts):
    """The scripts behind one another, each behind a mark that both sides print."""
    lines = []
    for number, units in enumerate(scripts):
        lines.append(f"R 473B8000\n{MARK}{number}")
        lines.extend(units)
    return ("\n".join(lines) + "\n").encode()


def parts(output):
    """What was printed for each script."""
    return ("\n" + output.decode()).split("\n" + MARK)[1:]


def compared(oracle, subject):
    """Whether two answers of one script agree up to a panic, and whether there was one."""
    panic = (oracle + "\n").find("\nP\n")
    if panic < 0:
        return oracle == subject, False
    return (subject + "\n").startswith(oracle[:panic] + "\n"), True


def differs(sides, units):
    one, other = (parts(output) for output in ask(sides, stream([units])))
    return len(one) != 1 or len(other) != 1 or not compared(one[0], other[0])[0]


def smaller_clip(unit):
    """Smaller versions of a call with words, the simplest first."""
    head, *rest = unit.split("\n")
    letter, *numbers = head.split(" ")
    if letter not in ("C", "Q") or not rest:
        return
    channels, frames, rate = int(numbers[0]), int(numbers[1]), " ".join(numbers[2:])
    if has_own(unit):
        yield "\n".join([" ".join([letter, *numbers[:4]]), *rest])
    words = [word for line in rest for word in line.split(" ")[1:]]
    if channels > 1:
        yield f"{letter} 1 {frames} {rate}" + words_text("".join(" " + w for w in words[:frames]))
    for n in sorted({1, 2, 3, frames // 2, frames - 1}):
        if 0 < n < frames:
            kept = [w for c in range(channels) for w in words[c * frames : c * frames + n]]
            yield f"{letter} {channels} {n} {rate}" + words_text("".join(" " + w for w in kept))
    ramp = [x32(float(i + 1)) for i in range(channels * frames)]
    if words != ramp:
        yield head + words_text("".join(" " + w for w in ramp))


def simpler_line(unit):
    """The same line with one value replaced by a plain one."""
    plain = {"S": [x64(0.0), x64(0.0), x64(MAX)], "R": ["473B8000", *words_of(*DEFAULTS).split(" ")]}
    plain |= dict.fromkeys("BM", [x64(0.0), "3F800000", x64(1.0)]) | dict.fromkeys("DN", [x64(0.0), "3F800000", "00000000"])
    letter, *numbers = unit.split(" ")
    if "\n" in unit or letter not in plain:
        return
    ramp = numbers[-1:] if has_ramp(unit) else []
    if has_own(unit):
        yield " ".join([letter, numbers[0], *ramp])
    if ramp:
        yield " ".join([letter, *numbers[:-1]])
    for i, value in enumerate(plain[letter][: len(numbers) - len(ramp)]):
        if numbers[i] != value:
            yield " ".join([letter, *numbers[:i], value, *numbers[i + 1 :]])


def shrink(sides, units):
    """Drops and simplifies units as long as the answers still differ."""
    def drop(units):
        size = len(units) // 2
        while size:
            at = 0
            while at < len(units):
                fewer = units[:at] + units[at + size :]
                if fewer and differs(sides, fewer):
                    units = fewer
                else:
                    at += size
            size //= 2
        return units

    while True:
        before = list(units)
        units = drop(units)
        for make in (smaller_clip, simpler_line):
            for i in range(len(units)):
                found = True
                while found:
                    found = False
                    for unit in make(units[i]):
                        if differs(sides, units[:i] + [unit] + units[i + 1 :]):
                            units = units[:i] + [unit] + units[i + 1 :]
                            found = True
                            break
        if units == before:
            return units


def show(sides, units):
    if not units[0].startswith("R "):
        units = ["R 473B8000"] + units  # the one that `stream` puts before each script
    print("smallest script that differs:")
    print("\n".join(units))
    one, other = (("\n" + "".join(parts(output)[:1])).split("\n")[2:] for output in ask(sides, stream([units])))
    for i in range(max(len(one), len(other))):
        a, b = (lines[i] if i < len(lines) else "(nothing)" for lines in (one, other))
        if a != b:
            print(f"answer line {i + 1}: oracle  {a}\nanswer line {i + 1}: subject {b}")
            break


class Run:
    """Random scripts through both sides, batch by batch, and what was counted."""

    NAMES = ["scripts", "with tolerances", "with ramps", "blocks", "calls in cents", "previews", "copies", "conversions", "to one frame", "panics",
             "differences"]

    def __init__(self, sides, seed, scripts, batch):
        self.sides, self.generator, self.left, self.size = sides, Generator(seed), scripts, batch
        self.counts, self.first = dict.fromkeys(self.NAMES, 0), None

    def batch(self):
        """The next scripts, counted."""
        size = min(self.size, self.left)
        self.left -= size
        scripts, counts = [self.generator.script() for _ in range(size)], self.counts
        counts["with tolerances"] += sum(any(map(has_own, units)) for units in scripts)
        counts["with ramps"] += sum(any(map(has_ramp, units)) for units in scripts)
        counts["calls in cents"] += sum(unit.startswith("D ") for units in scripts for unit in units)
        counts["previews"] += sum(unit.startswith(("M ", "N ")) for units in scripts for unit in units)
        counts["copies"] += sum(unit.startswith("K") for units in scripts for unit in units)
        lengths = [length for units in scripts for length in map(converted_frames, units) if length]
        counts["conversions"] += len(lengths)
        counts["to one frame"] += lengths.count(1)
        return scripts

    def compare(self, scripts, one, other):
        """Counts where the answers differ, and keeps the first script where they do."""
        if self.sides[0].failed:
            sys.exit("differential: the oracle itself failed")
        self.counts["scripts"] += len(scripts)
        self.counts["blocks"] += one.count(b"\nB ")
        if one == other and b"\nP\n" not in one:
            return
        one, other = parts(one), parts(other)
        for i, units in enumerate(scripts):
            ours = other[i] if i < len(other) else ""
            same, panicked = compared(one[i] if i < len(one) else "", ours)
            self.counts["panics"] += panicked
            if not same:
                self.counts["differences"] += 1
                self.first = self.first or units

    def all(self, stop_at_first):
        """Every batch, or those up to the first difference."""
        scripts = self.batch()
        while scripts and not (stop_at_first and self.first):
            for side in self.sides:
                side.begin(stream(scripts))
            following = self.batch()  # made while the programs run
            self.compare(scripts, *(side.answer() for side in self.sides))
            scripts = following


def main(given):
    sides = [Side(given.oracle), Side(given.subject)]
    run = Run(sides, given.seed, given.scripts, given.batch)
    run.all(given.first)
    if run.first:
        show(sides, run.first if given.first else shrink(sides, run.first))
    print(", ".join(f"{count} {name}" for name, count in run.counts.items()))
    return 1 if run.counts["differences"] else 0


if __name__ == "__main__":
    words = options(__doc__)
    words.add_argument("--subject", metavar="CMD", required=True)
    words.add_argument("--oracle", metavar="CMD", default=shlex.quote(str(ORACLE)), help="target/oracle/replay where it is left out")
    words.add_argument("--seed", type=int, default=1)
    words.add_argument("--scripts", type=int, default=100000)
    words.add_argument("--batch", type=int, default=2000)
    words.add_argument("--first", action="store_true", help="stop after the batch with the first difference, and print its script as it is")
    sys.exit(main(words.parse_args()))
