#!/usr/bin/env python3
"""Measures fma, narrow, fma_narrow, floor and truncate of `fused` and `rounding` beside the C library's, in one program, in alternating rounds.
Needs rt and cc; takes some seconds, after rt has proved the crates.

`fma_narrow` is measured on fractions of 53 digits, and half way between two frames (`tied`), where every other sum is a tie of two f32 values.
Each function begins at a multiple of 64 bytes, where objcopy is at hand (tools/align_code): by its place alone `narrow` takes up to 42 % more.
"""
import subprocess
import sys
import tempfile

from shared import TOP, must, options
from shared.comparing import aligned, compiled, head, lines, present, ratios, row, spread

ROUNDS = 401
NAMES = ("fma", "narrow", "fma_narrow", "tied", "floor", "truncate")


def built(library, folder):
    """The program with that library, or with this build's."""
    if library is not None:
        [library] = present([library], "tools/prove rounding_c makes crates/rounding_c/out/librounding_c.a")
    else:
        must([TOP / "tools/prove", "-q", "rounding_c"])
        library = TOP / "crates/rounding_c/out/librounding_c.a"
    return compiled("bench_rounding", folder, aligned(library, folder, "rounding", "fused"), flags=("-O2", "-ffp-contract=off"))


def measured(program):
    """Of each function and side the times of the rounds."""
    times = {}
    for line in lines([program, ROUNDS]):
        name, side, ns = line.split()
        times.setdefault((name, side), []).append(float(ns))
    return times


def main(library, agree):
    with tempfile.TemporaryDirectory() as folder:
        program = built(library, folder)
        if agree is not None:
            return subprocess.run([program, "agree", str(agree)]).returncode
        times = measured(program)
    head(f"ns per call, {ROUNDS} rounds", *(f"{what}, median (quartiles)" for what in ("ours", "C", "ratio of a round")))
    for name in NAMES:
        ours, theirs = times[name, "ours"], times[name, "C"]
        row(f"`{name}`", spread(ours), spread(theirs), ratios(ours, theirs))
    return 0


if __name__ == "__main__":
    words = options(__doc__)
    words.add_argument("library", metavar="LIBRARY.a", nargs="?", help="another build of crates/rounding_c than this one's")
    words.add_argument("--agree", metavar="COUNT", type=int, help="compare `narrow` and `fma_narrow` with C's on that many random operands, "
                       "ties and sums beside them among them")  # fmt: skip
    sys.exit(main(**vars(words.parse_args())))
