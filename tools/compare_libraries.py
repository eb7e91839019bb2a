#!/usr/bin/env python3
"""Measures two builds of the library, before and after a change, in one program that takes turns with them every few blocks. Needs cc; takes
some seconds.

A build's libnetthimble.so and libnetthimble.a are in target/c after tools/build_library; both arguments are of one kind. Of the times of a
row, the lower quartile is given: what else the machine does only adds to them. The last columns are for NEW and, as a measure of the
measure, for a second copy of OLD. The two may have records of different sizes: each makes its own players, and tells their size.
Archives are linked here, at two places, and there is a table for each: on Intel's processors from Skylake to Cascade Lake a jump that
crosses a border of 32 bytes is slow, so that the same code 16 bytes further on may be faster or slower by a tenth.
"""
import shutil
import tempfile
from pathlib import Path

from shared import CC, must, options
from shared.comparing import compiled, lines, present


def linked(archive, pad, target):
    """Links an archive as a shared library, its code `pad` bytes further on."""
    before = target.with_suffix(".s")
    before.write_text(f'.text\n.p2align 4\n.fill {pad}, 1, 0x90\n.section .note.GNU-stack,"",@progbits\n')
    parts = ["-Wl,--whole-archive", archive, "-Wl,--no-whole-archive", "-Wl,-soname,libnetthimble.so", "-lm"]
    must([CC, "-shared", "-o", target, before, *parts])


def measured(old, new, rounds, pad):
    """Prints the table; `pad` is for archives."""
    with tempfile.TemporaryDirectory() as folder:
        names = [Path(folder, f"{n}.so") for n in range(3)]
        for name, library in zip(names, (old, new, old)):
            if library.suffix == ".a":
                linked(library, pad, name)
            else:
                shutil.copy(library, name)
        print("\n".join(lines([compiled("compare_libraries", folder, "-ldl"), *names, rounds])), flush=True)


def main(old, new, rounds):
    old, new = present([old, new])
    measured(old, new, rounds, 0)
    if old.suffix == new.suffix == ".a":
        print("\n16 bytes further on:\n", flush=True)
        measured(old, new, rounds, 16)


if __name__ == "__main__":
    words = options(__doc__)
    words.add_argument("old", metavar="OLD")
    words.add_argument("new", metavar="NEW")
    words.add_argument("rounds", metavar="ROUNDS", nargs="?", type=int, default=400)
    main(**vars(words.parse_args()))
