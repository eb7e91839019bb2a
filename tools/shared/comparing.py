"""What the tools share that measure and compare builds: a program of tools/NAME.c is compiled, run, and its times become rows of a table."""
import shutil
import statistics
import subprocess
import sys
from pathlib import Path

from shared import TOP, compile_c, must


def compiled(name, folder, *links, flags=("-O2", "-Wall", "-Wextra")):
    """The program of tools/NAME.c, made in that folder."""
    target = Path(folder, name)
    done = compile_c(target, [TOP / f"tools/{name}.c"], flags, [*links, "-lm"])
    if done.returncode != 0:
        sys.exit(done.stdout.decode())
    return target


def aligned(archive, folder, *names):
    """A copy of a static library in that folder, where functions whose names contain one of these begin at a multiple of 64 bytes."""
    copied = shutil.copy(archive, folder)
    must([TOP / "tools/align_code", copied, *names])
    return copied


def present(libraries, made="tools/build_library makes target/c/libnetthimble.so and .a"):
    """The libraries' paths; ends the script where one is not there, and says what makes such a library."""
    for library in libraries:
        if not Path(library).is_file():
            sys.exit(f"{library} is not there: {made}")
    return [Path(library).resolve() for library in libraries]


def lines(words):
    """The lines that a program prints, which has to succeed."""
    return must(words, stdout=subprocess.PIPE).stdout.decode().splitlines()


def spread(values):
    """The median and the quartiles."""
    low, middle, high = statistics.quantiles(values, n=4)
    return f"{middle:.2f} ({low:.2f} to {high:.2f})"


def ratios(ours, others):
    """Of the times of a round each."""
    return spread([a / b for a, b in zip(ours, others)])


def row(*cells):
    print("| " + " | ".join(map(str, cells)) + " |")


def head(*names):
    row(*names)
    print("|---" * len(names) + "|")
