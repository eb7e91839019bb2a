"""What the scripts of tests/, oracle/ and tools/ share. A script of tests/ or oracle/ begins so; one of tools/ needs no such line:

    sys.path.insert(0, str(Path(__file__).resolve().parent.parent / "tools"))
    from shared import TOP, Checks, library, options, run

    check = Checks("tape")                       # counts; prints each that fails

    def main():
        if not library():                        # tools/build_library; says so where there is no C compiler
            return 0
        check("a name", 1 + 1 == 2, "why not")
        return check.ended()                     # prints 'tape: 1 passed, 0 failed'; the script's status

    if __name__ == "__main__":
        options(__doc__).parse_args()            # argparse: --help prints the script's docstring
        sys.exit(main())

shared.bits has the bit patterns of floats, shared.comparing what tools measure and compare builds by. Clips, lines and what `trial` prints for them
are tests/transcripts.py's: a script of tests/ writes `import transcripts`. No script loads another by its path.
"""
import argparse
import functools
import os
import shlex
import shutil
import subprocess
import sys
import time
from pathlib import Path

TOP = Path(__file__).resolve().parent.parent.parent
CC = os.environ.get("CC", "cc")
ORACLE = TOP / "target/oracle/replay"  # the Rust original, where oracle/build.py has built it


def options(doc):
    """A parser of the command's words, whose --help begins with the script's docstring."""
    return argparse.ArgumentParser(description=doc, formatter_class=argparse.RawDescriptionHelpFormatter)


def seeds(doc):
    """The seeds of a test on random cases: 1, and the command's SEED or else the time."""
    words = options(doc)
    words.add_argument("seed", metavar="SEED", nargs="?", type=int, help="the random cases are made by the seeds 1 and SEED; without it, by the time")
    given = words.parse_args().seed
    return 1, int(time.time()) if given is None else given


class Checks:
    """Counts checks, and prints those that fail, the first `shown` of them, each cut to `width` characters. `seed`, where it is set, is
    printed with each."""

    def __init__(self, name, shown=40, width=400):
        self.name, self.shown, self.width, self.seed = name, shown, width, None
        self.passed = self.failed = 0

    def __call__(self, name, ok, why=""):
        if ok:
            self.passed += 1
            return
        self.failed += 1
        if self.failed <= self.shown:
            seed = "" if self.seed is None else f" (seed {self.seed})"
            print(f"{self.name}, {name}{seed}: {why}"[: self.width])

    def ended(self):
        """Prints the counts, and gives the script's status."""
        print(f"{self.name}: {self.passed} passed, {self.failed} failed")
        return 1 if self.failed else 0


# ---- running programs


def run(words, given=b"", folder=TOP, **more):
    """Runs a program there on these bytes; what it prints, errors too, is `.stdout`. `more`: as subprocess.run's."""
    more.setdefault("stderr", subprocess.STDOUT)
    return subprocess.run([str(word) for word in words], input=given, stdout=subprocess.PIPE, cwd=folder, **more)


def must(words, folder=TOP, **more):
    """Runs a program that has to succeed, without what it prints; errors are shown, and end the script."""
    more.setdefault("stdout", subprocess.DEVNULL)
    done = subprocess.run([str(word) for word in words], cwd=folder, **more)
    if done.returncode != 0:
        sys.exit(f"{Path(words[0]).name} failed, with the status {done.returncode}")
    return done


@functools.lru_cache(maxsize=None)
def kit():
    """The toolchain's C library, which its programs are run under: asked for once, since that takes as long as a run."""
    return Path(subprocess.run(["rt", "doc"], stdout=subprocess.PIPE, check=True).stdout.decode().strip()).parent / "toolchain/lib"


def command_of(text):
    """A command's words, as a shell reads them; ends the script with a line where its program is not there."""
    words = shlex.split(text)
    if not (words and shutil.which(words[0])):
        build = ": oracle/build.py makes it of the Rust original" if words == [str(ORACLE)] else ""
        sys.exit(f"{Path(sys.argv[0]).name}: there is no program {text or 'of no name'}{build}")
    return words


def program(crate):
    """Where a crate's program stands once it is proved; it may not be there."""
    return TOP / f"crates/{crate}/out/{crate}"


def subject(crate):
    """The command that runs a crate's program, as oracle/subject does."""
    return [str(kit() / "ld-linux-x86-64.so.2"), "--library-path", str(kit()), str(program(crate))]


# ---- the library and C


def library():
    """Builds the library for C and Python (target/c). False, with a line, where there is no C compiler; ends the script where it fails."""
    if not shutil.which(CC):
        print("skipped: no C compiler")
        return False
    done = run([TOP / "tools/build_library", "-q"])
    if done.returncode != 0:
        sys.exit(f"tools/build_library: {done.stdout.decode()[-300:]}")
    return True


def compile_c(target, sources, flags=("-O2", "-Wall", "-Wextra"), links=("-lm",), compiler=CC):
    """Compiles C to a program, with the library's header and tools/shared at hand; what the compiler said, as `run` gives it."""
    folders = [f"-I{TOP}/include", f"-I{TOP}/tools/shared"]
    return run([compiler, *flags, *folders, "-o", target, *sources, *links])
