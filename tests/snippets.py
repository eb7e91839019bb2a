#!/usr/bin/env python3
"""Runs what README.md and docs/LIBRARY.md show in fences, so that a reader can paste it.

Each block of Python is run in a fresh folder, with the package at hand. Each block of C is compiled and run; one without a main is the body of
one, behind the usual headers. Of a block of shell commands those lines are run, in the repository's folder, that begin with one of CHEAP; others
(the gate, ./trial) have tests of their own. A comment on the line before a fence says more of the block:

    <!-- not run: WHY -->        it is not run; Python is compiled all the same, as it is where it is passed over
    <!-- needs: MODULE .. -->    it is passed over where a module is not installed; one that tests/stand_ins has is taken from there, and the
                                 block finds a clip of two channels as clip.bin
    <!-- printed -->             this is what the block before it prints, every line
"""
import importlib.util
import os
import re
import shutil
import sys
import tempfile
from pathlib import Path

sys.path.insert(0, str(Path(__file__).resolve().parent.parent / "tools"))
import transcripts  # noqa: E402
from shared import CC, TOP, Checks, compile_c, library, options, run  # noqa: E402

PAGES = ["README.md", "docs/LIBRARY.md"]
CHEAP = r"([A-Z_]+=\S* )*(python3|cc|tools/build_library|target/c/\w+)( |$)"
FENCE = re.compile(r"(?:^<!--(?P<mark>[^\n]*)-->\n)?^```(?P<kind>\w*)\n(?P<text>.*?)^```$", re.MULTILINE | re.DOTALL)
STAND_INS = TOP / "tests/stand_ins"
HEADERS = "".join(f"#include {name}\n" for name in ('"netthimble.h"', "<stdint.h>", "<stdio.h>", "<stdlib.h>", "<string.h>"))
SECONDS = 120
check = Checks("snippets", width=1500)


def python(name, text, folder):
    """Runs Python, with two empty lines to be read; what it prints."""
    Path(folder, "snippet.py").write_text(text)
    env = dict(os.environ, PYTHONPATH=f"{TOP}/python:{STAND_INS}")
    done = run([sys.executable, "-B", "-W", "error", "snippet.py"], b"\n\n", folder, env=env, timeout=SECONDS)
    check(name, done.returncode == 0, done.stdout.decode())
    return done.stdout.decode()


def c(name, text, folder):
    """Compiles C and runs it."""
    source, target = Path(folder, "snippet.c"), Path(folder, "snippet")
    whole = text if re.search(r"\bmain\b", text) else f"{HEADERS}\nint main(void) {{\n{text}return 0;\n}}\n"
    source.write_text(whole)
    done = compile_c(target, [source], ("-std=c99", "-O2", "-Wall", "-Wextra", "-Werror"), (TOP / "target/c/libnetthimble.a", "-lm", "-pthread"))
    check(f"{name}, compiled", done.returncode == 0, done.stdout.decode())
    if done.returncode != 0:
        return None
    done = run([target], folder=folder, timeout=SECONDS)
    check(name, done.returncode == 0, f"{done.returncode} {done.stdout.decode()}")
    return done.stdout.decode()


def sh(name, text, _folder):
    """Runs the cheap ones of shell commands, in the repository's folder."""
    told = []
    for line in text.replace("\\\n", " ").splitlines():
        command = line.strip()
        command = command[2:] if command.startswith("$ ") else command
        if re.match(CHEAP, command):
            done = run(["bash", "-eu", "-c", command], timeout=5 * SECONDS)
            check(f"{name}, {command}", done.returncode == 0, done.stdout.decode())
            told.append(done.stdout.decode())
    return "".join(told)


RUNNERS = {"python": python, "py": python, "c": c, "sh": sh, "bash": sh, "console": sh}


def modules(mark):
    """The modules that a mark names: those that have a stand-in, and the others."""
    needed = re.fullmatch(r"\s*needs:(.*)", mark)
    named = needed.group(1).split() if needed else []
    stood_in = [module for module in named if (STAND_INS / f"{module}.py").is_file()]
    return stood_in, [module for module in named if module not in stood_in]


def missing(mark):
    """The modules of a mark that are not installed, and have no stand-in."""
    return [module for module in modules(mark)[1] if importlib.util.find_spec(module) is None]


def page(path):
    """Runs a page's blocks, and gives how many of each kind were run."""
    text, before, ran = (TOP / path).read_text(), None, {}
    for found in FENCE.finditer(text):
        kind, mark, block = found["kind"], found["mark"] or "", found["text"]
        name = f"{path}:{text.count(chr(10), 0, found.start('kind')) + 1}"
        if mark.strip() == "printed":
            check(f"{name}, what is printed", before is None or before == block, f"printed {before!r}, shown {block!r}")
            continue
        before = None
        if kind not in RUNNERS:
            continue
        if kind in ("python", "py"):
            compile(block, name, "exec")
        if mark.strip().startswith("not run:"):
            continue
        if missing(mark):
            print(f"snippets: {name} is passed over, for want of {', '.join(missing(mark))}")
        else:
            with tempfile.TemporaryDirectory() as folder:
                if modules(mark)[0]:
                    Path(folder, "clip.bin").write_bytes(transcripts.clip([0x3F000000] * 300 + [0x3E800000] * 300, 2))
                before = RUNNERS[kind](name, block, folder)
            ran[kind] = ran.get(kind, 0) + 1
    return ran


def main():
    if not library() or not shutil.which(CC):
        return 0
    for path in PAGES:
        ran = page(path)
        print(f"snippets: {path}: " + (", ".join(f"{count} of {kind}" for kind, count in sorted(ran.items())) or "none"))
        if path == "docs/LIBRARY.md":
            check(f"{path} has Python, C and commands", all(ran.get(kind, 0) > 0 for kind in ("python", "c", "sh")), ran)
    return check.ended()


if __name__ == "__main__":
    options(__doc__).parse_args()
    sys.exit(main())
