#!/usr/bin/env python3
"""Runs crates/trial/out/trial on the clips and lines of tests/transcripts.py, and compares what it prints with theirs; and `./trial`, with and without
a proved program: what it says where something is missing, and that a run that is tried prints what a proved one does. Each command of the
repository prints its usage.
"""
import os
import shutil
import subprocess
import sys
import tempfile
import time
from pathlib import Path

sys.path.insert(0, str(Path(__file__).resolve().parent.parent / "tools"))
from shared import TOP, Checks, options, program, run, subject
from transcripts import CASES, FOLDER, ONE, SILENCE, START, block, clip, given

check = Checks("trial")


def printed(lines, folder, prefix=()):
    """What trial prints in that folder. Lines that are a list are written piece by piece, each read by itself."""
    command = [*prefix, *subject("trial")]
    if not isinstance(lines, list):
        return subprocess.run(command, input=given(lines), stdout=subprocess.PIPE, cwd=folder).stdout
    with subprocess.Popen(command, stdin=subprocess.PIPE, stdout=subprocess.PIPE, cwd=folder) as child:
        for piece in lines:
            child.stdin.write(piece)
            child.stdin.flush()
            time.sleep(0.003)
        return child.communicate()[0]


def unprivileged():
    """What a command is prefixed with, so that permissions count: root reads and writes everything. None where that cannot be."""
    if os.geteuid() != 0:
        return []
    return ["setpriv", "--reuid=65534", "--regid=65534", "--clear-groups"] if shutil.which("setpriv") else None


def unreadable():
    """A clip.bin that trial may not read, and what it prints; None where that cannot be tried, since nobody can run it."""
    prefix = unprivileged()
    if prefix is None:
        return None
    with tempfile.TemporaryDirectory() as folder:
        os.chmod(folder, 0o755)
        file = Path(folder, "clip.bin")
        file.write_bytes(clip([ONE]))
        os.chmod(file, 0o644)
        if printed("B\n", folder, prefix) != block(0, 0, 0, SILENCE).encode():
            return None
        os.chmod(file, 0)
        return printed("B\n", folder, prefix)


# clips of the longest length, 65,536 bytes, with either header, and a byte behind them
BEHIND = [(name, data + b"\0", "B\n", "X 15\n") for name, data in [
    ("a byte behind the longest clip", clip([ONE] * 16380)),
    ("a byte behind the longest clip with an onset", clip([ONE] * 16379, onset=16378)),
]]


def program_cases():
    for name, data, lines, expected in CASES + BEHIND:
        with tempfile.TemporaryDirectory() as folder:
            if data == FOLDER:
                Path(folder, "clip.bin").mkdir()
            elif data is not None:
                Path(folder, "clip.bin").write_bytes(data)
            got = printed(lines, folder)
        check(name, got == expected.encode(), f"printed {got[:200]!r}, expected {expected[:200]!r}")
    got = unreadable()
    if got is None:
        print("trial: a clip without read permission was not tried: nobody can't run trial here")
    else:
        check("no read permission", got == b"X 15\n", f"printed {got[:200]!r}, expected 'X 15'")


# ---- ./trial, in a folder of its own with a toolchain that is made up: rt says where its C library is, proves nothing and tries what it is told to

RT = """#!/bin/sh
case $1 in
doc) echo {doc} ;;
run) mkdir -p out && cp {made} out/trial && touch out/trial.stamp && echo proved >> {log} ;;
lib) mkdir -p out/rlib && touch out/rlib/stamp ;;
try) cat > /dev/null; printf '%s' "{printed}"; echo "{said}" >&2; exit {status} ;;
esac
"""
MADE = "#!/bin/sh\ncat clip.bin | wc -c\ncat\n"


class Top:
    """A copy of ./trial with tools/prove, below one folder, with a clip of 20 bytes and lines."""

    def __init__(self, folder):
        self.folder, self.log = Path(folder), Path(folder, "log")
        for name in ("tools", "crates/trial/src", "bin", "kit", "clips"):
            self.path(name).mkdir(parents=True)
        for name in ("trial", "tools/prove"):
            shutil.copy(TOP / name, self.path(name))
        self.path("tools/costs.tsv").write_text("name\tfunctions\tseconds\tedits\ntrial\t1\t1\t0\n")
        self.path("crates.txt").write_text("trial:\n")
        self.path("crates/trial/src/main.rt").touch()
        self.path("clips/clip.bin").write_bytes(clip([ONE]))
        self.path("clips/lines").write_text("B\n")
        self.script("made", MADE)
        self.tool()

    def path(self, name):
        return self.folder / name

    def script(self, name, text):
        self.path(name).write_text(text)
        self.path(name).chmod(0o755)

    def tool(self, printed="tried", said="run=ended status=0 runners=1 proved=no", status=0):
        """What `rt try` does."""
        own = {"doc": self.path("kit/doc"), "made": self.path("made"), "log": self.log}
        self.script("bin/rt", RT.format(printed=printed, said=said, status=status, **own))

    def built(self):
        self.path("crates/trial/out").mkdir()
        self.script("crates/trial/out/trial", MADE)

    def run(self, *words, given=b"", prefix=(), has_rt=True, env=None):
        path = f"{self.path('bin')}:/usr/bin:/bin" if has_rt else "/usr/bin:/bin"
        return run([*prefix, self.path("trial"), *words], given, self.folder, stderr=subprocess.PIPE, env={"PATH": path, **(env or {})})


def told(name, done, status, stdout, *stderr):
    """The status, all of standard output, and the lines of standard error, of which words are given; none but these."""
    lines = done.stderr.decode().splitlines()
    same = done.returncode == status and done.stdout.decode() == stdout and len(lines) == len(stderr)
    same = same and all(word in line and line.startswith("trial: ") for word, line in zip(stderr, lines))
    check(f"./trial, {name}", same, f"status {done.returncode}, {done.stdout[:100]!r}, {lines}")


def with_top(case):
    with tempfile.TemporaryDirectory() as folder:
        os.chmod(folder, 0o755)
        case(Top(folder))


def options_and_absences(top):
    for word in ("--help", "-h"):
        done = top.run(word)
        check(f"./trial {word}", done.returncode == 0 and done.stdout.startswith(b"usage: ./trial") and not done.stderr, done)
    for words in (["-x"], ["--proved"], ["clips", "clips/lines", "more"]):
        done = top.run(*words)
        check(f"./trial {words}", done.returncode == 2 and not done.stdout and done.stderr.startswith(b"usage: ./trial"), done)
    told("no folder", top.run("none"), 2, "", "there is no folder none")
    told("no lines", top.run("clips", "none"), 2, "", "can't be read: none")
    told("lines are a folder", top.run("clips", "clips"), 2, "", "can't be read: clips")
    for words in ([""], ["clips", ""], ["-q", ""]):
        told(f"empty, {words}", top.run(*words), 2, "", "an argument is empty")
    told("no clip", top.run("bin"), 1, "X 15\n", "no clip.bin that can be read")
    told("no clip, quiet", top.run("-q", "bin"), 1, "X 15\n", "no clip.bin that can be read")
    for words in (["-q", "clips"], ["clips"]):
        told(f"nowhere for what is tried, {words}", top.run(*words, env={"TMPDIR": "/none"}), 2, "", "no temporary file can be made in /none")
    top.path("kit/clip.bin").mkdir()
    told("the clip is a folder", top.run("kit"), 1, "X 15\n", "no clip.bin that can be read")
    if shutil.which("rt", path="/usr/bin:/bin") is None:
        told("no rt", top.run("clips", has_rt=False), 2, "", "rt, the Rattle toolchain's command, is not on PATH")
    prefix = unprivileged()
    if prefix is None or top.run("--help", prefix=prefix).returncode != 0:
        print("trial: ./trial without permissions was not tried: nobody can't run it here")
        return
    told("a folder that can't be written", top.run("--prove", "clips", prefix=prefix), 2, "", "crates/trial/out, which can't be written")
    top.path("clips/lines").chmod(0)
    told("lines that can't be read", top.run("clips", "clips/lines", prefix=prefix), 2, "", "can't be read: clips/lines")
    top.path("clips/clip.bin").chmod(0)
    told("a clip that can't be read", top.run("clips", "-", prefix=prefix), 1, "X 15\n", "no clip.bin that can be read")


def tried_runs(top):
    """Without a proved program."""
    words = "this run is tried and not proved", "obeying"
    told("tried", top.run("clips"), 0, "tried", *words)
    told("tried, quiet", top.run("-q", "clips"), 0, "tried")
    top.tool(status=3, said="run=ended status=3 proved=no")
    told("tried, with a status", top.run("clips"), 3, "tried", *words)
    top.tool("", "run=no-answer proved=no", 6)
    told("tried, too long", top.run("clips"), 6, "", *words, "For longer inputs: ./trial --prove")
    top.tool("", "trial: refused", 1)
    told("tried, refused", top.run("-q", "clips"), 1, "", "refused", "could not be tried")


def proved_runs(top):
    """--prove proves, and then the proved program is used where it stands."""
    done = top.run("--prove", "-q", "clips")
    told("--prove", done, 0, "20\nB\n")
    told("proved", top.run("clips"), 0, "20\nB\n", "plays clip.bin of")
    told("proved, other lines", top.run("-q", "clips", "-", given=b"L 1\n"), 0, "20\nL 1\n")
    check("./trial proves only where it is asked", top.log.read_text() == "proved\n", top.log.read_text())
    shutil.copytree(top.path("clips"), top.path("two words"))
    told("proved, a blank in the name", top.run("two words", "two words/lines"), 0, "20\nB\n", "two words, obeying two words/lines")
    top.path("clips/lines").unlink()
    told("proved, standard input", top.run("clips", given=b"L 0\n"), 0, "20\nL 0\n", "standard input")


# ---- ./trial as it stands here


def as_it_stands():
    """The shipped tone by the proved program, and by a copy of the crates without one, which is tried."""
    done = run([TOP / "trial", "-q"], stderr=subprocess.PIPE)
    check("./trial", done.returncode == 0 and done.stdout.startswith(b"B 0 1 0 1\n") and not done.stderr, done.stderr.decode())
    with tempfile.TemporaryDirectory() as folder:
        Path(folder, "clip.bin").write_bytes(clip([ONE])[:-1])
        refused = run([TOP / "trial", "-q", folder], START.encode(), stderr=subprocess.PIPE)
        check("./trial, a refused clip", (refused.returncode, refused.stdout, refused.stderr) == (0, b"X 15\n", b""), refused)
    with tempfile.TemporaryDirectory() as folder:
        for name in ("trial", "crates.txt"):
            shutil.copy(TOP / name, folder)
        for name in ("crates", "examples"):
            shutil.copytree(TOP / name, Path(folder, name), ignore=shutil.ignore_patterns("out"))
        began = time.monotonic()
        tried = run([Path(folder, "trial")], stderr=subprocess.PIPE)
        took = time.monotonic() - began
    check("./trial, tried", tried.returncode == 0 and tried.stdout == done.stdout, tried.stderr.decode())
    check("./trial says that it is tried", b"tried and not proved" in tried.stderr, tried.stderr.decode())
    print(f"trial: the run that was tried took {took:.0f} s")


def commands():
    """Each command prints its usage with --help; those that prove say in one line that rt is missing."""
    modes = (line.split("\t") for line in run(["git", "ls-files", "-s"]).stdout.decode().splitlines())
    listed = [name for mode, name in modes if mode.startswith("100755")]
    check("there are commands", {"trial", "tools/prove", "tools/build_library"} < set(listed), listed)
    for name in listed:
        done = run([TOP / name, "--help"], stderr=subprocess.PIPE)
        check(f"{name} --help", done.returncode == 0 and done.stdout.startswith(b"usage: ") and not done.stderr, done)
    if shutil.which("rt", path="/usr/bin:/bin") is not None:
        return
    for words in (["tools/prove", "trial"], ["tools/build_library"]):
        done = run([TOP / words[0], *words[1:]], stderr=subprocess.PIPE, env={"PATH": "/usr/bin:/bin"})
        expected = f"{words[0]}: rt, the Rattle toolchain's command, is not on PATH\n".encode()
        check(f"{words[0]}, no rt", (done.returncode, done.stdout, done.stderr) == (2, b"", expected), done)


def main():
    if not program("trial").exists():
        sys.exit("trial: crates/trial/out/trial is not built: tools/prove trial")
    program_cases()
    for case in (options_and_absences, tried_runs, proved_runs):
        with_top(case)
    as_it_stands()
    commands()
    return check.ended()


if __name__ == "__main__":
    options(__doc__).parse_args()
    sys.exit(main())
