#!/usr/bin/env python3
"""Builds the oracle: the Rust original behind the replay protocol (oracle/README.md). Its files are copied to target/oracle/, patched as PATCHES
says, and compiled with oracle/rust. Nothing of it is committed.
  (nothing)   target/oracle/replay
  --edit E    target/oracle/edited/E: a copy with one deliberate fault, to try the differential run
  --reach     target/oracle/reach: a copy that counts which way each condition went, and reach.json beside it
"""
import json
import re
import shutil
import subprocess
import sys
from pathlib import Path

sys.path.insert(0, str(Path(__file__).resolve().parent.parent / "tools"))
from shared import TOP, options

TARGET = TOP / "target/oracle"
SOURCE = TOP.parent / "shared/docs/src"
RUST = TOP / "oracle/rust"
CRATES = ["almost", "arrayvec", "float_eq", "log"]
FILES = ["lib.rs", "buffer.rs", "render/quantum.rs", "node/audio_buffer_source.rs"]
SOURCE_NODE = "node/audio_buffer_source.rs"
FLAGS = ["--edition", "2021", "-O", "-C", "overflow-checks=on", "--cap-lints", "allow"]

# Every alteration of the original's text: file, text that stands there once, what replaces it.
PATCHES = [
    # A factor that the caller hands in stands for the power of two (docs/REFERENCE.md, 'Detune in cents').
    (SOURCE_NODE, "(detune / 1200.).exp2()", "params.factor"),
    # Which zero `(-0.).max(0.)` gives is left open by Rust and differs between builds: it is +0 here.
    (SOURCE_NODE, "self.offset.max(0.).min(", "(self.offset.max(0.) + 0.).min("),
    # Our module that reads the private record for the `Z` line (on one line: line numbers stay).
    (SOURCE_NODE, "use super::{AudioNode,", "pub(crate) mod peek; use super::{AudioNode,"),
]
# Lines of lib.rs that name files which aren't here: inner attributes, modules and re-exports.
LIB_DROPPED = re.compile(r"^(#!\[.*\]|(pub )?mod \w+;|pub use .*;)\n", re.M)


def replace_once(texts, file, old, new):
    found = texts[file].count(old)
    if found != 1:
        sys.exit(f"build: {file}: {found} places read {old!r}, not 1")
    texts[file] = texts[file].replace(old, new)


def read_edit(path):
    fields = dict(line.split(": ", 1) for line in path.read_text().splitlines() if line)
    return fields["file"], fields["old"], fields["new"]


def reach(text):
    """Counts each condition from `handle_control_message` to the end of `process`, atom by atom."""
    first, last = text.index("    fn handle_control_message"), text.index("    fn onmessage")
    found = []

    def atom(piece, line):
        found.append({"line": line, "text": " ".join(piece.split())})
        return f"crate::reach::cond({len(found) - 1}, {piece})"

    def split(expr, sign):
        parts, depth, start = [], 0, 0
        for i, ch in enumerate(expr):
            depth += (ch == "(") - (ch == ")")
            if depth == 0 and expr.startswith(sign, i):
                parts.append(expr[start:i])
                start = i + len(sign)
        return parts + [expr[start:]]

    def wrap(expr, line):
        for sign in ("||", "&&"):
            parts = split(expr, sign)
            if len(parts) > 1:
                return f" {sign} ".join(wrap(part, line) for part in parts)
        inner = expr.strip()
        if inner.startswith("(") and inner.endswith(")"):
            return "(" + wrap(inner[1:-1], line) + ")"
        if inner.startswith("!"):
            return "!" + wrap(inner[1:], line)
        return atom(inner, line)

    def count(match):
        line = text.count("\n", 0, first + match.start()) + 1
        before, test = match.groups()
        if before.endswith("if "):
            return f"{before}{wrap(test, line)} {{\n"
        found.append({"line": line, "text": " ".join(test.split()) + " is some"})
        return f"{before}crate::reach::option({len(found) - 1}, {test}) {{\n"

    branch = r"(?m)^([^\n/]*(?:= match |if let Some\(\w+\) = |\bif (?!let\b)))([^{};]+?)\s*\{\n"
    return text[:first] + re.sub(branch, count, text[first:last]) + text[last:], found


def stand_in(crate, folder):
    """The crate's stand-in, compiled: one for all copies, but a copy's own where its text is altered."""
    shim, copied = RUST / "shims" / f"{crate}.rs", folder / "shims" / f"{crate}.rs"
    altered = copied.read_text() != shim.read_text()
    library = (folder if altered else TARGET) / f"lib{crate}.rlib"
    if altered or not library.exists() or library.stat().st_mtime < shim.stat().st_mtime:
        command = ["rustc", *FLAGS, "--crate-type", "rlib", "--crate-name", crate, copied, "-o", library]
        subprocess.run(command, check=True)
    return library


def compile_all(folder, program):
    externs = [f"--extern={crate}={stand_in(crate, folder)}" for crate in CRATES]
    program.parent.mkdir(parents=True, exist_ok=True)
    command = ["rustc", *FLAGS, *externs, "--crate-name", "oracle", folder / "main.rs", "-o", program]
    subprocess.run(command, check=True)


def copied(folder, texts):
    """A folder with oracle/rust and these files of the original."""
    shutil.rmtree(folder, ignore_errors=True)
    shutil.copytree(RUST, folder, ignore=shutil.ignore_patterns("head.rs"))
    texts["main.rs"] = (RUST / "head.rs").read_text() + LIB_DROPPED.sub("", texts.pop("lib.rs"))
    for file, text in texts.items():
        (folder / file).write_text(text)


def main(source, edit, with_reach):
    if not (source / "src" / SOURCE_NODE).exists():
        sys.exit(f"build: no Rust original in {source}: name its folder")
    texts = {file: (source / "src" / file).read_text() for file in FILES}
    for file, old, new in PATCHES:
        replace_once(texts, file, old, new)
    name = "replay"
    if edit:
        name = f"edited/{edit.stem}"
        file, old, new = read_edit(edit)
        if file not in texts:
            texts[file] = (RUST / file).read_text()
        replace_once(texts, file, old, new)
    if with_reach:
        name = "reach"
        texts[SOURCE_NODE], found = reach(texts[SOURCE_NODE])
    folder = TARGET / "source" / name
    copied(folder, texts)
    if with_reach:
        (TARGET / "reach.json").write_text(json.dumps(found))
    compile_all(folder, TARGET / name)
    print((TARGET / name).relative_to(TOP))


if __name__ == "__main__":
    words = options(__doc__)
    where = "the folder that holds the original's `src`; ../shared/docs/src where it is left out"
    words.add_argument("source", metavar="SOURCE", nargs="?", type=Path, default=SOURCE, help=where)
    words.add_argument("--edit", metavar="FILE.edit", type=Path)
    words.add_argument("--reach", action="store_true")
    given = words.parse_args()
    main(given.source, given.edit, given.reach)
