#!/usr/bin/env python3
"""Every fault that is tried against our crates still fits them: each `old:` text of crates/*/must-fail and of oracle/subject-edits stands exactly
once in its file, and its `new:` text is another. Whether the fault is found is for `rt ci` and oracle/check_subject.py to say."""
import sys
from pathlib import Path

sys.path.insert(0, str(Path(__file__).resolve().parent.parent / "tools"))
from shared import TOP, Checks, options  # noqa: E402

check = Checks("edits fit")


def pairs(edit):
    """The lines of an edit: the file's name, and its pairs of an old text and a new one."""
    lines = edit.read_text(encoding="utf-8").splitlines()
    named = [line[6:].strip() for line in lines if line.startswith("file: ")]
    old = [line[5:] for line in lines if line.startswith("old: ")]
    new = [line[5:] for line in lines if line.startswith("new: ")]
    return named, list(zip(old, new)), len(old) == len(new) > 0


def fits(edit, folder):
    """Applies the pairs one after another, as those do who try them."""
    name = str(edit.relative_to(TOP))
    named, texts, even = pairs(edit)
    check(name, len(named) == 1 and even, "one file, and as many new texts as old ones")
    if len(named) != 1 or not (folder / named[0]).is_file():
        return check(name, False, f"there is no {named}")
    text = (folder / named[0]).read_text(encoding="utf-8")
    for old, new in texts:
        check(name, text.count(old) == 1 and old != new, f"{text.count(old)} times in {named[0]}: {old}")
        text = text.replace(old, new)


def main():
    for edit in sorted(TOP.glob("crates/*/must-fail/*.edit")):
        fits(edit, edit.parent.parent)
    for edit in sorted(TOP.glob("oracle/subject-edits/*.edit")):
        fits(edit, TOP / "crates")
    return check.ended()


if __name__ == "__main__":
    options(__doc__).parse_args()
    sys.exit(main())
