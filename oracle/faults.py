"""What check_edits.py and check_tape.py share: each fault of a folder is built into a copy of the oracle and tried."""
from shared import ORACLE, TOP, must, options


def parser(doc):
    words = options(doc)
    words.add_argument("source", metavar="SOURCE", nargs="?", help="as oracle/build.py's")
    words.add_argument("--only", metavar="LABEL", default="*")
    return words


def try_each(folder, given, tried):
    """`tried` takes the copy's program and `given`, and tells whether the fault is found, and what the run said. Prints a line for each: found or
    MISSED. The status is 1 where one is missed, or none is tried."""
    edits, missed = sorted((TOP / folder).glob(given.only + ".edit")), 0
    for edit in edits:
        must([TOP / "oracle/build.py", *([given.source] if given.source else []), "--edit", edit])
        found, said = tried(ORACLE.parent / "edited" / edit.stem, given)
        missed += not found
        print(f"{'found ' if found else 'MISSED'} {edit.stem}: {said}", flush=True)
    return 1 if missed or not edits else 0


def is_found(done):
    """Whether a run that ended so found differences, which its last line counts."""
    lines = done.stdout.splitlines()
    return done.returncode == 1 and bool(lines) and not lines[-1].endswith(" 0 differences")
