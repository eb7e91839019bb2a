#!/usr/bin/env python3
"""Makes the recorded answers: crates/replay/stdin, the scripts, and crates/replay/stdout, what the oracle answers.

The scripts are the named ones of oracle/named.py and short random ones of a fixed seed; behind them the same with
calls in cents, behind these the same with previews, then with conversions, with tolerances, and then with ramps, so that the
earlier ones stay as they were. Builds the oracle and its counting copy (oracle/build.py) and prints which way each condition of the original went.
"""
import json
import subprocess
import sys
from functools import partial
from pathlib import Path

sys.path.insert(0, str(Path(__file__).resolve().parent.parent / "tools"))
from named import conversions, in_cents, named, previews
from named_ramps import ramps
from named_tolerances import tolerances
from ramps import has_ramp
from scripts import Generator, converted_frames
from tolerances import has_own

from shared import ORACLE, TOP, must, options

SEED, SEED_PREVIEWS, SEED_CONVERSIONS, SEED_TOLERANCES, SEED_RAMPS = 20261115, 20261116, 20261127, 20261201, 20261202
RANDOM, RANDOM_CENTS, RANDOM_PREVIEWS, RANDOM_CONVERSIONS, RANDOM_TOLERANCES, RANDOM_RAMPS = 240, 60, 60, 60, 60, 60
LARGEST_TEXT, LARGEST_ANSWER = 2000, 2000

# Conditions that are always true (docs/DIFFERENCES.md, B15), by line of the original.
ONE_WAY = {(484, "&self.buffer is some"), (600, "buffer_index >= end_index"), (645, "loop_start >= 0."), (645, "loop_end > 0.")}


def run(program, data):
    done = subprocess.run([ORACLE.parent / program], input=data, capture_output=True, check=True)
    return done.stdout, done.stderr.decode()


def text(name, units):
    """The first line is `R`; the name follows it, so that it is printed whatever stood before."""
    return "\n".join([units[0], f"# {name}", *units[1:]]) + "\n"


def panics(answer):
    return b"\nP\n" in answer


def by_hand(scripts):
    """Named scripts as text; of those that make the original panic, only that they do."""
    for name, units in scripts:
        script = text(name, units)
        expected = name.startswith("panic: ")
        if panics(run("replay", script.encode())[0]) != expected:
            sys.exit(f"record: {name}: the original {'does not panic' if expected else 'panics'}")
        if not expected:
            yield script


def fits(generator, units, script):
    """Whether a script has what its generator makes beyond the earlier ones: a ramp that is played, tolerances, conversions by a real change,
    previews, or calls in cents."""
    if generator.ramps:
        return any(map(has_ramp, units)) and "\nB " in script
    if generator.tolerances:
        return any(map(has_own, units))
    if generator.conversions:
        return any(map(converted_frames, units))
    if generator.previews:
        return "\nM " in script or "\nN " in script
    return ("\nD " in script) == generator.cents


def at_random(name, count, generator):
    """Short random scripts with what the generator makes beyond the earlier ones."""
    found = 0
    while found < count:
        units = generator.script()
        script = text(f"{name} {found + 1}", units)
        answer = run("replay", script.encode())[0]
        short = len(script) <= LARGEST_TEXT and len(answer) <= LARGEST_ANSWER
        if short and not panics(answer) and fits(generator, units, script):
            found += 1
            yield script


def chosen():
    """The scripts that are recorded; none of them makes the original panic."""
    made = partial(Generator, previews=False, conversions=False, tolerances=False, ramps=False)
    plain, in_cents_too = made(SEED, cents=False), made(SEED)
    scripts = [*by_hand(named()), *at_random("random", RANDOM, plain)]
    scripts += [*by_hand(in_cents()), *at_random("random, in cents", RANDOM_CENTS, in_cents_too)]
    scripts += [*by_hand(previews()), *at_random("random, with previews", RANDOM_PREVIEWS, made(SEED_PREVIEWS, previews=True))]
    scripts += [*by_hand(conversions()), *at_random("random, with conversions", RANDOM_CONVERSIONS, made(SEED_CONVERSIONS, conversions=True))]
    scripts += [*by_hand(tolerances()), *at_random("random, with tolerances", RANDOM_TOLERANCES, Generator(SEED_TOLERANCES, ramps=False))]
    scripts += [*by_hand(ramps()), *at_random("random, with ramps", RANDOM_RAMPS, Generator(SEED_RAMPS))]
    return "".join(scripts).encode(), len(scripts)


def coverage(data):
    """A table of the conditions; those that go one way only must be the ones that cannot go the other."""
    counts, one_way = {}, set()
    for line in run("reach", data)[1].splitlines():
        number, no, yes = map(int, line.split())
        counts[number] = (no, yes)
    print("| line | condition | false | true |\n|---|---|---|---|")
    for number, place in enumerate(json.loads((ORACLE.parent / "reach.json").read_text())):
        no, yes = counts.get(number, (0, 0))
        condition = place["text"].replace("|", "\\|")
        print(f"| {place['line']} | `{condition}` | {no or 'never'} | {yes or 'never'} |")
        if not (no and yes):
            one_way.add((place["line"], place["text"]))
    if one_way != ONE_WAY:
        sys.exit(f"record: conditions that go one way: {sorted(one_way)}")


def main(source, check):
    for kind in ([], ["--reach"]):
        must([TOP / "oracle/build.py", *([source] if source else []), *kind])
    data, count = chosen()
    answers, _ = run("replay", data)
    files = {"stdin": data, "stdout": answers}
    folder = TOP / "crates/replay"
    if check:
        stale = [name for name, wanted in files.items() if (folder / name).read_bytes() != wanted]
        sys.exit(f"record: not what the oracle gives: {', '.join(stale)}" if stale else 0)
    for name, content in files.items():
        (folder / name).write_bytes(content)
    coverage(data)
    print(f"{count} scripts, {len(data)} bytes; answers {len(answers)} bytes")


if __name__ == "__main__":
    words = options(__doc__)
    words.add_argument("source", metavar="SOURCE", nargs="?", help="as oracle/build.py's")
    words.add_argument("--check", action="store_true", help="write nothing, and tell whether the files are what the oracle gives today")
    main(**vars(words.parse_args()))
