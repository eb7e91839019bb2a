#!/usr/bin/env python3
"""The repository stands alone: no file that git tracks, nor its name, cites a paper that a reader doesn't have, a path of some machine or a package
registry; each section that is cited is one of docs/REFERENCE.md, or of the other page that is named; and each file that is named or linked is there.
Each finding is a line 'file:line: what'.

A section is cited so: docs/REFERENCE.md, 'Name', or 'Name' and 'Other name', all on one line; of another page, which may be named without its
folder, as oracle/README.md, 'Name'. The patterns are tried on made-up lines first.
Passed over are records of work (docs/changes; their names count), NOTICE, and this file.
"""
import bisect
import re
import subprocess
import sys
from pathlib import Path

sys.path.insert(0, str(Path(__file__).resolve().parent.parent / "tools"))
from shared import TOP, options

REFERENCE = "docs/REFERENCE.md"
RECORDS, PASSED_OVER = "docs/changes/", {"NOTICE", "tests/stands_alone.py"}

# What a pattern finds, a word that stands wherever it does, and the pattern, in which a space is any white space, and the start of a comment's next
# line with it.
UNIT = r"(?! ?(?:%|×|to \d|and \d|or \d|times|[nmµ]?s\b|seconds?|minutes?|hours?|frames?|samples?|blocks?|cents|million|[kMG]B))"
PAPERS = [
    ("a paper by its number", "document", r"\bdocuments? 0?\d\b"),
    ("a paper by its number", "doc", r"\bdocs?\.?(?: )?0\d\b"),
    ("a paper by its number", "-", r"\b0\d-(?:scope|change-requests)\b"),
    ("a demand by its number", "demand", r"\bdemands? (?:no\.(?: )?|number )?\d"),
    ("an issue by its number", "issue", r"\bissues? (?:no\.(?: )?|number )?#?\d"),
    ("a paper", "paper", r"\b(?:the|this|that|our|these|those|scope) papers?\b"),
    ("a customer", "customer", r"\bcustomers?\b"),
    ("the mission", "mission", r"\bmissions?\b"),
    ("a request", "request", r"\b(?:the|this|that|these|those|a|each|every|change) requests?\b"),
]
NUMBERED = "a paragraph by its number"
PARAGRAPHS = [
    r"\b(?:words|tapes?|statements?|lists|readings?|rules?|tables?|terms|paragraphs?|sections?|\d and) of 2\.[1-9]\b(?!\.?\d)" + UNIT,
    r"\b(?:since|before|after|for|under|see|and of) 2\.[1-9]\b(?!\.?\d)" + UNIT,
    r"(?:\b(?:per|cf\.|sections?|paragraphs?|requests?)|§)(?: )?2\.[1-9]\b(?!\.?\d)" + UNIT,
    r"\b2\.[1-9](?:'s\b| (?:says|leaves|retired|gives|wants|asks|allows|needs|reads|names|holds that)\b)",
    r"(?<![\w)\]])\(2\.[1-9](?:, 2\.[1-9])*(?:\)|[,;:] [A-Za-z'])",
    r"(?m)^[^\w\n]*2\.[1-9][,:] [A-Za-z']",
]
PLACES = [
    ("a path of a machine", "/", r"(?<![\w.])/(?:tmp/w|work|home|root|Users|opt)(?![\w-])"),
    ("a package registry", ".io", r"\b(?:crates|ghcr)\.io\b"),
    ("a package registry", ".org", r"\b(?:pypi|pythonhosted|npmjs|proxy\.golang|rubygems|debian|anaconda)\.org\b"),
    ("a package registry", ".com", r"\bnpmjs\.com\b"),
]
PATTERNS = [
    (what, word, re.compile(pattern.replace(" ", r"\s+"), re.IGNORECASE))
    for what, word, pattern in [*PAPERS, *((NUMBERED, "2.", pattern) for pattern in PARAGRAPHS), *PLACES]
]
LEADER = re.compile(r"\n[ \t]*(?://[/!]?|--|#|\*(?!/)|;|\|)?")
CITED = re.compile(r"\bREFERENCE\.md,( *)(?=(.?))")
ELSEWHERE = re.compile(r"(?<![\w/.-])((?:[\w-]+/)*(?!REFERENCE)[A-Z]+\.md), (?=')")
NAMED = re.compile(r"(?<![\w/.~$}{-])(?:tests|tools|oracle|docs|include|examples)/(?!NAME)[\w/.-]*\w")
LINKED = re.compile(r"\]\(([^)\s#:]+)(?:#[^)]*)?\)")
NEXT = re.compile(r",? and (?=')|, (?=')")


def flow(text):
    """The text as it reads on: where a comment goes on, what begins its next line is blank. Places stay."""
    return LEADER.sub(lambda found: "\n" + " " * (len(found[0]) - 1), text)


def names_in(line, headings):
    """The names that begin this text, each as a heading or else up to the next quote; None stands for one that doesn't end."""
    names = []
    while line.startswith("'"):
        known = [name for name in headings if line.startswith(f"'{name}'")]
        name = max(known, key=len) if known else line[1:].partition("'")[0]
        if f"'{name}'" != line[: len(name) + 2]:
            return [*names, None]
        names.append(name)
        line = line[len(name) + 2 :]
        following = NEXT.match(line)
        line = line[following.end() :] if following else ""
    return names


def sections(text, headings):
    """The citations of sections: where each stands, its name, and what is wrong with it, None if nothing is."""
    for found in CITED.finditer(text):
        line = text[found.end() :].partition("\n")[0]
        if not line:
            yield found.start(), None, "a section's name in another line than docs/REFERENCE.md"
        for name in names_in(line, headings):
            if name is None:
                yield found.start(), None, "a section's name that ends in another line"
            else:
                yield found.start(), name, None if name in headings else f"docs/REFERENCE.md has no section '{name}'"


def sections_elsewhere(file, text):
    """The citations of sections that other pages than docs/REFERENCE.md don't have."""
    for found in ELSEWHERE.finditer(text):
        places = (TOP / file).parent / found[1], TOP / found[1], TOP / "docs" / found[1]
        page = next((place for place in places if place.is_file()), None)
        known = headings(page.read_text(encoding="utf-8")) if page else []
        for name in names_in(text[found.end() :].partition("\n")[0], known):
            if name not in known:
                yield found.start(), f"{found[1]} has no section '{name}'" if name else "a section's name that ends in another line"


def absent(file, text):
    """The files that this one names, or links to, and that are not there."""
    for found in NAMED.finditer(text):
        if found[0] != REFERENCE and not (TOP / found[0]).exists():
            yield found.start(), f"there is no {found[0]}"
    for found in LINKED.finditer(text) if file.endswith(".md") else ():
        if not (TOP / file).parent.joinpath(found[1]).exists():
            yield found.start(), f"a link to {found[1]}, which is not there"


def in_text(text):
    """What the patterns find, and where: one of a kind at a place."""
    text, lower, seen = flow(text), text.lower(), {}
    for what, word, pattern in PATTERNS:
        for found in pattern.finditer(text) if word in lower else ():
            seen[what, found.end()] = found
    for (what, _), found in seen.items():
        yield found.start() + len(found[0]) - len(found[0].lstrip()), f"{what}: {' '.join(found[0].split())}"


def in_name(file):
    """What is wrong with a file's name."""
    found = [what for _, what in in_text(re.sub(r"[/_]|-(?!scope|change)", " ", file))]
    if file.startswith(RECORDS) and re.search(r"\d", file):
        found.append("a record of work whose name has a number")
    elif re.search(r"(?:^|/)\d+\.\d", file):
        found.append(f"{NUMBERED}, in a name")
    return found


def headings(text):
    return re.findall(r"(?m)^## (.*\S)", text)


def files():
    """Those that git tracks, and new ones that it doesn't ignore."""
    words = ["git", "ls-files", "-z", "--cached", "--others", "--exclude-standard"]
    listed = subprocess.run(words, cwd=TOP, stdout=subprocess.PIPE, check=True).stdout.decode().split("\0")
    return sorted({name for name in listed if name and (TOP / name).is_file()})


def text_of(file):
    try:
        return (TOP / file).read_text(encoding="utf-8")
    except UnicodeDecodeError:
        return ""


# ---- made-up lines

SECTIONS = ["Clip file", "trial", "Order of a block's cases", "Detune in cents"]
FOUND = """as document 01 says
documents 01 and 02
(document 2, there)
those of document
// 02, somewhere
02-change-requests.md
(doc 02)
Demand 3 holds
demand no. 3
demands 1 to 3
issue 37
issues #4 and #5
issue no. 37
the customer's words
the paper says
this paper's number
of the scope paper
the mission
of the request
what each request moved
the words of 2.4 and the floats
the statements of demand 3 and of 2.6 hold
the reading of
-- 2.4 in the oracle
since 2.4 they
as before 2.3: no
those for 2.7 |
see section 2.4
as in §2.4
per 2.4, as
2.6 says when
2.6's tape
in cents (2.1) too
| in cents (2.1, 2.2) |
as told (2.5, for clips)
//! 2.7: they are put before
2.6, sample by sample
in /home/someone
see /work/main
from /tmp/w/base
of https://crates.io/x
from files.pythonhosted.org
at registry.npmjs.com"""
ORDINARY = """a factor of 2.5
0.6 to 1.2 times
2.5 ns and 2.4 %
after 2.5 seconds, for 2.5 to 3
round(2.5) = 3, f(2.5)
[1.5, 2.5, 3.5]
    2.5, 1.0,
before 2.5 ms
per 2.5 ms, sections 2 and 3
the frame rule, version 1.2
Python 3.9, kit 12.5
(2.5, 1.0)
a permission, an emission
an issue that is open, document it
documents are handed in
a paper by a laboratory
Order::Preview(request) => self.preview(rt, request)
struct Request { the requested block }
in tmp/work or ./work/x, and/or roots
target/home, $work/out"""
CITATIONS = [
    ("as docs/REFERENCE.md, 'Clip file' says", []),
    ("docs/REFERENCE.md, 'Clip file', 'trial' and 'Order of a block's cases'.", []),
    ("// docs/REFERENCE.md, 'Clip file', and 'trial', not 'this'", []),
    ("docs/REFERENCE.md, and docs/RULE.md", []),
    ("all of docs/REFERENCE.md", []),
    ("docs/REFERENCE.md, 'Clips'", ["docs/REFERENCE.md has no section 'Clips'"]),
    ("docs/REFERENCE.md, 'Clip file' and 'Frames'", ["docs/REFERENCE.md has no section 'Frames'"]),
    ("docs/REFERENCE.md, 'clip file'", ["docs/REFERENCE.md has no section 'clip file'"]),
    ("docs/REFERENCE.md,\n-- 'Clip file'", ["a section's name in another line than docs/REFERENCE.md"]),
    ("docs/REFERENCE.md, 'Clip\n-- file'", ["a section's name that ends in another line"]),
]
FILES = [
    ("as tests/stands_alone.py and `tools/prove`, tests/c/*.c, docs/", []),
    ("[one](../README.md), [two](../README.md#here), [three](https://example.com/x), crates/x/tests/none, target/tools/none, tools/NAME.c", []),
    ("tests/stands_alon tools/prove.", ["there is no tests/stands_alon"]),
    ("see [one](README.md)", ["a link to README.md, which is not there"]),
]
ELSEWHERES = [
    ("as oracle/README.md, 'Our side', and docs/DECISIONS.md, 'Python', 'The player' say; PROTOCOL.md, 'Runs'", []),
    ("(README.md, 'Our side'), RULE.md, 'Where it holds'", []),
    ("docs/DECISIONS.md, 'Python 2' and DIFFERENCES.md, 'B99'", ["docs/DECISIONS.md has no section 'Python 2'", "DIFFERENCES.md has no section 'B99'"]),
]
NAMES = [
    ("docs/changes/2.6-switch.md", True), ("docs/changes/0-rooms.md", True), ("docs/changes/cents.md", False), ("specs/2.6-tape.antt", True),
    ("docs/02-change-requests.md", True), ("src/main.rt", False), ("kit-13f.txt", False), ("tests/document_01.py", True),
]  # fmt: skip


def self_test():
    """What is wrong with the patterns; the lines above are tried one by one, a comment's next line with its first."""
    wrong = [f"not found: {lines!r}" for lines in re.split(r"\n(?!//[^!]|-- )", FOUND) if not list(in_text(lines))]
    wrong += [f"found: {line!r}, {what}" for line in ORDINARY.split("\n") for _, what in in_text(line)]
    wrong += [f"found: {what}, in all ordinary lines" for _, what in in_text(ORDINARY)]
    wrong += [f"a pattern that finds none of the lines: {pattern.pattern}" for _, _, pattern in PATTERNS if not pattern.search(flow(FOUND))]
    for text, expected in CITATIONS:
        found = [what for _, _, what in sections(text, SECTIONS) if what]
        wrong += [] if found == expected else [f"{text!r}: {found}"]
    for text, expected in FILES:
        found = [what for _, what in absent("docs/made-up.md", text)]
        wrong += [] if found == expected else [f"{text!r}: {found}"]
    for text, expected in ELSEWHERES:
        found = [what for _, what in sections_elsewhere("oracle/made-up.md", text)]
        wrong += [] if found == expected else [f"{text!r}: {found}"]
    return wrong + [f"the name {name}: {in_name(name)}" for name, is_wrong in NAMES if bool(in_name(name)) != is_wrong]


# ---- the repository


def main():
    listed = files()
    known = headings(text_of(REFERENCE)) if REFERENCE in listed else []
    found = [f"tests/stands_alone.py: {what}" for what in self_test()]
    found += [] if known else [f"{REFERENCE}: is missing, or has no sections"]
    cited = 0
    for file in listed:
        found += [f"{file}: {what}" for what in in_name(file)]
        if file in PASSED_OVER or file.startswith(RECORDS):
            continue
        text = text_of(file)
        starts = [0, *(found.end() for found in re.finditer("\n", text))]
        told = [*in_text(text), *absent(file, text), *sections_elsewhere(file, text)]
        for at, name, wrong in sections(text, known):
            cited += name is not None
            told += [(at, wrong)] if wrong and (known or name is None) else []
        found += [f"{file}:{bisect.bisect(starts, at)}: {what}" for at, what in sorted(told)]
    print("\n".join(found), end="\n" if found else "")
    print(f"stands alone: {len(listed)} files, {cited} citations of {len(known)} sections, {len(found)} found")
    return 1 if found else 0


if __name__ == "__main__":
    options(__doc__).parse_args()
    sys.exit(main())
