#!/usr/bin/env python3
"""The counting player of the Python package, block by block beside the first player and beside the lines of
docs/RULE.md, 'The rule in executable form': by hand, and on random clips with the loop on and off, at random rates and times, with refused calls
and previews strewn in.
"""
import math
import random
import re
import sys
from array import array
from pathlib import Path

sys.path.insert(0, str(Path(__file__).resolve().parent.parent / "tools"))
from shared import TOP, Checks, library, seeds

sys.path.insert(0, str(TOP / "python"))
CLIPS = 500
RATES = [3000, 8000, 11025, 11025.5, 22050, 44000, 44100, 48000, 96000, 192000, 768000]
LATEST = 2.0**30
ZEROS = [0] * 128
check = Checks("counting")


def rule():
    """The function of docs/RULE.md."""
    text = re.search(r"^## The rule in executable form$.*?^```python\n(.*?)^```$", (TOP / "docs/RULE.md").read_text("utf-8"), re.DOTALL | re.MULTILINE)
    check("a dozen lines", text and len(text[1].splitlines()) <= 12, "docs/RULE.md has more, or none")
    names = {}
    exec(compile(text[1], "docs/RULE.md", "exec"), names)
    return names["block"]


class Both:
    """A counter, a player and the rule, on one clip."""

    def __init__(self, name, rate, rows, looped, when=0.0):
        self.name, self.rows, self.looped, self.frames, self.n = name, rows, looped, len(rows[0]), 0
        clip = netthimble.Clip.from_bits(rate, rows)
        self.counter, self.player, self.frame = netthimble.Counter(clip, looped), netthimble.Player(rate), 0
        self.player.set_clip(clip)
        self.player.start(when)
        if looped or self.frames % 2:
            self.player.loop = looped

    def by_rule(self):
        """The channels that the rule gives, and whether the clip is then over."""
        over = not self.looped and self.frame == self.frames
        made = [block(row, self.looped, self.frame) for row in self.rows]
        self.frame = made[0][1]
        return [samples for samples, _ in made[: 1 if over else None]], not over, not self.looped and self.frame == self.frames

    def fits(self, k):
        """k blocks hold the clip exactly, unlooped."""
        return not self.looped and 128 * k == self.frames

    def block(self, at):
        """One block of each; the first player's."""
        counted, played, (channels, alive, over) = self.counter.block(), self.player.block(at), self.by_rule()
        self.n += 1
        given, wrong = [list(row) for row in counted.bits], []
        if given != channels or counted.channels != len(channels) or (counted.keep_alive, counted.ended) != (alive, over):
            wrong.append(f"beside the rule: {counted!r}, keep-alive {counted.keep_alive}, frame {self.frame}")
        if self.counter.next_frame != self.frame or self.counter.ended != over:
            wrong.append(f"next {self.counter.next_frame}, not {self.frame}")
        # a clip of one channel's silence, where one of the two has ended, is compared too
        answered = min(counted.channels, played.channels)
        if given[:answered] != [list(row) for row in played.bits[:answered]]:
            wrong.append("samples beside the player")
        if counted.ended != played.ended and not self.fits(self.n):
            wrong.append(f"ended {counted.ended}, the player {played.ended}")
        if (counted.keep_alive, counted.channels) != (played.keep_alive, played.channels) and not self.fits(self.n - 1):
            wrong.append(f"keep-alive and channels {counted.keep_alive} {counted.channels}, the player {played.keep_alive} {played.channels}")
        check(f"{self.name}, block {self.n}", not wrong, f"{wrong}, {self.frames} frames, looped {self.looped}")
        return played

    def unseen(self, r, at):
        """A refused call, or a preview: the counter has no such call, and stays where it is."""
        calls = [
            lambda: self.player.preview(at),
            lambda: self.player.preview(at, cents=50),
            lambda: refused(self.player.block, math.inf),
            lambda: refused(self.player.start, at),
            lambda: refused(self.player.block, at, math.nan),
        ]
        r.choice(calls)()


def refused(call, *given):
    try:
        call(*given)
    except netthimble.Refused:
        return
    check(f"{call.__name__}{given}", False, "was not refused")


# ---- by hand


def by_hand():
    ramp = list(range(1, 1281))
    for frames, looped, counts, ends in (
        (3, True, 0, 0),
        (3, False, 1, 1),
        (127, False, 1, 1),
        (128, False, 1, 1),  # an exact fit: both end with its block
        (129, False, 2, 2),
        (640, False, 5, 6),  # one at which the first player ends with the next block
        (640, True, 0, 0),
        (641, False, 6, 6),
    ):
        both = Both(f"{frames} frames, looped {looped}", 48000, [array("I", ramp[:frames])], looped)
        seen = []
        for n in range(12):
            counted_before = both.counter.ended
            played = both.block(128 * n / 48000)
            seen.append((both.counter.ended, played.ended, counted_before))
        first = [1 + [block[side] for block in seen].index(True) if seen[-1][side] else 0 for side in (0, 1)]
        check(f"{both.name}, after how many blocks they end", first == [counts, ends], first)
    # many blocks: the counter keeps the frame
    both = Both("a thousand blocks", 44100, [array("I", [7, 8, 9]), array("I", [4, 5, 6])], True)
    for n in range(1000):
        both.block(n * 128 / 44100)
    check("a thousand blocks, the frame that comes next", both.counter.next_frame == 128000 % 3, both.counter.next_frame)


def calls():
    """What the package's calls answer and turn down."""
    clip = netthimble.Clip(48000, [[0.5, -0.25], [0.125, 1.0]])
    counter = netthimble.Counter(clip, loop=True)
    check("what can be read", (counter.clip, counter.loop, counter.next_frame, counter.ended) == (clip, True, 0, False), repr(counter))
    given = counter.block()
    check("floats", [list(row[:3]) for row in given.samples] == [[0.5, -0.25, 0.5], [0.125, 1.0, 0.125]], given.samples)
    check("words", "CountedBlock: 2 channel(s), ended False" in repr(given) and "Counter: next frame 0, loop on" in repr(counter), repr(given))
    for wrong, arguments, named in (
        ("no clip", [[0.5]], {}),
        ("None", [None], {}),
        ("a loop of 1", [clip, 1], {}),
        ("a loop of None", [clip], {"loop": None}),
        ("another name", [clip], {"looped": True}),
        ("a time", [clip, False, 0.0], {}),
    ):
        try:
            netthimble.Counter(*arguments, **named)
        except TypeError as error:
            check(wrong, "Counter" in str(error) or "__init__" in str(error), str(error))
        else:
            check(wrong, False, "no TypeError")
    empty = netthimble.Clip.from_bits(48000, [array("I")])
    for looped in (False, True):
        try:
            netthimble.Counter(empty, looped)
        except netthimble.Refused as error:
            check("no frames", error.number == 12, str(error))
        else:
            check("no frames", False, "not refused")


# ---- random clips


def length(r):
    whole = 128 * r.choice([1, 1, 2, 3, 5, r.randint(1, 12)])
    return r.choice([whole, whole, max(1, whole + r.choice([-2, -1, 1, 2])), r.randint(1, 20), r.randint(1, 1500)])


def random_clip(r, n):
    rate, frames, looped = r.choice([*RATES, 48000 + r.random(), r.uniform(3000, 768000)]), length(r), r.random() < 0.4
    rows = [array("I", (r.getrandbits(32) for _ in range(frames))) for _ in range(r.choice([1, 1, 2, 3, 32]))]
    at = r.choice([0.0, 1.0, r.random(), r.uniform(0, LATEST / 2)])
    both, manner = Both(f"clip {n}", rate, rows, looped, r.choice([0.0, at, at * r.random()])), r.randrange(3)
    for _ in range(frames // 128 + r.randint(2, 6)):
        if r.random() < 0.1:
            both.unseen(r, at)
        both.block(at)
        # the clock does what it likes
        at = [at + 128 / rate, math.nextafter(at, math.inf), at + r.random()][manner]


def main(both):
    global netthimble, block
    if not library():
        return 0
    import netthimble

    block = rule()
    by_hand()
    calls()
    for seed in both:
        check.seed, r = seed, random.Random(seed)
        for n in range(CLIPS):
            random_clip(r, n)
    return check.ended()


if __name__ == "__main__":
    sys.exit(main(seeds(__doc__)))
