#!/usr/bin/env python3
"""Ramps: the Python package on random players, beside a reading of docs/REFERENCE.md, 'Ramps' in exact fractions. A player with a ramp and one
without get the same calls: what the first plays is what the second plays, each sample times the factor of its number, and all else is the same.
Known samples, players that are refused, and records at the largest count come before them.
"""
import ctypes
import math
import random
import sys
from array import array
from fractions import Fraction
from pathlib import Path

sys.path.insert(0, str(Path(__file__).resolve().parent.parent / "tools"))
from shared import TOP, Checks, library, seeds
from shared.bits import bits32, float32, single

sys.path.insert(0, str(TOP / "python"))
NEVER, NAN, BLOCK = 1.7976931348623157e308, 0x7FC00000, 128
LENGTHS = [0, 1, 2, 3, 7, 100, 127, 128, 129, 255, 300, 1000, 48000]
PLAYERS = 250
check = Checks("ramp", shown=20, width=700)


# ---- the reading


def nearest(x):
    """The bits of the f32 nearest to a fraction below 2^127, ties to even; of one that rounds to nothing, zero."""
    size, sign = abs(x), 1 << 31 if x < 0 else 0
    if size == 0:
        return 0
    place = max(size.numerator.bit_length() - size.denominator.bit_length() - 24, -149)
    while place > -149 and size < 2**23 * Fraction(2) ** place:
        place -= 1
    while size >= 2**24 * Fraction(2) ** place:
        place += 1
    digits = round(size / Fraction(2) ** place)
    return sign + bits32(math.ldexp(digits, place))


def times(bits, share):
    """The bits of a sample that is multiplied by the f32 nearest to this share of 1."""
    value, factor = float32(bits), Fraction(float32(nearest(share)))
    if math.isnan(value) or math.isinf(value):
        return bits if math.isinf(value) and factor else NAN
    product = nearest(Fraction(value) * factor)
    return product | bits & 1 << 31


def stop_number(start, stop, rate):
    """W: (stop - start) x rate, each step rounded to f64, rounded down; from 0 to 2^52. None for a stop that never comes."""
    if stop == NEVER:
        return None
    try:
        return min(max(math.floor(float(Fraction(float(Fraction(stop) - Fraction(start))) * Fraction(rate))), 0), 2**52)
    except OverflowError:
        return 2**52


class Reading:
    """The ramp of a player: its length R, the number of the sample that counts next, and W where it is known."""

    def __init__(self, length, rate):
        self.length, self.rate, self.count, self.w = length, rate, 0, None

    def share(self, j):
        """The factor of sample j as a fraction; None where it has none."""
        if self.length == 0:
            return None
        found = [Fraction(j, self.length)] if j < self.length else []
        if self.w is not None and j > self.w:
            found.append(Fraction(0))
        elif self.w is not None and self.w - j < self.length:
            found.append(Fraction(self.w - j, self.length))
        return min(found) if found else None

    def row(self, bits, first):
        """A channel's samples with their factors; those before the first that counts are as they were."""
        shares = [None if i < first else self.share(min(self.count + i - first, 2**53)) for i in range(BLOCK)]
        return [x if share is None else times(x, share) for x, share in zip(bits, shares)]

    def counted(self, first):
        self.count = min(self.count + BLOCK - first, 2**53)

    def fields(self):
        return self.length, self.count, self.w


def shown(player):
    return player.ramp, player.ramp_count, player.stop_sample


class Both:
    """A player with a ramp, the same without, and the reading. The calls are kept, to be shown."""

    def __init__(self, name, rate, length, tolerances=None):
        self.name, self.calls = f"{name}, R {length} at {rate!r}", []
        self.ramped = netthimble.Player(rate, tolerances=tolerances, ramp=length)
        self.plain = netthimble.Player(rate, tolerances=tolerances)
        self.own = Reading(length, self.plain.sample_rate)
        self.agree("made")

    def agree(self, call, wrong=()):
        """The two records are the same but for the ramp, and the ramp is the reading's."""
        self.calls.append(call)
        told = list(wrong)
        if fields(self.ramped) != fields(self.plain):
            told.append("the records differ")
        if shown(self.ramped) != self.own.fields():
            told.append(f"ramp {shown(self.ramped)}, not {self.own.fields()}")
        if shown(self.plain) != (0, *self.own.fields()[1:]):
            told.append(f"without a ramp {shown(self.plain)}")
        check(f"{self.name}, call {len(self.calls)}", not told, f"{told}: {'; '.join(self.calls)}")

    def tell(self, call, *values):
        """A message to both; refused by both or by neither."""
        answers = [answer(getattr(player, call), *values) for player in (self.ramped, self.plain)]
        if call == "stop" and answers[1] is None and self.plain.has_started:
            self.own.w = stop_number(self.plain._record.start_time, values[0], self.own.rate)
        self.agree(f"{call}{values}", [] if answers[0] == answers[1] else [f"answers {answers}"])

    def block(self, at, **speed):
        """A block of both, and before it a preview, which counts nothing."""
        seen = [answer(player.preview, at, **speed) for player in (self.ramped, self.plain)]
        started, ended = self.plain.has_started, self.plain.ended
        answers = [answer(player.block, at, **speed) for player in (self.ramped, self.plain)]
        wrong = [] if heard(seen[0]) == heard(answers[0]) and heard(seen[1]) == heard(answers[1]) else ["a preview is not the block"]
        if isinstance(answers[1], int):
            wrong += [] if answers[0] == answers[1] else [f"answers {answers}"]
        else:
            first = BLOCK if ended else self.first(at, started)
            if not started and first < BLOCK:
                record = self.plain._record
                self.own.w = stop_number(record.start_time, record.stop_time, self.own.rate)
            wrong += self.compared(*answers, first)
            self.own.counted(first)
        self.agree(f"block({at!r}, {speed})", wrong)
        return answers[0]

    def first(self, at, started):
        """The first sample that counts: the one whose instant has reached the start, as that stands now."""
        record = self.plain._record
        if not record.render_state.started:
            return BLOCK
        instants = [at + i * (1 / self.own.rate) for i in range(BLOCK)]
        return 0 if started else next(i for i in range(BLOCK) if instants[i] >= record.start_time)

    def compared(self, block, plain, first):
        """What differs between a block with a ramp and the one without, times the factors."""
        same = (block.position, block.ended, block.keep_alive, block.channels) == (plain.position, plain.ended, plain.keep_alive, plain.channels)
        rows = [self.own.row(bits, first) for bits in plain.bits]
        wrong = [(c, i, f"{block.bits[c][i]:08X}", f"{rows[c][i]:08X}") for c in range(len(rows)) for i in range(BLOCK) if rows[c][i] != block.bits[c][i]]
        early = [i for bits in plain.bits for i in range(first) if bits[i]]
        return [*([] if same else ["the answers differ"]), *([f"samples {wrong[:3]}"] if wrong else []), *([f"early {early[:3]}"] if early else [])]


def answer(call, *values, **named):
    """What a call gives, or the number that it is refused with."""
    try:
        return call(*values, **named)
    except netthimble.Refused as refused:
        return refused.number


def heard(block):
    return block if isinstance(block, int) else (block.bits, block.position, block.ended, block.keep_alive)


def fields(player):
    """The values of a record's fields but for the ramp; the bytes between them are anything."""
    def values(record):
        return [values(x) if isinstance(x, ctypes.Structure) else x for x in (getattr(record, name) for name, _ in record._fields_ if name != "ramp")]
    return values(player._record)


# ---- known samples, by hand


def clip(frames, rate=48000):
    """Of floats, or of bits where the first is a whole number."""
    made = netthimble.Clip.from_bits if isinstance(frames[0], int) else netthimble.Clip
    return made(rate, [frames])


def begun(length, frames, when=0.0, stop=None, loop=True, rate=48000):
    player = netthimble.Player(rate, ramp=length)
    player.set_clip(clip(frames, rate))
    player.start(when)
    player.loop = loop
    if stop is not None:
        player.stop(stop)
    return player


def samples(player, *times):
    return [x for at in times for x in player.block(at).samples[0]]


def plays(name, player, expected, ramp, *times):
    """The first samples of these blocks, and the ramp after them."""
    got = samples(player, *times)[: len(expected)]
    check(name, got == [single(x) for x in expected] and shown(player) == ramp, f"{got[:12]}, {shown(player)}, not {expected[:12]}, {ramp}")


def by_hand():
    d = 128 / 48000
    plays("a ramp of 4", begun(4, [1.0]), [0, 0.25, 0.5, 0.75] + [1] * 252, (4, 256, None), 0.0, d)
    plays("none", begun(0, [1.0], stop=6 / 48000), [1] * 6 + [0] * 122, (0, 128, 6), 0.0)
    plays("R 4, W 6: sample 3 is 0.75", begun(4, [1.0], stop=6 / 48000), [0, 0.25, 0.5, 0.75, 0.5, 0.25] + [0] * 122, (4, 128, 6), 0.0)
    plays("R 4, W 4 meet", begun(4, [1.0], stop=4.5 / 48000), [0, 0.25, 0.5, 0.25] + [0] * 124, (4, 128, 4), 0.0)
    plays("R 1", begun(1, [1.0], stop=100 / 48000), [0] + [1] * 99 + [0] * 28, (1, 128, 100), 0.0)
    plays("R 2", begun(2, [1.0], stop=100 / 48000), [0, 0.5] + [1] * 97 + [0.5] + [0] * 28, (2, 128, 100), 0.0)
    late = begun(300, [1.0], when=100 / 48000)
    expected = [0] * 101 + [n / 300 for n in range(1, 28)] + [0] * 100 + [128 / 300]
    plays("sample 100 of a second block at 1e-9 is number 128", late, expected, (300, 156, None), 0.0, 1e-9)
    kept = begun(4, [0x7F800001] * 128, stop=128 / 48000)
    bits = list(kept.block(0.0).bits[0])
    check("a NaN's bits stay without a factor", bits == [NAN] * 4 + [0x7F800001] * 121 + [NAN] * 3, [f"{x:08X}" for x in bits[:6] + bits[122:]])
    bits = list(begun(2, [0xBF800000, 0x7F800000, 0x80000000, 0xFF800000]).block(0.0).bits[0])[:4]
    check("zero multiplies too", bits == [0x80000000, 0x7F800000, 0x80000000, 0xFF800000], [f"{x:08X}" for x in bits])
    check("an infinity times zero", list(begun(1, [0x7F800000, 0xFF800000]).block(0.0).bits[0][:3]) == [NAN, 0xFF800000, 0x7F800000])
    at_stop(d)
    long_ramp()
    counts()


def at_stop(d):
    """W by when it is worked out, and stops that are told late, early and again."""
    late = 2.0**20
    early, later = (begun(4, [1.0], when=late + 0.0005, stop=stop, loop=False) for stop in (late + 0.002, None))
    early.block(late)
    later.block(late)
    check("W from the start as it is snapped", shown(early) == (4, 128, 96), shown(early))
    check("W is not known without a stop", shown(later) == (4, 128, None), shown(later))
    later.stop(late + 0.002)
    check("W at a stop that comes later", shown(later) == (4, 128, 96), shown(later))
    later.stop(NEVER)
    check("a stop that never comes", shown(later) == (4, 128, None), shown(later))
    for stop, w in ((1e300, 2**52), (math.nextafter(NEVER, 0), 2**52), (2.0**53 / 48000, 2**52), (0.0, 0)):
        later.stop(stop)
        check(f"W of {stop!r}", later.stop_sample == (0 if stop < late else w), later.stop_sample)
    cut = begun(200, [1.0], stop=None)
    rows = samples(cut, 0.0, d)
    cut.stop(300 / 48000)
    rows += samples(cut, 2 * d)
    check("a stop told so late that the ramp has begun", rows[255] == 1 and rows[256] == single(44 / 200) and rows[300:] == [0] * 84, rows[250:260])
    before = begun(4, [1.0], when=50 / 48000, stop=20 / 48000)
    check("a stop before the start", samples(before, 0.0) == [0] * 128 and shown(before) == (4, 0, None) and before.ended, shown(before))
    ended = begun(4, [1.0], stop=60 / 48000)
    samples(ended, 0.0, d, 2 * d)
    check("the whole of the block that ends it counts, and none behind it", shown(ended) == (4, 128, 60), shown(ended))


def long_ramp():
    """Up and down again by 1/R a sample, never by more, with the whole of both ramps at 48,000."""
    length, w = 48000, 100000
    player = begun(length, [1.0], stop=w / 48000)
    played = samples(player, *(128 * n / 48000 for n in range(783)))
    expected = [min(j, length, max(w - j, 0)) for j in range(len(played))]
    check("R 48,000, every sample", all(x == single(k / length) for x, k in zip(played, expected)) and len(played) == 783 * 128)
    steps = max(abs(Fraction(a) - Fraction(b)) for a, b in zip(played, played[1:]))
    check("no step above 1/R but for two roundings", steps <= Fraction(1, length) + Fraction(2, 2**25), float(steps * length))
    check("silent at its start and from W on", played[0] == 0 and played[w:] == [0.0] * (len(played) - w) and played[w - 1] > 0)


def counts():
    """Records that are filled by hand: the count stays at 2^53."""
    for count, after in ((2**53 - 200, 2**53 - 72), (2**53 - 128, 2**53), (2**53 - 1, 2**53), (2**53, 2**53)):
        player = begun(4, [1.0])
        player.block(0.0)
        player._record.ramp.count = count
        row = player.block(128 / 48000).samples[0]
        check(f"a count of {count}", player.ramp_count == after and list(row) == [1.0] * 128, f"{player.ramp_count}")


# ---- refusals


def refused():
    for bad in (48001, 2**32, 2**53, 2**64 - 1, 2**64, 10**30, -1, -(2**70)):
        check(f"a ramp of {bad}", answer(netthimble.Player, 48000, ramp=bad) == 19, answer(netthimble.Player, 48000, ramp=bad))
        for rate in (0, 2999, 768001, math.nan):
            check(f"2 before 19: {rate}, {bad}", answer(netthimble.Player, rate, ramp=bad) == 2)
    for good in (0, 1, 47999, 48000):
        player = netthimble.Player(48000, ramp=good)
        check(f"a ramp of {good}", shown(player) == (good, 0, None) and shown(player.copy()) == (good, 0, None))
        check(f"2 with a ramp of {good}", answer(netthimble.Player, 0, ramp=good) == 2)
    for bad in (1.5, "5", None, [4], True):
        try:
            netthimble.Player(48000, ramp=bad)
        except TypeError as told:
            check(f"a ramp of {bad!r} is no number", "ramp" in str(told), told)
        else:
            check(f"a ramp of {bad!r} is no number", False, "did not raise")
    player = begun(300, [1.0], stop=1.0)
    player.block(0.0)
    before, calls = bytes(player._record), [
        (9, player.stop, -1.0), (9, player.stop, math.nan), (10, player.start), (10, player.set_clip, clip([1.0])), (13, player.block, 0.0),
        (13, player.preview, 0.0), (14, player.block, 1.0, math.inf), (14, player.block, 1.0, 1.0, 0.0), (9, player.set_loop_start, math.nan),
    ]
    for number, *call in calls:
        check(f"refused with {number}, and the ramp stays", answer(*call) == number and bytes(player._record) == before)
    for name in ("ramp", "ramp_count", "stop_sample"):
        try:
            setattr(player, name, 4)
        except AttributeError:
            check(f"{name} is read only", bytes(player._record) == before)
        else:
            check(f"{name} is read only", False, "it was set")


# ---- random players


def any_bits(r, count):
    """Frames: ordinary ones, and in one clip of three all that f32 has."""
    odd = [0, 0x80000000, 1, 0x80000001, 0x007FFFFF, 0x00800000, 0x7F7FFFFF, 0x7F800000, 0xFF800000, NAN, 0x7F800001, 0xFFC12345, 0x3F800000]
    wild = r.random() < 0.33
    return array("I", ((r.choice(odd) if r.random() < 0.5 else r.getrandbits(32)) if wild else bits32(single(r.uniform(0.1, 1))) for _ in range(count)))


def stop_about(r, start, length, rate):
    """A stop about the numbers that count."""
    j = r.choice([0, 1, length - 1, length, length + 1, 2 * length, 127, 128, 129, r.randint(0, 1200), r.randint(0, 2 * length + 2)])
    j += r.choice([0, 0, 0.5, 0.25, -0.001, 0.001, r.random()])
    return r.choice([max(start + j / rate, 0.0)] * 8 + [max(start - j / rate, 0.0), NEVER, start, 1e12])


def times_of(r, first, rate, count):
    """Mostly blocks behind one another; at times they overlap, or leave gaps."""
    step = r.choice([1, 1, 1, 1, 0.3, 1e-4, 5])
    return [first + 128 * step * n / rate for n in range(count)]


def at_random(n, r):
    length = r.choice(LENGTHS) if r.random() < 0.8 else r.randint(1, 48000)
    rate = single(r.choice([44100.0, 48000.0, 48000.0, 768000.0, 3000.0, r.uniform(3000, 768000)]))
    given = netthimble.Tolerances(r.choice([0.0, 2.0**-26, 2.0**-10, 1.0]), r.choice([0.0, 2.0**-26, 2.0**-10])) if r.random() < 0.3 else None
    both, clip_rate = Both(f"player {n}", rate, length, given), rate if r.random() < 0.8 else single(r.uniform(3000, 768000))
    rows = [any_bits(r, r.choice([1, 3, 20, 128, 129, 300]))] * r.choice([1, 1, 1, 2])
    made = netthimble.Clip.from_bits(clip_rate, rows)
    first = r.choice([0.0, 0.0, r.random(), r.uniform(0, 1000), 2.0**20])
    start = max(first + r.choice([0.0, 0.0, r.randint(-3, 140), r.uniform(-3, 140)]) / rate, 0.0)
    offset = r.choice([0.0, 0.0, 0.0, r.random() * made.duration])
    duration = r.choice([NEVER] * 5 + [r.uniform(0, 600) / rate])
    both.tell("set_clip", made)
    both.tell("start", start, offset, duration)
    both.tell("set_loop", r.random() < 0.85)
    for _ in range(r.choice([0, 1, 1, 2])):
        both.tell("stop", stop_about(r, start, length, rate))
    speed = r.choice([{}, {}, {}, {"playback_rate": 0.5}, {"playback_rate": -1.0}, {"cents": 700}, {"factor": 1.5}])
    for at in times_of(r, first, rate, r.choice([2, 3, 5, 9])):
        if r.random() < 0.25:
            both.tell("stop", stop_about(r, start, length, rate))
        if r.random() < 0.1:
            both.tell(*r.choice([("set_loop", False), ("set_loop", True), ("stop", -1.0), ("start", 0.0), ("set_loop_start", 0.001)]))
        both.block(at, **speed)
        if r.random() < 0.1:
            both.block(at, **speed)
        speed = speed if r.random() < 0.9 else {}
    return both.own


def main(both):
    global netthimble
    if not library():
        return 0
    import netthimble

    by_hand()
    refused()
    for seed in both:
        check.seed, r = seed, random.Random(seed)
        owns = [at_random(n, r) for n in range(PLAYERS)]
        played, stopped = sum(own.count > 0 and own.length > 0 for own in owns), sum(own.w is not None for own in owns)
        check("most players are ramped, and many are stopped", played > PLAYERS / 2 and stopped > PLAYERS / 4, f"{played}, {stopped} of {PLAYERS}")
    return check.ended()


if __name__ == "__main__":
    sys.exit(main(seeds(__doc__)))
