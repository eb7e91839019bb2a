"""Random scripts of the replay protocol (PROTOCOL.md), from a seed.

A script is a list of units; a unit is one line, or a call with its `W` lines.
"""
import copy
import math
import random
import struct

from ramps import Ramper
from tolerances import Tuner, relabel_distance

from shared.bits import single, x32, x64

MAX = 1.7976931348623157e308
TWO_64 = 2.0**64
RATES = [48000.0] * 6 + [44100.0] * 3 + [96000.0, 8000.0, 3000.0, 768000.0, 22050.0, 24000.0, 16000.0, 192000.0]
ODD_RATES = [3000.000244140625, 767999.9375, 44100.00390625, 47999.99609375, 65536.0, 4096.0]
LENGTHS = [1, 2, 3, 4, 5, 7, 8, 16, 31, 64, 100, 126, 127, 128, 129, 130, 191, 255, 256, 257, 300, 383, 384, 385, 512, 600]
PLAY_RATES = [0.0, -0.0, -1.0, -1.0, -1.0, 0.5, 0.5, 0.5, 1.5, 2.5, 2.0, -0.5, -2.0, 1.5, 0.1, 0.25, 0.75, 3.0, 7.3,
              127.5, 128.0, -128.0, -0.3, 1.00000011920929, 0.9999999403953552, 1e-30, -1e-30, 1e-45, 1e38, -1e38, 3.4e38, 1e6, -1e6]
FACTORS = [2.0, 0.5, TWO_64, 1 / TWO_64, 1.0000000000000002, 0.9999999999999999, 1e-9, 1e9]
SPECIAL = ["00000000", "80000000", "00000001", "80000001", "007FFFFF", "00800000", "7F7FFFFF", "FF7FFFFF", "7F800000",
           "FF800000", "7FC00000", "7FC00001", "FFC00000", "7F800001", "FFBFFFFF", "3F800000", "BF800000", "33800000"]
NOT_FINITE = ["7FF0000000000000", "FFF0000000000000", "7FF8000000000000", "7FF0000000000001"]
LARGEST_RESULT = 262000  # words of a conversion; our replay has room for 262,144
CENTS = [s * c for c in (1, 2, 100, 700, 1199, 1200, 1201, 2399, 2400, 11999, 12000) for s in (1, -1)]
BAD_CENTS = [12001, -12001, 13200, -13200, 2**16, -(2**16), 2**31 - 1, -(2**31)]
BAD_LINES = ["", "b", "Z ", "B", "S", "L 2", "L", "T 0", "Q", "W 00000000", "R", "R 48000", "KF 1 1", " Z", "X 0", "P",
             "E 3ff0000000000000", "C 1 1 473b8000", "L  1", "V 1 1 473B8000", "J 1 1 473B8000 1 1", "B 0 0 0"]
BAD_CENTS_LINES = ["D", "D 0 0 0", "d 0000000000000000 3F800000 00000000", "D 0000000000000000 3F800000", "D 0000000000000000 3F800000 0",
                   "D 0000000000000000 3F800000 3FF0000000000000", "D 0000000000000000 3F800000 fffffff0", "D 0000000000000000 3F800000 -0000001",
                   "D 0000000000000000 3F800000 00000000 ", "D 0000000000000000 3F800000 00000000 65537", "D 0000000000000000 3F800000 00000000 4096 0 0"]
BAD_BLOCK_LINES = ["B", "B 0 0 0", "b 0000000000000000 3F800000 3FF0000000000000", "B 0000000000000000 3F800000", "B 0000000000000000 3F800000 1",
                   "B 0000000000000000 3F800000 00000000", "B 0000000000000000 3F800000 3ff0000000000000", "B 0000000000000000 3F800000 3FF0000000000000 ",
                   "B 0000000000000000 3F800000 3FF0000000000000 65537", "B 0000000000000000 3F800000 3FF0000000000000 4096 0 0"]
PREVIEWS = str.maketrans("BDbd", "MNmn")
LAST_FRAMES = ["7F800001", "FFC12345", "7FFFFFFF", "7F800000", "FF800000", "80000000", "00000000", "80000001", "7F7FFFFF"]
LARGEST_CONVERSION = 1000  # words of the result of one that is strewn in


def xi32(n):
    """Two's complement."""
    return struct.pack(">i", n).hex().upper()


BAD_FACTORS = [x64(x) for x in (0.0, -1.0, math.nextafter(TWO_64, MAX), math.nextafter(1 / TWO_64, 0.0))]


def time_of(unit):
    """The time of a block's line; none where the unit is no such line, or its time is no number from 0 on."""
    words = unit.split(" ")
    if words[0] not in ("B", "D") or len(words) < 4 or len(words[1]) != 16:
        return None
    time = struct.unpack(">d", bytes.fromhex(words[1]))[0]
    return time if 0 <= time < MAX else None


def converted_frames(unit):
    """The frames of the result where the unit is a conversion by a real change that is not refused; else 0."""
    if not unit.startswith("Q "):
        return 0
    _, channels, frames, *rates = unit.split("\n")[0].split(" ")
    channels, frames = int(channels), int(frames)
    rate, other = (struct.unpack(">f", bytes.fromhex(each))[0] for each in rates[:2])
    if not (1 <= channels <= 32 and 1 <= frames <= 2**24 and 3000 <= rate <= 768000 and 3000 <= other <= 768000):
        return 0
    length = math.ceil(frames * (other / rate))
    return length if abs(rate - other) > relabel_distance(rates[2:]) and length <= 2**24 else 0


def previewed(line):
    """The preview of a block's line."""
    return line[:1].translate(PREVIEWS) + line[1:]


def words_text(words):
    """`W` lines of 128 words, from a text ' word word ..'."""
    return "".join("\nW" + words[i : i + 1152] for i in range(0, len(words), 1152))


def make_pools(rng, size):
    def text(words):
        return "".join(" " + w for w in words)

    def ordinary():
        return x32(rng.uniform(-1, 1))

    def special():
        return rng.choice(SPECIAL) if rng.random() < 0.5 else ordinary()

    return {
        "bits": text(f"{rng.getrandbits(32):08X}" for _ in range(size)),
        "ordinary": text(ordinary() for _ in range(size)),
        "special": text(special() for _ in range(size)),
        "ramp": text(x32(float(i + 1)) for i in range(size)),
        "flat": text(x32(float(1 + i // 40 % 5)) for i in range(size)),
        # x, -x: half way between, the rounding of each step shows
        "opposite": text(x32(s * x) for x in (rng.uniform(-1, 1) for _ in range(size // 2)) for s in (1, -1)),
        # whole numbers of 23 and 24 digits, one sign for 64 of them: half way between, ties of two f32 values
        "ties": text(x32((1 - 2 * (i // 64 % 2)) * float(rng.randrange(2**22, 2**24))) for i in range(size)),
    }


class Generator:
    POOL = 80000

    def __init__(self, seed, cents=True, previews=True, conversions=True, tolerances=True, ramps=True):
        """Without `cents` the scripts have no `D` lines: the first ones that were recorded are made so. Previews, and conversions
        beside those of `buffer_call`, are strewn in by copies that draw by themselves, and tolerances on `R` and `Q` lines are drawn
        apart too: without them the scripts of a seed are the same in all else. Ramps come last, and by a copy too: a script that gets
        none is the one that it was."""
        self.rng = random.Random(seed)
        self.cents = cents
        self.previews = previews
        self.conversions = conversions
        self.tolerances = tolerances
        self.ramps = ramps
        self.pools = make_pools(self.rng, self.POOL)
        self.meter, self.converter = copy.copy(self), copy.copy(self)
        self.meter.rng = random.Random(f"{seed} previews")
        self.converter.rng = random.Random(f"{seed} conversions")
        self.tuner = Tuner(random.Random(f"{seed} tolerances"))
        maker = copy.copy(self)
        maker.rng = random.Random(f"{seed} ramps")
        self.ramper = Ramper(maker)

    # ------------------------------------------------------------ numbers

    def frames(self, count):
        """Words, each behind a space."""
        kind = self.rng.choice(["bits", "ordinary", "ordinary", "special", "ramp", "ramp", "flat", "opposite", "ties"])
        pool = self.pools[kind]
        first = 0 if kind == "ramp" else self.rng.randrange(self.POOL - count + 1) if count < self.POOL else 0
        return pool[9 * first : 9 * (first + count)]

    def words(self, count):
        return words_text(self.frames(count))

    def rate(self):
        r = self.rng.random()
        if r < 0.8:
            return self.rng.choice(RATES)
        if r < 0.9:
            return self.rng.choice(ODD_RATES)
        return single(self.rng.uniform(3000, 768000))

    def length(self):
        return self.rng.choice(LENGTHS) if self.rng.random() < 0.7 else self.rng.randint(1, 600)

    def channels(self):
        r = self.rng.random()
        return 1 if r < 0.8 else 2 if r < 0.95 else 3 if r < 0.985 else self.rng.choice([8, 31, 32])

    def play_rate(self):
        r = self.rng.random()
        if r < 0.25:
            return 1.0
        if r < 0.75:
            return self.rng.choice(PLAY_RATES)
        if r < 0.9:
            return single(self.rng.uniform(-3, 3))
        return single(self.rng.choice([1, -1]) * 10 ** self.rng.uniform(-12, 8))

    def factor(self):
        r = self.rng.random()
        if r < 0.75:
            return 1.0
        if r < 0.85:
            return 2 ** (self.rng.randint(-2400, 2400) / 1200)
        return self.rng.choice(FACTORS)

    def whole_cents(self):
        r = self.rng.random()
        if r < 0.1:
            return 0
        if r < 0.3:
            return self.rng.choice(CENTS)
        if r < 0.32:
            return self.rng.choice(BAD_CENTS)
        return self.rng.randint(-12000, 12000)

    def plain(self):
        """Rate 1, and factor 1 or 0 cents."""
        return 1.0, 0 if self.cents and self.rng.random() < 0.3 else 1.0

    def speed(self):
        """Rate, and a factor (a float) or cents (an int); at times a pair whose product is 1 or nearly."""
        cents = self.cents and self.rng.random() < 0.4
        if self.rng.random() < 0.06:
            e = self.rng.choice([1, -1, 10, -10, 3] if cents else [1, -1, 64, -64, 10])
            return 2.0**-e, 1200 * e if cents else 2.0**e
        return self.play_rate(), self.whole_cents() if cents else self.factor()

    def next_speed(self, rate, detune):
        """The same, but for cents other than 0, which change often."""
        if isinstance(detune, int) and detune != 0 and self.rng.random() < 0.7:
            detune = self.whole_cents()
        return rate, detune

    def near(self, x):
        """x, or x moved by a few ulps or by about the near tolerance."""
        r = self.rng.random()
        if r < 0.4:
            return x
        if r < 0.6:
            return math.nextafter(x, self.rng.choice([0.0, MAX]))
        return x * (1 + self.rng.choice([1, -1]) * self.rng.choice([0.5, 0.99, 1, 1.01, 2, 8]) * 2.0**-26)

    def buffer_time(self, frames, rate):
        """A time inside or about a clip."""
        r = self.rng.random()
        if r < 0.45:
            return self.near(self.rng.randint(0, frames) / rate)
        if r < 0.75:
            return self.rng.uniform(0, frames / rate)
        if r < 0.85:
            return frames / rate
        return self.rng.choice([0.0, -0.0, 1e-9, 1e-7, 1e-320, 1.0, 1e300, MAX, frames / rate * 1.5])

    # ------------------------------------------------------------ the clock

    def clock(self, rate, count):
        """Block times, mostly increasing: regular, overlapping, jumping."""
        rng = self.rng
        length = 1 / rate * 128
        r = rng.random()
        first = 0 if r < 0.6 else rng.randint(1, 10**4) if r < 0.85 else rng.randint(1, 10**9)
        kind = rng.choice(["regular"] * 4 + ["summed"] * 2 + ["overlap", "jump", "mixed", "tiny"])
        t = 128 * first / rate
        if r > 0.97:
            t = 2.0 ** rng.choice([10, 20, 29])
        times = []
        for n in range(count):
            times.append(t)
            step = {"regular": 1.0, "summed": 1.0, "overlap": rng.random(), "jump": rng.uniform(1, 40)}.get(kind)
            if kind == "regular":
                t = 128 * (first + n + 1) / rate if r <= 0.97 else t + length
            elif kind == "tiny":
                t = math.nextafter(t, MAX)
            else:
                t += length * (step if step is not None else rng.choice([1.0, 1.0, rng.random(), rng.uniform(1, 4)]))
        return times

    def context_time(self, times, rate):
        """A time about one of the blocks: at it, at or near a sample, between samples, past sample 127."""
        rng = self.rng
        t = times[min(len(times) - 1, rng.choice([0, 0, 0, 1, 1, 2, rng.randrange(len(times))]))]
        r = rng.random()
        if r < 0.25:
            return t
        if r < 0.45:
            return t + rng.randint(0, 128) * (1 / rate)
        if r < 0.65:
            return self.near(t + rng.randint(0, 128) * (1 / rate))
        if r < 0.8:
            return t + rng.uniform(0, 128) / rate
        if r < 0.85:
            return t + (127 + rng.random()) / rate
        if r < 0.9:
            return t + 1 / rate * 128
        return rng.choice([0.0, -0.0, t / 2, MAX, 1e9, t + 1])

    # ------------------------------------------------------------ calls

    def clip(self, channels, frames, rate):
        return self.clip_of(channels, frames, rate, self.frames(channels * frames))

    def clip_of(self, channels, frames, rate, words):
        """The clip of these words, each behind a space."""
        return f"C {channels} {frames} {x32(rate)}" + words_text(words)

    def block(self, time, rate, detune):
        if isinstance(detune, int):
            return f"D {x64(time)} {x32(rate)} {xi32(detune)}"
        return f"B {x64(time)} {x32(rate)} {x64(detune)}"

    def refused_block(self, times, cents):
        """A `B` line or, in cents, a `D` line with one to four things that are refused, or an unknown one."""
        rng = self.rng
        if rng.random() < 0.15:
            return rng.choice(BAD_CENTS_LINES if cents else BAD_BLOCK_LINES)
        time, rate, output, samples = x64(rng.choice(times)), "3F800000", 4096, None
        detune = xi32(self.whole_cents()) if cents else x64(self.factor())
        for row in rng.sample([8, 13, 14, 16, 16, 1] if cents else [8, 13, 14, 14, 1], rng.randint(1, 4)):
            if row == 8:
                output = rng.choice([0, 128, 4095, 4097])
            elif row == 13:
                time = rng.choice([*NOT_FINITE, x64(-1.0), x64(math.nextafter(2.0**30, MAX)), x64(times[0])])
            elif row == 14 and (cents or rng.random() < 0.5):
                rate = rng.choice(["7F800000", "FF800000", "7FC00000", "FF800001"])
            elif row == 14:
                detune = rng.choice([*NOT_FINITE, *BAD_FACTORS])
            elif row == 16:
                detune = xi32(rng.choice(BAD_CENTS) if rng.random() < 0.8 else rng.choice([1, -1]) * rng.randint(12001, 2**31 - 1))
            else:
                samples = rng.choice([601 * 32 + 1, 99999])
        lengths = "" if output == 4096 and samples is None else f" {output}" + ("" if samples is None else f" {samples}")
        return f"{'D' if cents else 'B'} {time} {rate} {detune}{lengths}"

    def refused(self, times):
        """A line that is refused wherever it stands, or nearly always."""
        rng = self.rng
        if self.cents and rng.random() < 0.3:
            return self.refused_block(times, True)
        t, one = rng.choice(times), x64(1.0)
        big = math.nextafter(2.0**30, MAX)
        bad64 = rng.choice(NOT_FINITE)
        start = [x64(0.0)] * 3
        start[rng.randrange(3)] = rng.choice([bad64, x64(-1.0), x64(-5e-324)])
        return rng.choice([
            "S " + " ".join(start),
            f"S {x64(t)} {x64(0.0)} {x64(MAX)}",
            f"T {rng.choice([bad64, x64(-1.0)])}",
            f"T {x64(t)}",
            f"P {bad64}",
            f"E {bad64}",
            f"B {bad64} 3F800000 {one}",
            f"B {x64(rng.choice([-1.0, -5e-324, big]))} 3F800000 {one}",
            f"B {x64(times[0])} 3F800000 {one}",
            f"B {x64(t)} {rng.choice(['7F800000', 'FF800000', '7FC00000', 'FF800001'])} {one}",
            f"B {x64(t)} 3F800000 {rng.choice([bad64, *BAD_FACTORS])}",
            f"B {x64(t)} 3F800000 {one} {rng.choice([0, 128, 4095, 4097, 8192, 65537])}",
            f"B {x64(t)} 3F800000 {one} 4096 {rng.choice([601 * 32 + 1, 99999, 536870913])}",
            f"C {rng.choice([0, 33, 40])} 2 473B8000",
            "C 1 16777217 473B8000",
            "C 1 0 473B8000",
            f"C 1 1 {rng.choice(['453B7FFF', '493B8001', '7FC00000', 'C73B8000', '7F800000'])}\nW 3F800000",
            "C 1 2 473B8000\nW 3F800000 40000000",
            "C 1 2 473B8000\nW 3F800000\nZ",
            "C 1 2 473B8000\nW 3F800000 3F800000 3F800000",
            rng.choice(BAD_LINES),
        ])

    def buffer_call(self):
        rng = self.rng
        c = self.channels() if rng.random() < 0.95 else rng.choice([0, 33])
        n = rng.choice([0, 1, 2, 3, 4, 5, 8, 13, 30, self.length()])
        kind = rng.choice(["KF", "KF", "KT", "KT", "J", "V", "Q", "Q"])
        rate, other = self.rate(), self.rate()
        if kind in ("KF", "KT"):
            channel = rng.choice([0, 0, max(c - 1, 0), c, 10**19 - 1])
            offset = rng.choice([0, 1, max(n - 1, 0), n, n + 1, rng.randint(0, 40), 2**32, 2**63, 10**19 - 1])
            size = rng.choice([0, 1, n, n + 1, rng.randint(0, 40)])
            head, count = f"{kind} {c} {n} {channel} {offset} {size}", c * n + (size if kind == "KT" else 0)
        elif kind == "J":
            d, m = (c if rng.random() < 0.9 else 1), rng.choice([0, 1, 5, 20])
            if rng.random() < 0.9:
                other = rate
            head, count = f"J {c} {n} {x32(rate)} {d} {m} {x32(other)}", c * n + d * m
        elif kind == "V":
            head, count = f"V {c} {n} {x32(rate)} {rng.choice([0, 1, n // 2, n, n + 1])}", c * n
        else:
            r = rng.random()
            if r < 0.3:
                other = single(rate + rng.choice([0.09375, 0.1015625, 0.1, -0.1, 0.05, 0.2]))
            elif r < 0.35:
                other = rng.choice([2999.0, 768001.0])
            elif r < 0.5:
                n = rng.choice([n, 147, 160, 294, 441])
                rate, other = rng.choice([(44100.0, 48000.0), (48000.0, 44100.0), (24000.0, 48000.0), (48000.0, 24000.0)])
            if 1 < c <= 32 and c * n * other / rate > LARGEST_RESULT:
                c = 1
            head, count = f"Q {c} {n} {x32(rate)} {x32(other)}", c * n
        return head + (self.words(count) if 1 <= c <= 32 else "")

    def any_rate(self):
        """Any f32 from 3,000 to 768,000, the patterns equally likely."""
        return struct.unpack(">f", self.rng.randint(0x453B8000, 0x493B8000).to_bytes(4, "big"))[0]

    def beside(self, rate):
        """An accepted rate a few f32 patterns from this one, or itself."""
        step = self.rng.choice([0, 0, 0, 1, -1, 2, -3])
        return min(max(struct.unpack(">f", (int(x32(rate), 16) + step).to_bytes(4, "big"))[0], 3000.0), 768000.0)

    def conversion(self):
        """A conversion, nearly always by a real change: to one frame; by a whole multiple, or nearly, so that frames are read on, just
        below and just above one; between ordinary rates; just beyond 0.1; between any rates. The last frame is often an unusual one."""
        rng = self.rng
        c, n = self.channels(), rng.choice([1, 1, 2, 2, 3, 4, 5, 8, 13, 30, self.length()])
        kind = rng.choice(["single", "single", "multiple", "multiple", "ordinary", "near", "any"])
        rate, other = self.any_rate(), self.any_rate()
        if kind == "single":
            n = min(n, rng.randint(1, 5))
            rate = max(n * 3000.0, self.rate())
            other = self.beside(single(rate / n)) if rng.random() < 0.5 else single(rng.uniform(3000, rate / n))
        elif kind == "multiple":
            times = rng.choice([2, 2, 3, 4, 6, 7, 16])
            rate = rng.choice([8000.0, 3000.0, 16000.0, 48000.0, single(rng.uniform(3000, 48000))])
            rate, other = self.beside(rate), self.beside(single(rate * times))
            if rng.random() < 0.5:
                rate, other = other, rate
        elif kind == "ordinary":
            rate, other = self.rate(), self.rate()
        elif kind == "near":
            other = min(max(single(rate + rng.choice([1, -1]) * rng.choice([0.1015625, 0.125, 0.5, 0.09375])), 3000.0), 768000.0)
        if c * n * other / rate > LARGEST_CONVERSION:
            c, n = 1, min(n, 3)
        words = self.frames(c * n).split()
        if rng.random() < 0.5:
            words[n - 1 :: n] = [rng.choice(LAST_FRAMES) for _ in range(c)]
        return f"Q {c} {n} {x32(rate)} {x32(other)}" + words_text("".join(" " + word for word in words))

    # ------------------------------------------------------------ scripts

    def script(self):
        units = self.without_previews()
        if self.previews:
            units = self.meter.strewn(units)
        if self.conversions:
            units = self.converter.with_conversions(units)
        if self.tolerances:
            units = self.tuner.tuned(units)
        return self.ramper.ramped(units) if self.ramps else units

    def with_conversions(self, units):
        """The script with up to two conversions before or behind its units."""
        for _ in range(self.rng.choice([0, 0, 0, 1, 1, 2])):
            at = self.rng.randint(1, len(units))
            units = [*units[:at], self.conversion(), *units[at:]]
        return units

    def without_previews(self):
        r = self.rng.random()
        if r < 0.3:
            return self.aligned()
        if r < 0.34:
            return self.overlapping()
        if r < 0.42:
            return ["R 473B8000"] + [self.buffer_call() for _ in range(self.rng.randint(3, 12))]
        if r < 0.423:
            return self.long()
        if r < 0.425:
            return self.large()
        return self.free()

    def strewn(self, units):
        """The script with previews before and behind its units, at times several, and at times a `Z` after them."""
        rng = self.rng
        times = [time_of(unit) for unit in units]
        known = [time for time in times if time is not None] or [0.0, 1.0]
        found = units[:1]
        for i in range(1, len(units) + 1):
            if rng.random() < 0.2:
                before, after = range(i - 1, 0, -1), range(i, len(units))
                last, coming = (next((units[k] for k in part if times[k] is not None), None) for part in (before, after))
                found += [self.preview(last, coming, known) for _ in range(rng.choice([1, 1, 1, 1, 2, 3]))]
                found += ["Z"] if rng.random() < 0.25 else []
            found += units[i : i + 1]
        return found

    def preview(self, last, coming, times):
        """Of the coming block, of the last one, refused, or of a block at any time about these."""
        rng = self.rng
        r = rng.random()
        if coming and r < 0.45:
            return previewed(coming)
        if last and r < 0.55:
            return previewed(last)
        if r < 0.7:
            return previewed(self.refused_block(times, rng.random() < 0.4))
        time = time_of(coming or last) if (coming or last) and rng.random() < 0.7 else rng.choice(times)
        time += rng.choice([0.0, 0.0, rng.random() * 0.001, 128 / 48000, 1.0])
        return previewed(self.block(time, *(self.plain() if rng.random() < 0.3 else self.speed())))

    def aligned(self):
        """Rate 1, offset 0, a start at or before the first block: mostly aligned blocks."""
        rng = self.rng
        rate, frames = self.rate(), self.length()
        times = self.clock(rate, rng.randint(2, 9))
        units = [self.clip(self.channels(), frames, rate)]
        start = times[0] if rng.random() < 0.6 else rng.choice([0.0, times[0] / 2, times[min(1, len(times) - 1)]])
        duration = MAX if rng.random() < 0.8 else rng.choice([rng.randint(0, 600) / rate, 128 / rate, 1 / rate * 128, 256 / rate])
        units.append(f"S {x64(start)} {x64(0.0)} {x64(duration)}")
        if rng.random() < 0.6:
            units.append("L 1")
        rng.shuffle(units)
        if rng.random() < 0.15:
            units.append(f"T {x64(self.context_time(times, rate))}")
        for t in times:
            r = rng.random()
            if r < 0.05:
                units.append(rng.choice(["L 0", "L 1"]))
            elif r < 0.08:
                units.append(rng.choice("PE") + " " + x64(self.buffer_time(frames, rate)))
            elif r < 0.1:
                units.append(f"T {x64(self.context_time(times, rate))}")
            elif r < 0.2:
                units.append(self.refused(times))
            speed = self.plain() if rng.random() < 0.95 else self.speed()
            units.append(self.block(t, *speed))
            if rng.random() < 0.1:
                units.append("Z")
        return [f"R {x32(rate)}"] + units + ["Z"]

    def overlapping(self):
        """A start on a sample of the first block, then a block at the very start time: aligned in mid-play."""
        rng = self.rng
        rate, frames = self.rate(), self.length()
        t = rng.choice([0.0, 0.0, 128 * rng.randint(1, 1000) / rate])
        start = t + rng.randint(1, 127) * (1 / rate)
        units = [self.clip(self.channels(), frames, rate), f"S {x64(start)} {x64(0.0)} {x64(MAX)}"]
        if rng.random() < 0.8:
            units.append("L 1")
        units.append(self.block(t, *self.speed()))
        if rng.random() < 0.4:
            units.append("L 0")
        for i in range(rng.randint(1, 4)):
            speed = self.plain() if rng.random() < 0.85 else self.speed()
            units.append(self.block(start if i == 0 else start + i * 128 / rate, *speed))
        return [f"R {x32(rate)}"] + units + ["Z"]

    def long(self):
        """Hundreds of blocks of a short looped clip, or a clip of many blocks played once to its end."""
        rng = self.rng
        rate, looped = self.rate(), rng.random() < 0.6
        if looped:
            frames, count = rng.choice([1, 3, 5, 40, 127, 128, 129, 200, 600]), rng.randint(100, 500)
        else:
            whole = rng.randint(1, 80)
            frames, count = 128 * whole + rng.choice([0, 0, 0, 1, -1, rng.randint(-127, 127)]), whole + 3
        units = [f"C 1 {frames} {x32(rate)}" + words_text(self.pools["flat"][: 9 * frames])]
        units += [f"S {x64(0.0)} {x64(0.0)} {x64(MAX)}", f"L {int(looped)}"]
        speed = self.plain() if rng.random() < 0.6 else self.speed()
        summed, t = rng.random() < 0.5, 0.0
        for n in range(count):
            units.append(self.block(t, *speed))
            speed = self.next_speed(*speed)
            t = t + 1 / rate * 128 if summed else 128 * (n + 1) / rate
        return [f"R {x32(rate)}"] + units + ["Z"]

    def large(self):
        """A clip of thousands of frames."""
        rng = self.rng
        rate, frames = self.rate(), rng.randint(2000, 70000)
        times = self.clock(rate, rng.randint(3, 8))
        units = [self.clip(1, frames, rate)]
        offset = 0.0 if rng.random() < 0.4 else self.buffer_time(frames, rate)
        units.append(f"S {x64(self.context_time(times, rate))} {x64(offset)} {x64(MAX)}")
        units.append(f"L {rng.randint(0, 1)}")
        speed = self.plain() if rng.random() < 0.5 else self.speed()
        units += [self.block(t, *speed) for t in times]
        return [f"R {x32(rate)}"] + units + ["Z"]

    def free(self):
        """Everything at random."""
        rng = self.rng
        rate = self.rate()
        times = self.clock(rate, rng.randint(2, 8))
        before, later = self.free_calls(rate, times)
        first = rate if rng.random() < 0.98 else rng.choice([0.0, 2999.0, 768001.0, -48000.0])
        units = [f"R {x32(first)}"] + before
        speed = self.speed()
        for t in times:
            while later and rng.random() < 0.35:
                units.append(later.pop(rng.randrange(len(later))))
            if rng.random() < 0.1:
                units.append(self.refused(times))
            speed = self.speed() if rng.random() < 0.12 else self.next_speed(*speed)
            units.append(self.block(t, *speed))
            if rng.random() < 0.1:
                units.append("Z")
        if rng.random() < 0.05:
            units.append(self.buffer_call())
        return units + ["Z"]

    def free_calls(self, rate, times):
        """A clip, a start, loop settings and a stop, each perhaps: before the first block, and later."""
        rng = self.rng
        frames, clip_rate = self.length(), rate if rng.random() < 0.55 else self.rate()
        looped = rng.random() < 0.65
        before, later = [], []

        def place(unit, late):
            (later if rng.random() < late else before).append(unit)

        def times_of(plain, chance):
            return plain if rng.random() < chance else self.buffer_time(frames, clip_rate)

        if rng.random() < 0.97:
            place(self.clip(self.channels(), frames, clip_rate), 0.06)
        if rng.random() < 0.97:
            start, offset, duration = self.context_time(times, rate), times_of(0.0, 0.45), times_of(MAX, 0.6)
            place(f"S {x64(start)} {x64(offset)} {x64(duration)}", 0.1)
        if looped:
            place("L 1", 0.15)
        for letter in "PE":
            if rng.random() < (0.6 if looped else 0.15):
                sign = -1 if rng.random() < 0.05 else 1
                place(f"{letter} {x64(sign * self.buffer_time(frames, clip_rate))}", 0.15)
        if rng.random() < 0.1:
            later.append(rng.choice(["L 0", "L 1"]))
        rng.shuffle(before)
        if rng.random() < 0.2:
            (before if rng.random() < 0.6 else later).append(f"T {x64(self.context_time(times, rate))}")
        return before, later
