"""Ramps for the scripts of scripts.py: a ramp's length on the `R` line, stops about the numbers that count, and lines `Y`.

Half of the scripts stay as they are. Of the others some get a ramp, stops and `Y` lines strewn in, and some are made anew: a clip that is mostly
looped, a start on or about a sample, blocks that mostly follow each other, and one stop or several.
"""
from tolerances import MAX, NEAR, NEAR_ZERO, RELABEL, words_of

from shared.bits import f32, f64, x32, x64

LENGTHS = [1, 2, 127, 128, 129, 1000, 48000] * 3 + [0] * 2 + [48001]
BAD_RAMPS = ["-1", "1.5", "", "x", "12E1", "10000000000000000000", "0x10"]
LARGE_RAMPS = ["48001", "9999999999999999999", "9007199254740993", "0000000000000048001"]
NEARLY_NEVER = 1.7976931348623155e308
# frames of which a product shows, even one with a factor of 1
ODD = ["7F800001", "FFC12345", "7FFFFFFF", "7F800001", "FFC12345", "7F800000", "FF800000", "80000000", "BF800000", "80000001"]


def has_ramp(unit):
    """Whether the unit is a line `R` with a ramp."""
    letter, *words = unit.split(" ")
    return letter == "R" and len(words) in (2, 5) and words[-1].isdecimal()


def takes_ramp(unit):
    """Whether the unit is a line `R` that may have a ramp and has none."""
    letter, *words = unit.split(" ")
    return letter == "R" and len(words) in (1, 4) and len(words[0]) == 8


def block_times(units):
    """The times of the block lines that have one."""
    words = [unit.split(" ") for unit in units if unit.startswith(("B ", "D "))]
    times = [f64(each[1]) for each in words if len(each) >= 4 and len(each[1]) == 16]
    return [time for time in times if 0 <= time < MAX] or [0.0]


class Ramper:
    """Gives ramps to scripts. `maker` is a generator with numbers of its own."""

    def __init__(self, maker):
        self.maker, self.rng = maker, maker.rng

    def ramped(self, units):
        r = self.rng.random()
        if r < 0.5:
            return units
        return self.strewn(units) if r < 0.75 else self.made()

    # ------------------------------------------------------------ the line R

    def length(self):
        r = self.rng.random()
        return self.rng.choice(LENGTHS) if r < 0.85 else self.rng.randint(1, 400) if r < 0.97 else self.rng.randint(1, 48000)

    def word(self, length):
        """A ramp's length as a word; at times with leading zeros, at times too large or none."""
        r = self.rng.random()
        if r < 0.9:
            return str(length)
        if r < 0.95:
            return f"{length:0{self.rng.randint(5, 19)}d}"
        return self.rng.choice(LARGE_RAMPS if r < 0.98 else BAD_RAMPS)

    # ------------------------------------------------------------ strewn in

    def strewn(self, units):
        """The script with a ramp, with up to three stops, and with `Y` behind them and at its end."""
        rng, length = self.rng, self.length()
        units = [f"{unit} {self.word(length)}" if takes_ramp(unit) else unit for unit in units]
        rate = self.rate_of(units)
        for _ in range(rng.choice([0, 1, 1, 2, 3])):
            at = rng.randint(1, len(units))
            starts = [f64(unit.split(" ")[1]) for unit in units if unit.startswith("S ") and len(unit) == 52]
            start = rng.choice([min(max(starts[-1] if starts else 0.0, 0.0), 1e9), rng.choice(block_times(units))])
            units = [*units[:at], self.stop(start, rate, length, 128 * len(block_times(units))), *units[at:]]
        shown = []
        for unit in units:
            shown.append(unit)
            if unit.startswith(("T ", "B ", "D ", "M ", "N ", "S ")) and rng.random() < 0.3:
                shown.append("Y")
        return [*shown, "Y"]

    def rate_of(self, units):
        """Of the script's first player; 48,000 where that has none to divide by."""
        rate = f32(units[0].split(" ")[1]) if has_ramp(units[0]) else 0.0
        return rate if rate > 0 else 48000.0

    # ------------------------------------------------------------ made anew

    def made(self):
        """Blocks about a start, and what may stop them; one script in three is aligned as long as it can be."""
        rng, maker, length = self.rng, self.maker, self.length()
        aligned = rng.random() < 0.33
        rate, frames = (48000.0 if rng.random() < 0.5 else maker.rate()), maker.length()
        count = rng.randint(2, 9) if rng.random() < 0.85 else rng.randint(10, 24)
        times, clip_rate = maker.clock(rate, count), rate if aligned or rng.random() < 0.8 else maker.rate()
        start = times[0] if aligned else self.start(times, rate)
        offset = 0.0 if aligned or rng.random() < 0.75 else maker.buffer_time(frames, clip_rate)
        duration = MAX if aligned or rng.random() < 0.9 else maker.buffer_time(frames, clip_rate) + rng.choice([0.0, 300 / rate])
        units = [self.clip(maker.channels(), frames, clip_rate), f"S {x64(start)} {x64(offset)} {x64(duration)}"]
        units += ["L 1"] if rng.random() < 0.85 else []
        stops = [self.stop(start, rate, length, 128 * count) for _ in range(rng.choice([0, 1, 1, 1, 2, 3]))]
        while stops and rng.random() < 0.6:
            units.append(stops.pop())
        if rng.random() < 0.1:
            rng.shuffle(units)
        speed = maker.plain() if aligned or rng.random() < 0.6 else maker.speed()
        for time in times:
            if stops and rng.random() < 2 / count:
                units.append(stops.pop())
            if rng.random() < 0.03:
                units.append(rng.choice(["L 0", "L 1", maker.refused(times)]))
            units.append(maker.block(time, *speed))
            speed = maker.next_speed(*speed) if rng.random() < 0.9 else maker.plain()
            units += ["Y"] if rng.random() < 0.5 else []
        units = [f"{self.fresh(rate)} {self.word(length)}", *units, *stops, "Y", "Z"]
        return maker.strewn(units) if maker.previews and rng.random() < 0.5 else units

    def clip(self, channels, frames, rate):
        """Any clip, and in one of four little but NaNs with bits of their own, infinities and negative zeros."""
        if self.rng.random() < 0.75:
            return self.maker.clip(channels, frames, rate)
        return self.maker.clip_of(channels, frames, rate, "".join(" " + word for word in self.rng.choices(ODD, k=channels * frames)))

    def fresh(self, rate):
        """The line `R` up to its ramp."""
        rng = self.rng
        own = f" {words_of(rng.choice(NEAR), rng.choice(NEAR_ZERO), rng.choice(RELABEL))}" if self.maker.tolerances and rng.random() < 0.3 else ""
        return f"R {x32(rate)}{own}"

    def start(self, times, rate):
        """At the first block, on a sample of it, near one, between two, behind the last; in the past; in a later block."""
        rng = self.rng
        r = rng.random()
        if r < 0.35:
            return times[0]
        if r < 0.6:
            return times[0] + rng.choice([1, 2, 50, 100, 126, 127, rng.randint(0, 128)]) * (1 / rate)
        if r < 0.75:
            return times[0] + rng.uniform(0, 129) / rate
        return rng.choice([times[0] / 2, 0.0]) if r < 0.85 else self.maker.context_time(times, rate)

    def stop(self, start, rate, length, samples):
        """A stop that lies about one of the numbers that count, counted from the start; or anywhere, or nowhere."""
        rng = self.rng
        r = rng.random()
        if r < 0.07:
            return f"T {x64(rng.choice([MAX, MAX, NEARLY_NEVER, 1e300, 2.0**52 / rate, 0.0, -0.0]))}"
        if r < 0.15:
            return f"T {x64(start)}"
        number = rng.choice([0, 1, 2, 127, 128, 129, 255, 256, 257, length - 1, length, length + 1, 2 * length - 1, 2 * length, 2 * length + 1,
                             rng.randint(0, samples), rng.randint(0, samples), rng.randint(0, 2 * length + 1), length + rng.randint(0, samples)])
        number += rng.choice([0, 0, 0, 0, 0.5, 0.25, 0.999999, -0.000001, 0.000001, rng.random()])
        number = -number if rng.random() < 0.08 else number
        when = max(start + number / rate, 0.0)
        return f"T {x64(self.maker.near(when) if rng.random() < 0.2 else when)}"
