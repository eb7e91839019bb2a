"""Scripts chosen by hand for docs/REFERENCE.md, 'Near tests and tolerances': `tolerances()` gives (name, units). Each near test, and relabelling, has
tolerances at which it decides otherwise than at the default, the largest at which it says no (for relabelling, the smallest at which it says
yes) and the next one.
"""
from named import B, C, D, DOWN, DT, E, INF, NAN, P, R, RATE, S, T, UP, Q, blocks, cents, hexes, looked, ramp, words
from scripts import words_text
from tolerances import BAD_32, BAD_64, last_not_near, moved32, words_of

from shared.bits import x32, x64

DEFAULT = 2.0**-26
BAT = 768000.0


def RT(near=DEFAULT, near_zero=DEFAULT, relabel=0.1, rate=RATE):
    """A player with tolerances of its own."""
    return f"R {x32(rate)} {words_of(near, near_zero, relabel)}"


def QT(rate, other, tolerances, *channels):
    """A conversion with tolerances; these are words where some are refused."""
    text = tolerances if isinstance(tolerances, str) else words_of(*tolerances)
    head = f"Q {len(channels)} {len(channels[0])} {x32(rate)} {x32(other)} {text}"
    return head + words_text("".join(map(hexes, channels)))


def tuned(name, units, a, b, more=(), rate=RATE):
    """The script with near tolerances about the one at which a and b become near, and with those that are named."""
    most = last_not_near(a, b)
    values = [("the largest at which it is not near", most), ("the next one", UP(most)), ("the one before", DOWN(most)), *((x64(x), x) for x in more)]
    for label, near in [("default", DEFAULT), *values]:
        yield f"near {name}: {label}", [RT(near, rate=rate), *units, "Z"]


def tolerances():
    for part in (at_the_start, at_the_duration, in_the_loop, near_zero, after_the_last, mixed_up, played, relabelled, refused, unknown, bats):
        yield from part()


def summed(step, count):
    total = 0.0
    for _ in range(count):
        total += step
    return total


def at_the_start():
    start = 100.25 * DT
    yield from tuned("a start behind a sample", [C(ramp(6)), S(start), B()], 100 * DT, start, (2.0**-10, 2.0**-8, 0.1, 1.0, 0.0, -0.0, 2.0**-60))
    start = 100.75 * DT
    yield from tuned("a start before a sample", [C(ramp(6)), S(start), B()], 101 * DT, start, (2.0**-10, 2.0**-8, 0.0))
    for name, start in (("above", 100 * DT * (1 + 2.0**-27)), ("below", 100 * DT * (1 - 2.0**-27))):
        yield from tuned(f"a start just {name} a sample", [C(ramp(6)), S(start), B(0.0, 0.5)], 100 * DT, start, (0.0, -0.0, 2.0**-60, 2.0**-27, 2.0**-28))
    late = 2.0**20
    yield from tuned("a start at a late time", [C(ramp(6)), S(late + 100 * DT), B(late)], late, late + 100 * DT, (0.0, 2.0**-40, 2.0**-30))
    yield "near a start: every sample, tolerance 1", [RT(1.0), C(ramp(200)), S(50 * DT), B(), "Z", B(D), "Z"]
    yield "near a start: at time 0, tolerance 1", [RT(1.0), C(ramp(6)), S(0.0), B(), "Z"]
    yield "near a start: the smallest number, tolerance 1", [RT(1.0), C(ramp(6)), S(5e-324), B(), "Z"]
    yield "near a start moved to the block", [RT(0.1), C(ramp(6)), S(0.5), B(1.0), "Z"]
    yield "near a start before a stop", [RT(2.0**-8), C(ramp(6)), S(100.25 * DT), T(103 * DT), B(), "Z"]


def at_the_duration():
    elapsed = summed(DT, 5)
    for name, duration in (("far above", elapsed * (1 + 2.0**-20)), ("just above", elapsed * (1 + 2.0**-28))):
        for loop in (0, 1):
            units = [C(ramp(8)), S(0.0, 0.0, duration), f"L {loop}", B()]
            yield from tuned(f"a duration {name}, loop {loop}", units, elapsed, duration, (0.0, 2.0**-10))
    yield "near a duration: tolerance 1", [RT(1.0), C(ramp(8)), S(0.0, 0.0, 5 / RATE), B(), "Z"]
    yield "near a duration: none, tolerance 1", [RT(1.0), C(ramp(8)), S(0.0, 1 / RATE), "L 1", B(0.0, 1e38), "Z", B(D, 1e38), "Z"]
    yield "near a duration: backwards", [RT(0.4), C(ramp(8)), S(0.0, 7 / RATE, 3 / RATE), B(0.0, -1.0), "Z"]


def in_the_loop():
    end, first = 96 / RATE, 90 / RATE
    for name, offset in (("2^-20 below", end * (1 - 2.0**-20)), ("2^-28 below", end * (1 - 2.0**-28))):
        units = [C(ramp(100)), S(0.0, offset), "L 1", P(first), E(end), B(0.0, 0.0), "Z", B(D, 0.5)]
        yield from tuned(f"the loop's end, {name}", units, offset, end, (0.0, 2.0**-10, 2.0**-60))
    for name, offset in (("2^-20 below", first * (1 - 2.0**-20)), ("2^-28 below", first * (1 - 2.0**-28)), ("2^-20 above", first * (1 + 2.0**-20))):
        units = [C(ramp(100)), S(0.0, offset), "L 1", P(first), E(end), B(0.0, 0.0), "Z", B(D, 0.5)]
        yield from tuned(f"the loop's start, {name}", units, offset, first, (0.0, 2.0**-10, -0.0))
    whole = [C(ramp(8)), S(), "L 1"]
    for near in (0.0, 2.0**-60, 2.0**-10, 0.1, 1.0):
        yield f"near the loop's points: a clip of 8, tolerance {x64(near)}", [RT(near), *whole, *blocks(2, 0.3), "Z", B(2 * D, -0.7), "Z"]
        yield f"near the loop's points: a part, tolerance {x64(near)}", [RT(near), *whole, P(2 / RATE), E(5 / RATE), *blocks(2, 0.9), "Z", B(2 * D, -0.7), "Z"]
    near = 60 / RATE
    units = [C(ramp(100)), S(0.0, near), "L 1", P(near * (1 - 2.0**-27)), E(near), B(0.0, 0.0)]
    yield from tuned("both loop points", units, near, near * (1 - 2.0**-27), (0.0, 2.0**-28, 2.0**-10))


def near_zero():
    offsets = (("2^-20", 2.0**-20), ("2^-30", 2.0**-30), ("half a frame", 0.5 / RATE), ("the smallest number", 5e-324))
    for name, offset in offsets:
        for label, zero in (("default", DEFAULT), ("itself", offset), ("the next one", UP(offset)), ("the one before", DOWN(offset)), ("0", 0.0), ("-0", -0.0)):
            yield f"near zero, {name}: {label}", [RT(near_zero=zero), C(ramp(8)), S(0.0, offset), B(0.0, 0.0), "Z", B(D, 0.25), "Z"]
    yield "near zero: everything, tolerance 1", [RT(near_zero=1.0), C(ramp(8)), S(0.0, 5 / RATE), B(0.0, 0.5), "Z", B(D, -0.5), "Z"]
    yield "near zero: a position of 1 second, tolerance 1", [RT(near_zero=1.0, rate=3000.0), C(["3F800000"] * 3000 + ["40000000"] * 100, rate=3000.0),
                                                             S(0.0, 1.0), B(0.0, 0.5), "Z"]
    for zero in (0.0, 2.0**-60, 2.0**-27, 2.0**-10):
        yield f"near zero at a slow rate: {x64(zero)}", [RT(near_zero=zero), C(ramp(8)), S(), B(0.0, 0.0007), "Z", B(D, 0.0007), "Z"]
    for zero in (0.0, 2.0**-17, 0.5 * DT, UP(0.5 * DT)):
        yield f"near zero from below: {x64(zero)}", [RT(near_zero=zero), C(ramp(8)), S(0.0, 1 / RATE), B(0.0, -0.75), "Z"]
        yield f"near zero, looped backwards: {x64(zero)}", [RT(near_zero=zero), C(ramp(8)), S(0.0, 1 / RATE), "L 1", B(0.0, -0.5), "Z"]


def after_the_last():
    offset = 6.75 / RATE
    k = offset * RATE - 6
    yield from tuned("1 after the last frame, k 0.75", [C(ramp(7, 3.0)), S(0.0, offset), B(0.0, 0.5)], k, 1.0, (0.5, 0.0, 1.0))
    offset = DOWN(7 / 44100.0)
    k = offset * 44100.0 - 6
    units = [C(ramp(7, 3.0), rate=44100.0), S(0.0, offset), B(0.0, 0.5)]
    yield from tuned("1 after the last frame, k just below it", units, k, 1.0, (0.0, 2.0**-60), 44100.0)
    yield "near 1 after the last frame: every k, tolerance 1", [RT(1.0), C(ramp(4)), S(0.0, 2.25 / RATE), B(0.0, 0.25), "Z"]
    yield "near 1 after the last frame: k 0, tolerance 1", [RT(1.0), C(ramp(4)), S(0.0, 3 / RATE), B(0.0, 0.5), "Z"]


def mixed_up():
    """Near and near zero differ, and each test would decide otherwise with the other's."""
    for near, zero in ((2.0**-10, 0.0), (0.0, 2.0**-10), (2.0**-60, 2.0**-17), (2.0**-17, 2.0**-60)):
        label = f"near {x64(near)}, near zero {x64(zero)}"
        start, elapsed = 100 * DT * (1 + 2.0**-14), summed(DT, 5)
        yield f"{label}: start", [RT(near, zero), C(ramp(100)), S(start, 80 / RATE), B(), "Z"]
        yield f"{label}: duration", [RT(near, zero), C(ramp(100)), S(0.0, 80 / RATE, elapsed * (1 + 2.0**-14)), B(), "Z"]
        yield f"{label}: loop end", [RT(near, zero), C(ramp(100)), S(0.0, 96 / RATE * (1 - 2.0**-14)), "L 1", P(90 / RATE), E(96 / RATE), B(0.0, 0.5), "Z"]
        yield f"{label}: loop start", [RT(near, zero), C(ramp(100)), S(0.0, 90 / RATE * (1 - 2.0**-14)), "L 1", P(90 / RATE), E(96 / RATE), B(0.0, 0.5), "Z"]
        yield f"{label}: zero", [RT(near, zero), C(ramp(8)), S(0.0, 2.0**-18), B(0.0, 0.25), "Z"]
        yield f"{label}: after the last", [RT(near, zero), C(ramp(100)), S(0.0, 100 / RATE * (1 - 2.0**-22)), B(0.0, 2.0**-20), "Z"]


def played():
    """Blocks and previews have the player's tolerances for good."""
    clip = [C(ramp(300)), S()]
    yield "spelled-out defaults", [RT(), "Z", *clip, "L 1", *looked(*blocks(2), *blocks(2, 0.7, first=2))]
    for near, zero in ((0.0, 0.0), (-0.0, -0.0), (1.0, 1.0), (2.0**-60, 2.0**-60)):
        label = f"tolerances {x64(near)}, {x64(zero)}"
        yield f"{label}: aligned blocks", [RT(near, zero), *clip, "L 1", *looked(*blocks(4))]
        yield f"{label}: rate 0.7", [RT(near, zero), *clip, "L 1", *looked(*blocks(3, 0.7))]
        yield f"{label}: rate -1, once", [RT(near, zero), C(ramp(200)), S(0.0, 150 / RATE), *looked(*blocks(3, -1.0))]
        yield f"{label}: 44,100 to 48,000, in cents", [RT(near, zero), C(ramp(200), rate=44100.0), S(), *looked(cents(0.0, 1.0, -147), cents(D, 1.0, -147))]
    yield "tolerances: previews have them too", [RT(2.0**-8, 2.0**-17), C(ramp(8)), S(100.25 * DT), "L 1", *looked(B(), B(D, 0.001), cents(2 * D, 0.001, 700))]
    yield "tolerances: a near start, loop and duration", [RT(0.01), C(ramp(40)), S(64.25 * DT, 10 / RATE, 100.5 / RATE), "L 1", P(5 / RATE), E(30.25 / RATE),
                                                          *looked(B(), B(D))]
    yield "tolerances end with the player", [RT(0.0, 0.0), *clip, B(), R(), C(ramp(6)), S(100 * DT * (1 + 2.0**-27)), B(), "Z", RT(0.0), C(ramp(6)),
                                             S(100 * DT * (1 + 2.0**-27)), B(), "Z"]
    yield "tolerances do not move a refusal", [RT(1.0, 1.0, 1.0), *clip, B(), B(0.0), B(DOWN(0.0)), B(UP(0.0), 1.0, 0.0), B(UP(0.0)), "Z"]
    yield "tolerances: the relabel distance is no player's", [RT(relabel=1.0), Q(RATE, 48000.5, ramp(3)), RT(relabel=0.0), Q(RATE, 48000.0625, ramp(3))]


def relabelled():
    def each(rate, other, *distances):
        return [QT(rate, other, (DEFAULT, DEFAULT, distance), ramp(3)) for distance in distances]

    for other in (48000.09375, 47999.90625, 48000.1015625, 48000.00390625, 48001.0, 47999.0, 48000.5):
        distance = abs(other - RATE)
        beside = [moved32(distance, 1)] if distance < 1 else []
        yield f"convert to {other}, distances beside", [R(), *each(RATE, other, distance, moved32(distance, -1), *beside, 0.0, 0.1, 1.0)]
    yield "convert to the same rate, any distance", [R(), *each(RATE, RATE, 0.0, -0.0, 0.1, 1.0)]
    yield "convert within -0", [R(), *each(RATE, 48000.00390625, -0.0), *each(RATE, RATE, -0.0)]
    least = 2.0**-12
    yield "convert at 3,000, distances beside", [R(), *each(3000.0, 3000.0 + least, least, moved32(least, -1), least / 2, 0.0),
                                                 *each(3000.0, 3000.1000976562, 0.1, 0.11)]
    yield "convert at 768,000, distances beside", [R(), *each(BAT, 767999.9375, 0.0625, moved32(0.0625, -1), 0.1, 0.0),
                                                   *each(767999.0, BAT, 1.0, moved32(1.0, -1))]
    yield "convert beyond every distance", [R(), *each(24000.0, RATE, 0.0, 1.0), *each(RATE, 24000.0, 0.1, 1.0)]
    yield "convert keeps bits where it relabels", [R(), QT(RATE, 48001.0, (0.0, 1.0, 1.0), ["7F800001", "FFC12345", "80000000"]),
                                                   QT(RATE, 48001.0, (0.0, 1.0, moved32(1.0, -1)), ["7F800001", "FFC12345", "80000000"])]
    yield "convert: near and near zero do nothing", [R(), *(QT(RATE, 48000.5, (near, zero, 0.1), ramp(3)) for near in (0.0, 1.0) for zero in (0.0, 1.0))]
    yield "convert with spelled-out defaults", [R(), *each(RATE, 48000.09375, 0.1), *each(RATE, 48000.1015625, 0.1), *each(RATE, 44100.0, 0.1)]
    yield "convert an empty buffer within 0", [R(), f"Q 2 0 {x32(RATE)} {x32(44100.0)} {words_of(0.0, 0.0, 0.0)}"]
    yield "convert, its own distance and not the player's", [RT(relabel=0.0), *each(RATE, 48000.5, 1.0), RT(relabel=1.0), *each(RATE, 48000.5, 0.1), "Z"]
    yield "convert to one frame within a distance", [R(), *(QT(RATE, 47999.5, (DEFAULT, DEFAULT, x), [7.0]) for x in (0.5, 0.25))]


def with_bad(place, bits):
    parts = words_of().split(" ")
    parts[place] = bits
    return " ".join(parts)


def refused():
    for place, name in enumerate(("near", "near zero", "relabel")):
        bad = BAD_32 if place == 2 else BAD_64
        yield f"player 18: {name}", [R(), *(u for bits in bad for u in (f"R {x32(RATE)} {with_bad(place, bits)}", "Z")), R(), "Z"]
        yield f"convert 18: {name}", [R(), *(f"Q 1 2 {x32(RATE)} {x32(24000.0)} {with_bad(place, bits)}" for bits in bad), "Z"]
        one, zero = ("3F800000", "00000000") if place == 2 else (x64(1.0), x64(0.0))
        minus_zero, smallest = ("80000000", "00000001") if place == 2 else (x64(-0.0), x64(5e-324))
        good = (zero, minus_zero, smallest, one, "3F7FFFFF" if place == 2 else x64(DOWN(1.0)))
        lines = [u for bits in good for u in (f"R {x32(RATE)} {with_bad(place, bits)}", C(ramp(3)), S(), B(0.0, 0.5), "Z")]
        yield f"player accepted: {name} at the bounds", [R(), *lines]
        yield f"convert accepted: {name} at the bounds", [R(), *(words(f"Q 1 2 {x32(RATE)} {x32(24000.0)} {with_bad(place, bits)}", 1.0, 2.0) for bits in good)]
    bad, good = with_bad(0, NAN), words_of()
    yield "player: 18 before 2", [R(), f"R 00000000 {bad}", f"R 7FC00000 {with_bad(2, '3F800001')}", f"R 00000000 {good}", "Z"]
    yield "player 18: there is none", [R(), C(ramp(3)), S(), f"R {x32(RATE)} {bad}", "Z", B(), S(), "C 1 1 473B8000", B()]
    yield "player 18, then a fresh one", [R(), f"R {x32(RATE)} {bad}", RT(0.0), C(ramp(3)), S(), B(), "Z"]
    yield "player 18 gives up words", [R(), "C 1 2 473B8000", "W 3F800000", f"R {x32(RATE)} {bad}", "W 3F800000", "Z"]
    yield "words given up by a player with tolerances", [R(), "C 1 2 473B8000", "W 3F800000", RT(0.0), "W 3F800000", "Z"]
    yield "convert 18: no words follow", [R(), f"Q 1 2 {x32(RATE)} {x32(24000.0)} {bad}", "W 3F800000 40000000", "Z"]
    yield "convert: 18 before 1 before 2", [R(), *(f"Q {c} {n} 00000000 7FC00000 {t}" for t in (bad, with_bad(1, INF), with_bad(2, "BF800000"), good)
                                                   for c, n in ((0, 2), (33, 0), (1, 16777217), (1, 0)))]
    yield "convert: 18 before each", [R(), f"Q 0 2 {x32(RATE)} {x32(RATE)} {bad}", f"Q 1 0 00000000 {x32(RATE)} {bad}", f"Q 1 0 {x32(RATE)} {x32(RATE)} {bad}"]


def unknown():
    """Ill-formed lines, which change nothing."""
    near, zero, relabel = words_of(0.0, 2.0**-10, 0.5).split(" ")
    r = f"R {x32(RATE)}"
    lines = [f"{r} {x64(0.25)}", f"{r} {near} {zero}", f"{r} {near} {zero} {relabel} {relabel}", f"{r} {near} {zero} {zero}", f"{r} {relabel} {zero} {relabel}",
             f"{r} {near} {relabel} {zero}", f"{r} {near} {zero} {relabel} ", f"{r}  {near} {zero} {relabel}", f"{r} {near} {zero} 3f000000", f"{r} {relabel}",
             f"R {near} {zero} {relabel}", f"r {x32(RATE)} {near} {zero} {relabel}", f"R {near} {near} {zero} {relabel}", f"{r} {near} {zero} 3F0000000"]
    yield "unknown lines of players with tolerances", [R(), C(ramp(3)), S(), *lines, "Z", B(), "Z"]
    q = f"Q 1 1 {x32(RATE)} {x32(24000.0)}"
    lines = [f"{q} {near}", f"{q} {near} {zero}", f"{q} {near} {zero} {relabel} {relabel}", f"{q} {near} {zero} {zero}", f"{q} {relabel} {zero} {relabel}",
             f"{q} {near} {zero} {relabel} ", f"{q}  {near} {zero} {relabel}", f"{q} {near} {zero} 3f000000", f"Q 1 1 {x32(RATE)} {near} {zero} {relabel}",
             f"q 1 1 {x32(RATE)} {x32(24000.0)} {near} {zero} {relabel}", f"Q 1 {x32(RATE)} {x32(24000.0)} {near} {zero} {relabel}"]
    others = [f"V 1 1 {x32(RATE)} 1", f"J 1 0 {x32(RATE)} 1 0 {x32(RATE)}", f"C 1 1 {x32(RATE)}", B()]
    yield "unknown lines of conversions with tolerances", [R(), *lines, "Z", f"{q} {near} {zero} {relabel}", "W 3F800000", "Z"]
    yield "unknown lines of other calls with tolerances", [R(), *(f"{line} {near} {zero} {relabel}" for line in others), "Z"]


def bats():
    """768,000 samples a second, three hours into a session."""
    step, hours = 1 / BAT, 10800.0
    tight, clip = 2.0**-40, C(ramp(200), rate=BAT)
    for label, near, zero in (("default", DEFAULT, DEFAULT), ("2^-40", tight, tight)):
        fresh = RT(near, zero, rate=BAT)
        yield f"bats, {label}: a start 100 samples into a block, after three hours", [fresh, clip, S(hours + 100 * step), B(hours), "Z",
                                                                                     B(hours + 128 * step), "Z"]
        yield f"bats, {label}: a start one sample into a block, after 100 seconds", [fresh, clip, S(100.0 + step), B(100.0), "Z"]
        yield f"bats, {label}: a start half a sample behind one, after an hour", [fresh, clip, S(3600.0 + 60.5 * step), B(3600.0), "Z"]
        yield f"bats, {label}: a hundred times slower", [fresh, clip, S(), B(0.0, 0.01), "Z", B(128 * step, 0.01), "Z"]
        yield f"bats, {label}: a duration", [fresh, clip, S(0.0, 0.0, 50.0000005 * step), B(), "Z"]
    for near in (2.0**-30, 2.0**-34, 2.0**-52):
        yield f"bats, {x64(near)}: a start 100 samples into a block, after three hours", [RT(near, rate=BAT), clip, S(hours + 100 * step), B(hours), "Z"]
