#!/usr/bin/env python3
"""Worked cases of docs/RULES.md, each with a name: the limits of every number, every
refusal, refusals that meet, silence, frames saved and mended ("Restart at a line
(C-22)"), gains and why a filter is off ("Gains (C-18)"), and "Marked cases". The
answers are the model's (model.py).

    oracle/worked.py [--src DIR] --print           a line for each case and its answer
    oracle/worked.py [--src DIR] --write [FILE]    writes the list crates/prog_replay/data/worked
    oracle/worked.py [--src DIR] --check           compares that list with the model

With a FILE the list is written there instead. It fails if a case differs, if a marked
case has another result than stated there, if a mended frame breaks the promise of
"Restart at a line (C-22)", if a gain is not what its case is there for, or if a case
leans on the last digits of the arcsine.

Assumes Python 3 with its standard library.
"""

import dataclasses
import math
import pathlib
import sys

import lists
import model
from lists import COST, DECODE, ENCODE, INDEX, RESTART, SAVE, Call
from model import f32, float_of, mul, pattern_of, patterns_of

LIST = lists.FOLDER / "worked"
NAMES = ["10 ms", "7.5 ms"]


# Index cases


def index(x):
    return Call(INDEX, lines=(pattern_of(x),))


def index_cases():
    for name, x in [
        ("the f32 above 1", 1 + 2**-23),
        ("the f32 below -1", -1 - 2**-23),
        ("the f32 below 1", 1 - 2**-24),
        ("the f32 above -1", -1 + 2**-24),
        ("-1.5", -1.5),
        ("0", 0.0),
        ("-0", -0.0),
        ("the smallest f32", 2**-149),
        ("infinity", math.inf),
        ("-infinity", -math.inf),
    ]:
        yield f"index of {name}", index(x)


# Cost cases


def cost(weighting, filters, orders, first, others=8, indices=16):
    """A call whose first index is given, and all its other indices."""
    listed = ([first] + [others] * 16)[:indices]
    return Call(COST, choice=weighting, filters=filters, orders=orders, indices=tuple(listed))


def cost_cases():
    yield "two filters of order 0", cost(0, 2, (0, 0), 8)
    yield "order 8", cost(0, 1, (8, 0), 9)
    yield "order 9", cost(0, 1, (9, 0), 9)
    yield "order 9 of an unused filter", cost(0, 1, (1, 9), 9)
    yield "index 16", cost(0, 1, (1, 0), 16)
    yield "index 17", cost(0, 1, (1, 0), 17)
    yield "index 17 at every unused place", cost(0, 0, (0, 0), 8, 17)
    yield "order 9 and index 17", cost(0, 1, (9, 0), 17)
    yield "filter count 2", cost(1, 2, (1, 1), 9, 9)
    yield "filter count 3", cost(1, 3, (1, 1), 9, 9)
    yield "weighting 1", cost(1, 1, (1, 0), 9)
    yield "weighting 2", cost(2, 1, (1, 0), 9)
    yield "the most bits", cost(1, 2, (8, 8), 0, 0)
    yield "no order", cost(0, 0, (), 8)
    yield "one order", cost(0, 1, (1,), 8)
    yield "three orders", cost(0, 1, (1, 0, 0), 8)
    yield "no index", cost(0, 0, (0, 0), 8, indices=0)
    yield "fifteen indices", cost(0, 1, (1, 0), 8, indices=15)
    yield "seventeen indices", cost(0, 1, (1, 0), 8, indices=17)
    yield "4 before 5", cost(0, 3, (1,), 8)
    yield "4 before 6", cost(0, 1, (9,), 8)
    yield "4 before 7", cost(0, 1, (1,), 17)
    yield "4 before 8", cost(2, 1, (1,), 8)
    yield "5 before 6", cost(0, 3, (9, 0), 8)
    yield "5 before 7", cost(0, 3, (1, 0), 17)
    yield "5 before 8", cost(2, 3, (1, 0), 8)
    yield "6 before 7", cost(0, 1, (0, 9), 17)
    yield "6 before 8", cost(2, 1, (9, 0), 8)
    yield "7 before 8", cost(2, 1, (1, 0), 17)
    yield "the lowest of two bad orders", cost(0, 1, (10, 9), 8)
    yield "the lowest of sixteen bad indices", cost(0, 1, (1, 0), 200, 17)


# Decode cases


def decode(duration, bandwidth, filters, orders, indices, count):
    """No two lines are alike."""
    lines = tuple(pattern_of(i + 1) for i in range(count))
    return Call(DECODE, duration, bandwidth, 0, filters, orders, indices, 0, lines)


def frame(duration, bandwidth, count):
    """Two filters of order 8."""
    return decode(duration, bandwidth, 2, (8, 8), (12,) * 16, count)


def full_band(filters, orders, first, others):
    """10 ms, bandwidth 4."""
    return decode(0, 4, filters, orders, (first,) + (others,) * 15, 400)


def at_rows(said, make):
    """Of every row: one line too few, just enough, the most, and one too many."""
    for duration, rows in enumerate(model.ROWS):
        for bandwidth, bands in enumerate(rows):
            stop, longest = bands[-1][-1], model.LONGEST[duration]
            for count in [stop - 1, stop, longest, longest + 1]:
                name = f"{NAMES[duration]} bandwidth {bandwidth}, {said.format(count)}"
                yield name, make(duration, bandwidth, count)


def meeting(a, b):
    """A sound call but for two refusals: for each a number over its limit, or an
    order too few."""
    over = [int(refusal in (a, b)) for refusal in range(8)]
    return decode(
        2 * over[1],
        4 + over[2],
        2 + over[5],
        (8 + over[6],) * (2 - over[4]),
        (16 + over[7],) + (12,) * 15,
        400 + over[3],
    )


def decode_cases():
    yield from at_rows("{} lines", frame)
    yield "duration 2", frame(2, 0, 300)
    yield "duration 255", frame(255, 0, 300)
    yield "bandwidth 5", frame(0, 5, 300)
    yield "bandwidth 255", frame(1, 255, 300)
    yield "no filter", full_band(0, (8, 8), 12, 12)
    yield "one filter", full_band(1, (8, 8), 12, 12)
    yield "two filters", full_band(2, (8, 8), 12, 12)
    yield "two filters, the first of order 0", full_band(2, (0, 8), 12, 12)
    yield "two filters, the second of order 0", full_band(2, (8, 0), 12, 12)
    yield "filter count 3", full_band(3, (8, 8), 12, 12)
    yield "two filters of order 0", full_band(2, (0, 0), 12, 12)
    yield "every index 8", full_band(2, (8, 8), 8, 8)
    yield "every index 0", full_band(2, (8, 8), 0, 0)
    yield "order 8", full_band(1, (8, 0), 9, 8)
    yield "order 9", full_band(1, (9, 0), 9, 8)
    yield "order 9 of an unused filter", full_band(1, (1, 9), 9, 8)
    yield "order 9 where no filter is counted", full_band(0, (9, 0), 9, 8)
    yield "the lowest of two bad orders", full_band(2, (10, 9), 9, 8)
    yield "index 16", full_band(1, (1, 0), 16, 8)
    yield "index 17", full_band(1, (1, 0), 17, 8)
    yield "index 17 of an unused filter", full_band(0, (1, 0), 8, 17)
    yield "the lowest of sixteen bad indices", full_band(1, (1, 0), 200, 17)
    yield "order 9 and index 17", full_band(1, (9, 0), 17, 8)
    for name, orders, indices in [
        ("no order", 0, 16),
        ("one order", 1, 16),
        ("three orders", 3, 16),
        ("no index", 2, 0),
        ("fifteen indices", 2, 15),
        ("seventeen indices", 2, 17),
    ]:
        yield name, decode(0, 4, 2, (8,) * orders, (12,) * indices, 400)
    for a in range(1, 7):
        for b in range(a + 1, 8):
            yield f"{a} before {b}", meeting(a, b)


# Index 0 decoded, alone


def zeros_at(filter, order, places, filters=2, bandwidth=3):
    """7.5 ms. A filter of some order whose indices are 0 at some places; every
    other index is 8, whose coefficient is 0, and the other filter has order 0."""
    orders = [0, 0]
    orders[filter] = order
    indices = [8] * 16
    for place in places:
        indices[8 * filter + place] = 0
    stop = model.ROWS[1][bandwidth][-1][-1]
    return decode(1, bandwidth, filters, tuple(orders), tuple(indices), stop)


def index_0_cases():
    for filter, named, bandwidth in [(0, "first", 0), (1, "second", 3)]:
        for order in range(9):
            said = f"{named} filter of order {order}, index 0"
            for place in range(order):
                yield f"{said} at place {place}", zeros_at(filter, order, [place], 2, bandwidth)
            if order < 8:
                unused = range(order, 8)
                yield f"{said} from place {order} on", zeros_at(filter, order, unused, 2, bandwidth)
    every = range(8)
    yield "index 0 of a first filter that is not counted", zeros_at(0, 8, every, 0)
    yield "index 0 of a second filter that is not counted", zeros_at(1, 8, every, 1)
    yield "index 0 of a filter without a band", zeros_at(1, 8, every, 2, 0)


# Frames saved before a line n, mended from n on, and decoded again from there


def lent_output(count):
    """No line of it is one of a spectrum."""
    return patterns_of(-i - 1 for i in range(count))


def save(frame, at, count=None):
    """A decode call's frame saved before a line, with an output as long as the
    spectrum or of so many lines."""
    output = lent_output(len(frame.lines) if count is None else count)
    return dataclasses.replace(frame, call=SAVE, at=at, output=output, states=lists.LENT_STATES)


def restart(frame, at, states, count=None):
    """A frame decoded from a line on, from states before it."""
    of_save = save(frame, at, count)
    return dataclasses.replace(of_save, call=RESTART, states=patterns_of(states))


def states_before(frame, at):
    """The states that the model saves."""
    answer, _ = model.answered(None, save(frame, at))
    return tuple(model.floats_of(answer.states))


def mended(old, at, lines=True, filters=True):
    """A frame with other lines from a line on, and other filters where their band does
    not start below it."""
    bands = model.ROWS[old.duration][old.bandwidth]
    new = list(old.lines[:at]) + [pattern_of(1000 - i) for i in range(at, len(old.lines))]
    orders, indices = list(old.orders), list(old.indices)
    for f in range(2):
        if f >= len(bands) or bands[f][0] >= at:
            orders[f] = (orders[f] + 5) % 9
            indices[8 * f : 8 * f + 8] = [16 - index for index in indices[8 * f : 8 * f + 8]]
    return dataclasses.replace(
        old,
        lines=tuple(new) if lines else old.lines,
        orders=tuple(orders) if filters else old.orders,
        indices=tuple(indices) if filters else old.indices,
    )


# All indices but 2, each at one place; 0 and 16 among them.
INDICES = tuple((3 * place + 5) % 17 for place in range(16))

# Filter counts and orders, taken in turn.
FILTERS = [
    (2, (8, 8)),
    (2, (0, 8)),
    (1, (8, 8)),
    (2, (8, 0)),
    (2, (3, 5)),
    (0, (8, 8)),
    (2, (1, 2)),
]


def lines_of_row(bands):
    """The edges of a row's bands, and a line inside each band."""
    for band in bands:
        yield band[0]
        yield (band[0] + band[-1]) // 2
    yield bands[-1][-1]


def mended_rows():
    """Of every row, for each such line: the old frame, the new one, the line."""
    turn = 0
    for duration, rows in enumerate(model.ROWS):
        for bandwidth, bands in enumerate(rows):
            for at in lines_of_row(bands):
                filters, orders = FILTERS[turn % len(FILTERS)]
                turn += 1
                old = decode(duration, bandwidth, filters, orders, INDICES, bands[-1][-1])
                name = f"{NAMES[duration]} bandwidth {bandwidth}, line {at}"
                yield name, old, mended(old, at), at


def mended_at_second():
    """At the second band's start: what may change there, and what carries in. 7.5 ms,
    bandwidth 3, whose second band starts at line 120."""

    def frame(filters, *orders):
        return decode(1, 3, filters, orders, INDICES, 240)

    def other_second(old, order):
        """Another second filter, of some order, on the same lines."""
        new = mended(old, 120, lines=False)
        return dataclasses.replace(new, orders=(old.orders[0], order))

    old = frame(2, 8, 8)
    yield "other lines", old, mended(old, 120, filters=False), 120
    for order in [8, 1, 0]:
        yield f"the second filter of order {order}", old, other_second(old, order), 120
    old = frame(2, 8, 0)
    yield "the second filter no longer of order 0", old, other_second(old, 8), 120
    old = frame(1, 8, 8)
    yield "a second filter that is not counted", old, other_second(old, 3), 120


def mended_beyond():
    """With lines beyond the last stop, which is 60, and lines that are not numbers."""
    beyond = decode(1, 0, 2, (8, 8), INDICES, 70)
    yield "70 lines, line 34", beyond, mended(beyond, 34), 34
    longest = decode(1, 0, 1, (5, 0), INDICES, 300)
    yield "300 lines, line 60", longest, mended(longest, 60), 60
    for name, stray in [("a NaN", math.nan), ("an infinity", math.inf)]:
        lines = list(beyond.lines)
        lines[33] = lines[65] = pattern_of(stray)
        strange = dataclasses.replace(beyond, lines=tuple(lines))
        new = dataclasses.replace(mended(strange, 34), lines=strange.lines)
        yield f"{name} right below line 34 and beyond the last stop", strange, new, 34


def mended_frames():
    yield from mended_rows()
    for name, *frames in mended_at_second():
        yield f"the second band's start, {name}", *frames
    for name, *frames in mended_beyond():
        yield f"7.5 ms bandwidth 0, {name}", *frames


def filters_of(frame):
    return f"filters {frame.filters}, orders {frame.orders[0]} {frame.orders[1]}"


def mended_cases():
    """Each old frame saved, once for all that is made of it, and each new one decoded
    from the line on."""
    last = None
    for name, old, new, at in mended_frames():
        saved = save(old, at)
        if saved != last:
            yield f"{name}, {filters_of(old)}", saved
        yield f"{name}, {filters_of(new)}", restart(new, at, states_before(old, at))
        last = saved


def check_mended(tables):
    """Whether the model keeps the promise of a mended frame: a saved frame is the decoded one,
    and what is left from the line on is a fresh run of the new frame."""
    good = True
    for name, old, new, at in mended_frames():
        saved, _ = model.answered(tables, save(old, at))
        again, _ = model.answered(tables, restart(new, at, states_before(old, at)))
        of_old, of_new = [model.answered(tables, frame)[0].lines for frame in (old, new)]
        if saved.lines != of_old or again.lines[at:] != of_new[at:]:
            print(f"worked: {name}: the model breaks the promise of a restart")
            good = False
    return good


# Restarts from any states, and refused ones: 7.5 ms, bandwidth 0, whose band is 9 to 60


def small(filters=2, orders=(8, 8), indices=INDICES, count=60, duration=1, bandwidth=0):
    return decode(duration, bandwidth, filters, orders, indices, count)


def any_states_cases():
    zeros = (0.0,) * 8
    for name, states in [
        ("all 0", zeros),
        ("all -0", (-0.0,) * 8),
        ("NaN in the first", (math.nan,) + zeros[1:]),
        ("NaN in the last", zeros[:7] + (math.nan,)),
        ("both infinities", (-math.inf, math.inf) * 4),
        ("every kind", (math.nan, math.inf, -math.inf, 0.0, -0.0, 2**-149, -(2.0**127), 1.5)),
    ]:
        yield f"states: {name}", restart(small(), 34, states)
    last = zeros[:7] + (math.nan,)
    yield "states: NaN in one that order 7 does not use", restart(small(1, (7, 0)), 34, last)
    yield "states: NaN where no filter is counted", restart(small(0), 34, (math.nan,) * 8)
    yield "states: NaN at the last stop", restart(small(), 60, (math.nan,) * 8)
    silent = dataclasses.replace(small(), lines=(pattern_of(-0.0),) * 60)
    for name, zero in [("0", 0.0), ("-0", -0.0)]:
        yield f"states: all {name}, on lines of -0", restart(silent, 34, (zero,) * 8)


def refused_frames():
    """Frames, lines and lengths of the output of calls that are refused."""
    bad = (17,) + INDICES[1:]
    yield "duration 2", small(duration=2), 34, 60
    yield "bandwidth 5", small(bandwidth=5), 34, 60
    yield "59 lines", small(count=59), 34, 59
    yield "one order", small(orders=(8,)), 34, 60
    yield "filter count 3", small(3), 34, 60
    yield "order 9", small(orders=(8, 9)), 34, 60
    yield "index 17", small(indices=INDICES[:15] + (17,)), 34, 60
    yield "below the first start", small(), 8, 60
    yield "over the last stop", small(), 61, 60
    yield "line 2^64 - 1", small(), 2**64 - 1, 60
    yield "line 2^32 + 34", small(), 2**32 + 34, 60
    yield "an output one shorter", small(), 34, 59
    yield "an output one longer", small(), 34, 61
    yield "no output", small(), 34, 0
    yield "7 before 16", small(indices=bad), 61, 60
    yield "7 before 17", small(indices=bad), 34, 59
    yield "16 before 17", small(), 8, 61
    yield "7 before 16 and 17", small(indices=bad), 8, 59


def refused_cases():
    for name, frame, at, count in refused_frames():
        yield name, save(frame, at, count)
        yield name, restart(frame, at, (1.5,) * 8, count)


# Encode cases


def falling(count, first=1000.0, factor=0.95):
    """Each line is the one before it times a factor."""
    lines = [first]
    while len(lines) < count:
        lines.append(mul(lines[-1], f32(factor)))
    return lines[:count]


def encode_lines(duration, bandwidth, lines, bits=1000, flag=False):
    return Call(ENCODE, duration, bandwidth, int(flag), bits=bits, lines=patterns_of(lines))


def encode(duration, bandwidth, count, first=1000.0, factor=0.95, bits=1000, flag=False):
    return encode_lines(duration, bandwidth, falling(count, first, factor), bits, flag)


def silence(duration, bandwidth, count, bits=1000):
    return encode(duration, bandwidth, count, 0.0, 0.0, bits)


def encode_cases():
    yield from at_rows("silent lines {}", silence)
    yield "duration 2", encode(2, 0, 400)
    yield "duration 255", encode(255, 0, 300)
    yield "bandwidth 5", encode(0, 5, 400)
    yield "bandwidth 255", encode(1, 255, 300)
    yield "no line", encode(0, 0, 0)
    yield "399 lines", encode(0, 4, 399)
    yield "401 lines", encode(0, 4, 401)
    yield "299 lines at 7.5 ms", encode(1, 4, 299)
    yield "301 lines at 7.5 ms", encode(1, 4, 301)
    yield "1 before 2", encode(2, 5, 400)
    yield "1 before 3", encode(2, 4, 401)
    yield "2 before 3", encode(0, 5, 401)
    yield "1 before 2 and 3", encode(2, 5, 401)
    for bits in [0, 2**64 - 1]:
        yield f"10 ms, bit number {bits}", silence(0, 4, 400, bits)
    # By 0.9 the energies of the second band fall so low that their product
    # underflows: it is off.
    for factor in [0.95, 0.9]:
        for flag in [False, True]:
            name = f"falling by {factor}" + (", near Nyquist" if flag else "")
            yield name, encode(0, 4, 400, factor=factor, flag=flag)
    # E stops at line 200 here.
    yield "10 ms bandwidth 2, falling by 0.95", encode(0, 2, 400)


# Gains: 7.5 ms, where the weighting is 1 up to 359 bits. Each case states of both
# filters whether they are on and damped, or why they are off, and may state the
# first filter's gain.

ON, DAMPED = "on", "damped"
NO_BAND, NOT_A_NUMBER, LOW, FLAG = "no band", "not a number", "not over 1.5", "near Nyquist"


def one_band(factor, bits=359, flag=False, first=1000.0):
    """Bandwidth 0, falling lines: the larger the factor, the larger the gain."""
    return encode(1, 0, 60, first, factor, bits, flag)


def gains_at_limits():
    """The factors are found by halving, and then one by one."""
    for name, pattern, gain, stands in [
        ("the f32 below 1.5", 0x3F1417C3, 0x3FBFFFFF, (LOW, LOW, LOW)),
        ("exactly 1.5", 0x3F1417C4, 0x3FC00000, (LOW, LOW, LOW)),
        ("the f32 above 1.5", 0x3F1417C6, 0x3FC00001, (DAMPED, ON, FLAG)),
        ("the f32 below 2", 0x3F356032, 0x3FFFFFFF, (DAMPED, ON, FLAG)),
    ]:
        factor = float_of(pattern)
        for bits, flag, stand, said in [
            (359, False, stands[0], "weighting 1"),
            (360, False, stands[1], "weighting 0"),
            (359, True, stands[2], "weighting 1, near Nyquist"),
        ]:
            yield f"a gain of {name}, {said}", one_band(factor, bits, flag), (stand, NO_BAND), gain
    factor = float_of(0x3F356030)
    yield "a gain of exactly 2, weighting 1", one_band(factor, first=1.0), (ON, NO_BAND), 0x40000000
    yield "a gain between 1.5 and 2, weighting 1", one_band(0.65), (DAMPED, NO_BAND), None
    yield "a gain between 1.5 and 2, weighting 0", one_band(0.65, 360), (ON, NO_BAND), None


# Bandwidth 3, whose bands are 9 to 120 and 120 to 240, in three parts each. What a band
# may hold: lines that can be predicted well, lines that can be predicted a little, and one line in each part.
PARTS = [(37, 36, 38), (39, 41, 40)]


def much(f):
    return falling(sum(PARTS[f]))


def little(f):
    return falling(sum(PARTS[f]), factor=0.65)


def alone(f):
    return [line for part in PARTS[f] for line in [1.0] + [0.0] * (part - 1)]


def two_bands(first, second, changed=None, bits=359, flag=False):
    """Some lines may be changed, by their number."""
    lines = [1.0] * 9 + first(0) + second(1)
    for place, line in (changed or {}).items():
        lines[place] = line
    return encode_lines(1, 3, lines, bits, flag)


def gains_of_two_bands():
    for name, bands, stands in [
        ("much in both", (much, much), (ON, ON)),
        ("much, then little", (much, little), (ON, DAMPED)),
        ("little, then much", (little, much), (DAMPED, ON)),
        ("little in both", (little, little), (DAMPED, DAMPED)),
        ("much, then lone lines", (much, alone), (ON, LOW)),
        ("lone lines, then much", (alone, much), (LOW, ON)),
    ]:
        yield name, two_bands(*bands), stands, None
        off = tuple(LOW if stand == LOW else FLAG for stand in stands)
        yield f"{name}, near Nyquist", two_bands(*bands, flag=True), off, None
    name, bands = "little in both, weighting 0", (little, little)
    yield name, two_bands(*bands, bits=360), (ON, ON), None


def gains_of_strays():
    """Lines that are not finite, huge or subnormal, among lines that can be predicted well."""

    def lines(changed, **more):
        return two_bands(much, much, changed, **more)

    for name, line, stand in [
        ("NaN", math.nan, NOT_A_NUMBER),
        ("infinity", math.inf, NOT_A_NUMBER),
        ("-infinity", -math.inf, NOT_A_NUMBER),
        ("2^64", 2.0**64, NOT_A_NUMBER),
        ("the largest f32", float_of(0x7F7FFFFF), NOT_A_NUMBER),
        ("the f32 below 2^64", float_of(0x5F7FFFFF), DAMPED),
        ("the smallest f32", 2.0**-149, ON),
    ]:
        yield f"{name} in the first band", lines({60: line}), (stand, ON), None
        yield f"{name} in the second band", lines({180: line}), (ON, stand), None
    yield "NaN below the bands", lines({8: math.nan}), (ON, ON), None
    yield "NaN beyond the band", encode_lines(1, 0, falling(60) + [math.nan]), (ON, NO_BAND), None
    yield "NaN and near Nyquist", lines({60: math.nan}, flag=True), (NOT_A_NUMBER, FLAG), None
    every = {place: 2.0**-140 for place in range(9, 120, 5)}
    yield "a subnormal at every fifth line of the first band", lines(every), (ON, ON), None


def gains_of_sizes():
    """Whole bands of one size: the three energies, or their product, overflow or
    underflow."""
    for e, stand, gain in [
        (63, NOT_A_NUMBER, None),
        (50, ON, None),
        (-50, LOW, 0x3F800000),
        (-140, LOW, 0x3F800000),
    ]:
        lines = [f32(line * 2.0**e) for line in falling(60, 1.0, 0.98)]
        yield f"lines around 2^{e}", encode_lines(1, 0, lines, 359), (stand, NO_BAND), gain


def coarse(factor, step=1):
    """Bandwidth 0, whose parts have 17 lines each. In the first part lines whose energy
    is so coarse that the lag of a step is larger; in the two others falling lines. All
    lines but those of the steps are 0."""

    def spread(lines):
        return [lines[n // step] if n % step == 0 else 0.0 for n in range(17)]

    small = [1.5 * 2.0**-75 if n % 2 == 0 else 2.0**-75 for n in range(17)]
    large = falling(17, 1.0, factor)
    return encode_lines(1, 0, [0.0] * 9 + spread(small) + spread(large) * 2, 359)


def gain_cases():
    yield from gains_at_limits()
    yield from gains_of_two_bands()
    yield from gains_of_strays()
    yield from gains_of_sizes()
    yield "a negative gain", coarse(0.7), (LOW, NO_BAND), None
    zero = "an error of 0: the gain is lag 0"
    yield zero, coarse(float_of(0x3F1D3402)), (ON, NO_BAND), 0x40400000
    stands = (f"{ON}, order 0", NO_BAND)
    yield f"{zero}, coefficients over 1", coarse(float_of(0x3F36A62E), 2), stands, 0x40400000


def stand_of(call, answer, f):
    """Whether a filter is on and damped, or why it is off. A filter that is on may have
    order 0 all the same."""
    gain, damping = model.floats_of(answer.gains[2 * f : 2 * f + 2])
    if f >= len(model.ROWS[call.duration][call.bandwidth]):
        return NO_BAND
    if answer.on[f]:
        stand = DAMPED if damping < 1 else ON
        return stand if answer.side[2 + f] else f"{stand}, order 0"
    if math.isnan(gain):
        return NOT_A_NUMBER
    return FLAG if gain > 1.5 else LOW


def check_gains(tables):
    """Whether the model's gains are what their cases are there for."""
    good = True
    for name, call, stands, gain in gain_cases():
        answer, _ = model.answered(tables, call)
        found = tuple(stand_of(call, answer, f) for f in range(2))
        if found != stands or gain not in (None, answer.gains[0]):
            print(f"worked: {name}: the model has {found}, gain {answer.gains[0]:08x}")
            good = False
    return good


# Marked cases


def marked(weighting, *indices):
    """One filter whose order is the number of its indices."""
    listed = indices + (8,) * (16 - len(indices))
    return Call(COST, 0, 0, weighting, 1, (len(indices), 0), listed)


def marked_cases():
    """M1 to M14 of docs/RULES.md, "Marked cases", with the bits, weighting or index."""
    yield "M1, one filter of order 0", marked(0), 1
    yield "M2, weighting 0, order 1, index 9", marked(0, 9), 13
    yield "M3, weighting 1, order 1, index 0", marked(1, 0), 18
    yield "M4, weighting 0, order 2, indices 7 9", marked(0, 7, 9), 14
    yield "M5, weighting 1, order 8, all indices 0", marked(1, 0, 0, 0, 0, 0, 0, 0, 0), 84
    yield "M6, 10 ms, bit number 479", silence(0, 4, 400, 479), 1
    yield "M7, 10 ms, bit number 480", silence(0, 4, 400, 480), 0
    yield "M8, 7.5 ms, bit number 359", silence(1, 4, 300, 359), 1
    yield "M9, 7.5 ms, bit number 360", silence(1, 4, 300, 360), 0
    yield "M10, index of 1", index(1.0), 16
    yield "M11, index of -1", index(-1.0), 0
    yield "M12, index of NaN", index(math.nan), 8
    yield "M13, index of 1.5", index(1.5), 8
    yield "M14, no filter", cost(0, 0, (0, 0), 8), 0


def check_marked(tables):
    """Whether the model has the results stated there."""
    good = True
    for name, call, stated in marked_cases():
        answer, _ = model.answered(tables, call)
        result = answer.side[0] if call.call == ENCODE else answer.bits
        if answer.refusal or result != stated:
            print(f"worked: {name}: the model has {result}, docs/RULES.md {stated}")
            good = False
    return good


# All cases


def cases():
    for name, call, _ in marked_cases():
        yield name, call
    for some in [index_cases, cost_cases, decode_cases, index_0_cases, encode_cases]:
        yield from some()
    for some in [mended_cases, any_states_cases, refused_cases]:
        yield from some()
    for name, call, *_ in gain_cases():
        yield name, call


def said(call, answer):
    """An answer in words: the first and the last line that is another, too."""
    if answer.refusal:
        words = f"refused {answer.refusal}"
        if answer.refusal in (6, 7):
            words += f" at {answer.place}, found {answer.found}"
    elif call.call == INDEX:
        return f"index {answer.bits}, coefficient {model.float_of(answer.lines[0])!r}"
    elif call.call in (DECODE, SAVE, RESTART):
        words = {DECODE: "decoded", SAVE: "saved", RESTART: "restarted"}[call.call]
    else:
        words = f"{answer.bits} bits"
    if call.call == ENCODE and not answer.refusal:
        weighting, filters, first, second, *indices = answer.side
        nonzero = sum(pattern != 0 for pattern in answer.coefficients)
        words += f", weighting {weighting}, filters {filters}, orders {first} {second}"
        words += f", indices {' '.join(map(str, indices))}, coefficients {nonzero}"
        for f in range(2):
            gain, damping = model.floats_of(answer.gains[2 * f : 2 * f + 2])
            words += f", gain {gain:.9g}, damping {damping:.9g}, {stand_of(call, answer, f)}"
    if call.call == SAVE and not answer.refusal:
        words += f", states {' '.join(f'{x:.6g}' for x in model.floats_of(answer.states))}"
    if call.call == COST:
        return words
    before = call.output if lists.has_output(call) else call.lines
    changed = [i for i, pair in enumerate(zip(before, answer.lines)) if pair[0] != pair[1]]
    if not changed:
        return words + ", unchanged"
    return words + f", lines {changed[0]} to {changed[-1]} changed"


def main():
    arguments = model.parser("the rules' worked cases")
    work = arguments.add_mutually_exclusive_group(required=True)
    for word in ["print", "check"]:
        work.add_argument(f"--{word}", action="store_true")
    work.add_argument("--write", nargs="?", const=LIST, type=pathlib.Path, metavar="FILE")
    given = arguments.parse_args()
    tables = model.Tables(given.src)
    good = all([check_marked(tables), check_mended(tables), check_gains(tables)])
    written = b""
    count = 0
    for name, call in cases():
        answer, quantized = model.answered(tables, call)
        if any(map(model.doubtful, quantized)):
            print(f"worked: {name}: a coefficient lies at a threshold")
            good = False
        if given.print:
            print(f"{count} {lists.CALLS[call.call]}, {name}: {said(call, answer)}")
        written += lists.to_bytes(call, answer)
        count += 1
    if given.write and good:
        given.write.write_bytes(written)
    if given.check and LIST.read_bytes() != written:
        print(f"worked: {LIST.name} is not what the model gives")
        good = False
    if not given.print:
        print(f"worked: {count} cases, {len(written)} bytes: {'good' if good else 'NOT GOOD'}")
    sys.exit(0 if good else 1)


if __name__ == "__main__":
    main()
