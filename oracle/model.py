#!/usr/bin/env python3
"""A model of docs/RULES.md, to be read beside it: its rows, refusals, analysis, gains,
quantization, cost, lattices and restart at a line, one function for each rule. It is
written from the rules and shares nothing with the port or the harness.

    oracle/model.py [--src DIR] LIST..

works every record of the lists again and says how many agree. DIR is the folder
of the original sources, as for oracle/run: E's lag window and T's costs are read
from their text.

Each float operation is worked in double precision and then rounded to f32. For
+, -, * and / that is f32's own rounding. The sine and the arcsine are Python's,
rounded to f32; a C library's may differ from them in the last digit. So `doubtful`
says of a coefficient whether that digit could decide its index.

Assumes Python 3 with its standard library.
"""

import argparse
import dataclasses
import math
import pathlib
import re
import struct
import sys

import lists
from lists import Answer

SOURCES = pathlib.Path(__file__).resolve().parent / "../../shared/docs/src"


# Floats


def f32(x):
    """The f32 nearest to x."""
    try:
        return struct.unpack("<f", struct.pack("<f", x))[0]
    except OverflowError:
        return math.copysign(math.inf, x)


def add(x, y):
    return f32(x + y)


def sub(x, y):
    return f32(x - y)


def mul(x, y):
    return f32(x * y)


def div(x, y):
    if y != 0:
        return f32(x / y)
    if x == 0 or math.isnan(x):
        return math.nan
    return math.copysign(math.inf, math.copysign(1, x) * math.copysign(1, y))


def total(terms):
    """The sum in the order of the terms."""
    result = 0.0
    for term in terms:
        result = add(result, term)
    return result


def power(x, exponent):
    """x^exponent: from 1, times the running square wherever the exponent's bit is
    1, low bit first."""
    result = 1.0
    while exponent:
        if exponent & 1:
            result = mul(result, x)
        x = mul(x, x)
        exponent >>= 1
    return result


def float_of(pattern):
    return struct.unpack("<f", struct.pack("<I", pattern))[0]


def pattern_of(x):
    """The bit pattern of an f32; one stands for every NaN."""
    return lists.NAN if math.isnan(x) else struct.unpack("<I", struct.pack("<f", x))[0]


def floats_of(patterns):
    return list(map(float_of, patterns))


def patterns_of(floats):
    return tuple(map(pattern_of, floats))


# Band rows: for each duration and bandwidth the bands, each as its start, its two
# cuts and its stop.

ROWS = [
    [
        [(12, 34, 57, 80)],
        [(12, 61, 110, 160)],
        [(12, 88, 164, 240)],
        [(12, 61, 110, 160), (160, 213, 266, 320)],
        [(12, 74, 137, 200), (200, 266, 333, 400)],
    ],
    [
        [(9, 26, 43, 60)],
        [(9, 46, 83, 120)],
        [(9, 66, 123, 180)],
        [(9, 46, 82, 120), (120, 159, 200, 240)],
        [(9, 56, 103, 150), (150, 200, 250, 300)],
    ],
]
LONGEST = [400, 300]
WEIGHTING_LIMIT = [480, 360]


# Refusals: each rule gives an answer, or None where nothing is refused.


def refuse_spectrum(call):
    """Refusals 1, 2 and 3."""
    if call.duration > 1:
        return Answer(1)
    if call.bandwidth > 4:
        return Answer(2)
    last_stop = ROWS[call.duration][call.bandwidth][-1][-1]
    if not last_stop <= len(call.lines) <= LONGEST[call.duration]:
        return Answer(3)
    return None


def refuse_side_data(call):
    """Refusals 4 to 7, with the lowest bad place of 6 and 7."""
    if len(call.orders) != 2 or len(call.indices) != 16:
        return Answer(4)
    if call.filters > 2:
        return Answer(5)
    for refusal, numbers, most in [(6, call.orders, 8), (7, call.indices, 16)]:
        for place, number in enumerate(numbers):
            if number > most:
                return Answer(refusal, place, number)
    return None


def refuse_weighting(call):
    """Refusal 8."""
    return Answer(8) if call.choice > 1 else None


def refuse_restart(call):
    """Refusals 16 and 17, of a call that has a row."""
    bands = ROWS[call.duration][call.bandwidth]
    if not bands[0][0] <= call.at <= bands[-1][-1]:
        return Answer(16)
    return Answer(17) if len(call.output) != len(call.lines) else None


# E's and T's numbers


def numbers_after(text, name):
    """The numbers of the array that a name is given in a Rust text, row by row."""
    found = re.search(re.escape(name) + r"[^=]*=\s*\[(.*?)\];", text, re.DOTALL)
    if found is None:
        sys.exit(f"model: no {name} in the sources")
    rows = [re.findall(r"\d+(?:\.\d+)?", row) for row in found[1].split("]")]
    return [row for row in rows if row]


def source_text(folder, name):
    path = pathlib.Path(folder) / "src" / name
    try:
        return path.read_text(encoding="utf-8")
    except OSError:
        sys.exit(f"model: cannot read {path} (give the folder with --src DIR)")


class Tables:
    """The lag window of E and the costs of T, from their text."""

    def __init__(self, source):
        e = source_text(source, "encoder/temporal_noise_shaping.rs")
        t = source_text(source, "tables/temporal_noise_shaping_tables.rs")
        [window] = numbers_after(e, "let lag_window")
        self.lag_window = [f32(float(number)) for number in window]
        self.order_bits = [[int(n) for n in row] for row in numbers_after(t, "AC_TNS_ORDER_BITS")]
        self.index_bits = [[int(n) for n in row] for row in numbers_after(t, "AC_TNS_COEF_BITS")]
        sizes = [len(self.lag_window), *map(len, self.order_bits), *map(len, self.index_bits)]
        if sizes != [9] + [8] * 2 + [17] * 8:
            sys.exit("model: the sources' tables have another size")


# Analysis of one filter


def lags(tables, band, lines):
    """The nine windowed lags."""
    subbands = [lines[start:stop] for start, stop in zip(band, band[1:])]
    energies = [total(mul(x, x) for x in subband) for subband in subbands]
    silent = mul(mul(energies[0], energies[1]), energies[2]) == 0
    result = []
    for k in range(9):
        if silent:
            lag = 3.0 if k == 0 else 0.0
        else:
            products = [total(mul(x, y) for x, y in zip(s, s[k:])) for s in subbands]
            lag = total(div(ac, es) for ac, es in zip(products, energies))
        result.append(mul(lag, tables.lag_window[k]))
    return result


def recursion(r):
    """The recursion to order 8: the last row of coefficients, and the error."""
    error = r[0]
    row = [1.0]
    for k in range(1, 9):
        c = 0.0
        for n in range(k):
            c = sub(c, mul(row[n], r[k - n]))
        if error != 0:
            c = div(c, error)
        row = [1.0] + [add(row[n], mul(c, row[k - n])) for n in range(1, k)] + [c]
        error = mul(error, sub(1.0, mul(c, c)))
    return row, error


def gain_of(r0, error):
    """The prediction gain. An error of 0 is not divided by."""
    return r0 if error == 0 else div(r0, error)


def is_on(gain, near_nyquist):
    """A gain that is not a number is not over 1.5."""
    return gain > 1.5 and not near_nyquist


def damping_of(gain, on, weighting):
    if on and weighting == 1 and gain < 2:
        return sub(1.0, div(mul(sub(1.0, f32(0.85)), sub(2.0, gain)), 0.5))
    return 1.0


@dataclasses.dataclass
class FilterGain:
    """The record of a filter."""

    gain: float
    damping: float
    on: bool


# The record of a filter whose band the row does not have.
ABSENT = FilterGain(gain=0.0, damping=1.0, on=False)


def gain_record(r0, error, near_nyquist, weighting):
    gain = gain_of(r0, error)
    on = is_on(gain, near_nyquist)
    return FilterGain(gain, damping_of(gain, on, weighting), on)


def step_down(row):
    """The reflection coefficients of a row of coefficients."""
    result = [0.0] * 8
    for k in range(8, 0, -1):
        c = row[k]
        result[k - 1] = c
        e = sub(1.0, mul(c, c))
        row = [1.0] + [div(sub(row[n], mul(c, row[k - n])), e) for n in range(1, k)]
    return result


def analysed(tables, band, lines, weighting, near_nyquist):
    """The record of a filter, and its eight reflection coefficients before
    quantization."""
    r = lags(tables, band, lines)
    row, error = recursion(r)
    record = gain_record(r[0], error, near_nyquist, weighting)
    if not record.on:
        return record, [0.0] * 8
    return record, step_down([mul(a, power(record.damping, k)) for k, a in enumerate(row)])


# Index and coefficient

STEP = 12401689 / 2**26


def steps(x):
    """How many steps an x in 0..1 makes, as a fraction: the index is 8 plus the
    nearest whole number."""
    return div(f32(math.asin(x)), STEP)


def index_of(x, across=False):
    """The index; exactly 1 and -1 have the last and the first. `across` takes a
    doubtful x to the other side of its threshold."""
    if math.isnan(x) or abs(x) > 1:
        return 8
    size = min(8, int(add(steps(abs(x)), 0.5)))
    if across and doubtful(x):
        size = 2 * int(steps(abs(x))) + 1 - size
    return 8 + size if x >= 0 else 8 - size


def doubtful(x):
    """Whether the last digits of the arcsine could decide the index of x: whether
    it lies within a few units in the last place of 8.0 of a threshold, in steps."""
    if math.isnan(x) or not abs(x) < 1:
        return False
    return abs(steps(abs(x)) % 1 - 0.5) < 2**-18


def coefficient_of(index):
    return f32(math.sin(mul(STEP, index - 8)))


def order_of(indices):
    """The last place whose index is not 8, counted from 1, or 0."""
    return max((k + 1 for k, index in enumerate(indices) if index != 8), default=0)


# Cost


def filter_cost(tables, weighting, indices):
    """The cost of one filter, whose order is the number of its indices, in 2048ths of a bit."""
    order = len(indices)
    if order == 0:
        return 0
    return tables.order_bits[weighting][order - 1] + sum(tables.index_bits[k][index] for k, index in enumerate(indices))


def whole_bits(cost):
    """One bit, and a cost rounded up to whole bits."""
    return 1 + -(-cost // 2048)


def used(orders, indices, f):
    """The indices of filter f below its order."""
    return indices[8 * f : 8 * f + orders[f]]


def cost_of(tables, weighting, filters, orders, indices):
    return sum(whole_bits(filter_cost(tables, weighting, used(orders, indices, f))) for f in range(filters))


# Lattices: each filters one line with the coefficients of a filter, at least one,
# and the state of eight numbers.


def encode_line(coefficients, state, t):
    *stages, last = coefficients
    b = t
    for k, q in enumerate(stages):
        old = state[k]
        state[k] = b
        b = add(mul(q, t), old)
        t = add(t, mul(q, old))
    t = add(t, mul(last, state[len(stages)]))
    state[len(stages)] = b
    return t


def decode_line(coefficients, state, t):
    *stages, last = coefficients
    t = sub(t, mul(last, state[len(stages)]))
    for k, q in reversed(list(enumerate(stages))):
        t = sub(t, mul(q, state[k]))
        state[k + 1] = add(mul(q, t), state[k])
    state[0] = t
    return t


def filter_part(lattice, filters, lines, first, stop, state):
    """Filters the lines from the first to the stop, in place: filters in turn, each
    on what its band has of them, with the state carried. A filter is its
    coefficients, as many as its order, and its band."""
    for coefficients, band in filters:
        if coefficients:
            for place in range(max(first, band[0]), min(stop, band[-1])):
                lines[place] = lattice(coefficients, state, lines[place])


def filter_whole(lattice, filters, lines):
    filter_part(lattice, filters, lines, 0, len(lines), [0.0] * 8)


# The calls


def index_call(tables, call, across):
    """The index rule as a call: one line, which becomes its coefficient."""
    [x] = map(float_of, call.lines)
    index = index_of(x, across)
    return Answer(bits=index, lines=(pattern_of(coefficient_of(index)),)), [x]


def cost_call(tables, call, across):
    answer = refuse_side_data(call) or refuse_weighting(call)
    if answer is None:
        answer = Answer(bits=cost_of(tables, call.choice, call.filters, call.orders, call.indices))
    answer.lines = left_alone(call.lines)
    return answer, []


def decode_call(tables, call, across):
    answer = refuse_spectrum(call) or refuse_side_data(call)
    if answer is not None:
        answer.lines = left_alone(call.lines)
        return answer, []
    lines = floats_of(call.lines)
    filter_whole(decode_line, decoder_filters(call), lines)
    return Answer(lines=patterns_of(lines)), []


def save_call(tables, call, across):
    """The whole frame into the output, in two parts; the states are those between
    them."""
    answer = refuse_output_call(call)
    if answer is not None:
        return answer, []
    filters, lines, state = decoder_filters(call), floats_of(call.lines), [0.0] * 8
    filter_part(decode_line, filters, lines, 0, call.at, state)
    states = patterns_of(state)
    filter_part(decode_line, filters, lines, call.at, len(lines), state)
    return Answer(states=states, lines=patterns_of(lines)), []


def restart_call(tables, call, across):
    """The second part alone, from the states that are lent. Below it the output stays
    as it was."""
    answer = refuse_output_call(call)
    if answer is not None:
        return answer, []
    filters, lines, state = decoder_filters(call), floats_of(call.lines), floats_of(call.states)
    filter_part(decode_line, filters, lines, call.at, len(lines), state)
    output = left_alone(call.output[: call.at]) + patterns_of(lines[call.at :])
    return Answer(states=left_alone(call.states), lines=output), []


def refuse_output_call(call):
    """The answer of a save or a restart that is refused, which writes nothing."""
    answer = refuse_spectrum(call) or refuse_side_data(call) or refuse_restart(call)
    if answer is not None:
        answer.states, answer.lines = left_alone(call.states), left_alone(call.output)
    return answer


def decoder_filters(call):
    """The filters of a decoder's call. Index 0 is a coefficient like any other
    (docs/RULES.md, "Index 0 (C-14)").
    Filters without a band do not act."""
    return [
        ([coefficient_of(i) for i in used(call.orders, call.indices, f)], band)
        for f, band in enumerate(ROWS[call.duration][call.bandwidth][: call.filters])
    ]


def encode_call(tables, call, across):
    answer = refuse_spectrum(call)
    if answer is not None:
        answer.side = lists.LENT_SIDE
        answer.coefficients = lists.LENT_COEFFICIENTS
        answer.gains, answer.on = lists.LENT_GAINS, lists.LENT_ON
        answer.lines = left_alone(call.lines)
        return answer, []
    lines = floats_of(call.lines)
    bands = ROWS[call.duration][call.bandwidth]
    weighting = 1 if call.bits < WEIGHTING_LIMIT[call.duration] else 0
    found = [analysed(tables, band, lines, weighting, call.choice != 0) for band in bands]
    found += [(ABSENT, [0.0] * 8)] * (2 - len(bands))
    gains = [record for record, _ in found]
    unquantized = [x for _, eight in found for x in eight]
    indices = [index_of(x, across) for x in unquantized]
    coefficients = [coefficient_of(index) for index in indices]
    orders = [order_of(indices[:8]), order_of(indices[8:])]
    filters = [(used(orders, coefficients, f), band) for f, band in enumerate(bands)]
    filter_whole(encode_line, filters, lines)
    answer = Answer(
        bits=cost_of(tables, weighting, len(bands), orders, indices),
        side=bytes([weighting, len(bands), *orders, *indices]),
        coefficients=patterns_of(coefficients),
        gains=patterns_of(x for record in gains for x in (record.gain, record.damping)),
        on=bytes(int(record.on) for record in gains),
        lines=patterns_of(lines),
    )
    return answer, unquantized


def left_alone(patterns):
    """Lines or states as they came, but for the bits of a NaN."""
    return patterns_of(floats_of(patterns))


def answered(tables, call, across=False):
    """The rules' answer to a call, and the f32s that it gave an index to."""
    rules = [index_call, cost_call, decode_call, encode_call, save_call, restart_call]
    return rules[call.call](tables, call, across)


def work_again(tables, path):
    """Whether every record of a list agrees. One with a doubtful coefficient may
    agree with it on the other side of its threshold instead; it is shown."""
    count = agree = across = 0
    for number, (call, expected) in enumerate(lists.records(path.read_bytes())):
        count += 1
        found, quantized = answered(tables, call)
        if found == expected:
            agree += 1
            continue
        doubts = ", ".join(f"{pattern_of(x):08x}" for x in quantized if doubtful(x))
        other = doubts != "" and answered(tables, call, True)[0] == expected
        across += other
        how = f"agrees with {doubts} across its threshold" if other else "differs"
        print(f"model: {path.name}: record {number}, {lists.CALLS[call.call]}: {how}")
    print(f"model: {path.name}: {count} records, {agree} agree, {across} more across a threshold")
    return count > 0 and agree + across == count


def parser(description):
    result = argparse.ArgumentParser(description=description)
    result.add_argument("--src", default=SOURCES, help="the folder of the original sources")
    return result


def main():
    arguments = parser("works the records of lists again")
    arguments.add_argument("lists", nargs="+", type=pathlib.Path, help="lists to work again")
    given = arguments.parse_args()
    tables = Tables(given.src)
    good = [work_again(tables, path) for path in given.lists]
    sys.exit(0 if all(good) else 1)


if __name__ == "__main__":
    main()
