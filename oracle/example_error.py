#!/usr/bin/env python3
"""The encoder's lattice worked by hand, as it were: the f32 lattice and the exact
lattice (docs/RULES.md, "The exact lattice"), in whole numbers alone. It shares
nothing with the port or the harness, and rounds each f32 operation by itself.

    oracle/example_error.py          works the example that the checker works
    oracle/example_error.py FILE     works the harness's cases again and compares

The example is one call of the list crates/prog_replay/data/encode, where the Rust's
side data and filtered lines stand beside the entering lines. Its numbers must be
those of crates/examples/specs/Worked.antt, the list's gains among them.

Assumes finite lines that stay finite, coefficients that are whole numbers of
2^-26, and Python 3 with its standard library.
"""

import pathlib
import re
import sys

import lists

ROOT = pathlib.Path(__file__).resolve().parent.parent
LIST = lists.FOLDER / "encode"
WORKED = ROOT / "crates/examples/specs/Worked.antt"

# The call: its duration, bandwidth and bits, its bands, and the lines that are
# shown of each: at the seam, and at the end.
CALL = (1, 3, 2953)
BANDS = [(9, 120), (120, 240)]
SHOWN = [range(117, 123), range(237, 240)]

SIGN = 1 << 31


def units(pattern):
    """A finite f32 as a whole number of 2^-149."""
    exponent, fraction = pattern >> 23 & 0xFF, pattern & 0x7FFFFF
    if exponent == 255:
        sys.exit("example: a number is not finite")
    size = fraction if exponent == 0 else (fraction | 0x800000) << (exponent - 1)
    return -size if pattern & SIGN else size


def rounded(number, more, sign_of_zero):
    """The f32 nearest to a whole number of 2^-(149 + more), ties to even, as a
    pattern. The sign is of use only where the result is 0."""
    size = abs(number)
    sign = SIGN if number < 0 else (sign_of_zero if number == 0 else 0)
    # The unit in the last place: 24 bits remain, but never less than 2^-149.
    place = max(size.bit_length() - 24, more)
    kept, rest = size >> place, size & ((1 << place) - 1)
    half = 1 << place >> 1
    if place > 0 and (rest > half or (rest == half and kept & 1)):
        kept += 1
    # kept counts units of 2^(place - more - 149); a carry to 2^24 is still right,
    # because the pattern's fraction then overflows into its exponent.
    up = place - more
    if kept < 0x800000:
        return sign | kept
    pattern = ((up + 1) << 23) + (kept - 0x800000)
    if pattern >= 0x7F800000:
        sys.exit("example: a result is not finite")
    return sign | pattern


def product(a, b):
    return rounded(units(a) * units(b), 149, (a ^ b) & SIGN)


def total(a, b):
    return rounded(units(a) + units(b), 0, a & b & SIGN)


def lattice(filters, enter, plus):
    """The lattice over all filters: what it gives for each line, with the order of
    the line's filter. `plus(a, q, x)` is a + q x."""
    state = [0] * 8
    for coefficients, lines in filters:
        for line in lines:
            t = b = enter(line)
            for k, q in enumerate(coefficients):
                old = state[k]
                state[k] = b
                b, t = plus(old, q, t), plus(t, q, old)
            yield t, len(coefficients)


def floats(filters):
    """The f32 lattice: the filtered lines' patterns."""
    plus = lambda a, q, x: total(a, product(q, x))
    return [t for t, _ in lattice(filters, int, plus)]


def exacts(filters):
    """The exact lattice: the lines as whole numbers of 2^-357. A number that
    came through k stages is a whole number of 2^-(149 + 26 k), and is kept so."""

    def plus(a, q, x):
        q, rest = divmod(units(q), 1 << 123)
        if rest:
            sys.exit("example: a coefficient is no whole number of 2^-26")
        return (a << 26) + q * x

    return [t << 26 * (8 - order) for t, order in lattice(filters, units, plus)]


def least_m(lines):
    """The least whole m, not below -126, with all lines at most 2^m in size."""
    largest = max(abs(units(line)) for line in lines)
    m = -126
    while largest > 1 << (m + 149):
        m += 1
    return m


def decimal(number, below, places):
    """number / below to some places, cut off."""
    digits = abs(number) * 10**places // below
    sign = "-" if number < 0 else ""
    return f"{sign}{digits // 10**places}.{digits % 10**places:0{places}d}"


def whole(number):
    """A whole number as the definitions write it."""
    return f"pos {number}" if number >= 0 else f"negsuc {-number - 1}"


def example():
    """Returns whether the f32 lines are the Rust's and Worked.antt has these
    numbers."""
    found = [
        (call.lines, answer)
        for call, answer in lists.records(LIST.read_bytes())
        if (call.duration, call.bandwidth, call.bits) == CALL
    ]
    if len(found) != 1:
        sys.exit(f"example: {len(found)} such calls in the list")
    [(before, answer)] = found
    side, coefficients, after = answer.side, answer.coefficients, answer.lines
    filters = [
        (coefficients[8 * f : 8 * f + side[2 + f]], before[start:stop])
        for f, (start, stop) in enumerate(BANDS)
    ]
    first, last = BANDS[0][0], BANDS[-1][1]
    m = least_m(before[first:last])
    bound = 1 << (m - 13 + 357)
    filtered, exact = floats(filters), exacts(filters)
    away = [(units(f) << 208) - e for f, e in zip(filtered, exact)]
    print(f"example: orders {side[2]} and {side[3]}, m {m}, lines {first} to {last - 1}")
    for place in (place for part in SHOWN for place in part):
        name = f"example: line {place}:"
        print(f"{name} filtered 0x{filtered[place - first]:08x}")
        print(f"{name} exact {exact[place - first]} of 2^-357")
        print(f"{name} apart by {decimal(away[place - first], bound, 9)} of 2^{m - 13}")
    differ = sum(number != 0 for number in away)
    largest = decimal(max(map(abs, away)), bound, 9)
    print(f"example: {differ} of {last - first} lines differ, by at most {largest} of 2^{m - 13}")
    wrong = sum(f != a for f, a in zip(filtered, after[first:last]))
    print(f"example: {wrong} lines are not the Rust's")
    text = WORKED.read_text(encoding="utf-8")
    shown = [place - first for part in SHOWN for place in part]
    wanted = [f"0x{p:08x}" for p in (*before, *coefficients, *(filtered[n] for n in shown))]
    wanted += [whole(exact[n]) for n in shown] + [str(abs(away[n])) for n in shown]
    wanted += [f"0x{p:08x}" for p in answer.gains]
    same = wanted == re.findall(r"0x[0-9a-f]{8}|(?:pos |negsuc |)\d{20,}", text)
    print(f"example: {WORKED.name} has these numbers: {'yes' if same else 'no'}")
    return wrong == 0 and same


def compare(path):
    """The harness's cases, worked again. Returns whether all agree."""
    cases = lines = differ = 0
    for text in pathlib.Path(path).read_text(encoding="ascii").splitlines():
        words = text.split()
        orders = [int(word) for word in words[:2]]
        q = [int(word, 16) for word in words[2:18]]
        lengths = [int(word) for word in words[18:20]]
        n = sum(lengths)
        before = [int(word, 16) for word in words[20 : 20 + n]]
        after = [int(word, 16) for word in words[20 + n : 20 + 2 * n]]
        exact = [int(word, 16) for word in words[20 + 2 * n :]]
        filters = [
            (q[: orders[0]], before[: lengths[0]]),
            (q[8 : 8 + orders[1]], before[lengths[0] :]),
        ]
        cases += 1
        lines += n
        differ += floats(filters) != after or exacts(filters) != exact
    print(
        f"error: the harness's f32 lattice and exact lattice worked again by "
        f"example_error.py: {cases} cases, {lines} lines, {differ} cases differ"
    )
    return cases > 0 and differ == 0


if __name__ == "__main__":
    if len(sys.argv) == 2:
        sys.exit(0 if compare(sys.argv[1]) else 1)
    if len(sys.argv) != 1:
        sys.exit("usage: example_error.py [FILE]")
    sys.exit(0 if example() else 1)
