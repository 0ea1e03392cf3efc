"""The form of the replayed lists (README.md, "The lists"): records read from bytes
and put into bytes. A line, a coefficient or a gain is the bit pattern of its f32,
and one pattern stands for every NaN of an answer.

Assumes Python 3 with its standard library.
"""

import dataclasses
import pathlib
import struct

FOLDER = pathlib.Path(__file__).resolve().parent.parent / "crates/prog_replay/data"

INDEX, COST, DECODE, ENCODE, SAVE, RESTART = range(6)
CALLS = ["index", "cost", "decode", "encode", "save", "restart"]

# The call, duration, bandwidth, choice, filter count, the numbers of orders and
# of indices; then the number of lines.
HEAD = "7BI"

# What an encode call is lent for its side data, its coefficients, gain and damping
# of its two filters, and whether they are on: a refusal must leave it.
LENT_SIDE = bytes([0xA5] * 20)
LENT_COEFFICIENTS = (0xA5A5A5A5,) * 16
LENT_GAINS = (0xA5A5A5A5,) * 4
LENT_ON = bytes([0xA5] * 2)

# What a save call is lent for its states, likewise.
LENT_STATES = (0xA5A5A5A5,) * 8

NAN = 0x7FC00000


@dataclasses.dataclass
class Call:
    """What is asked. `choice` is the cost's weighting, or the encoder's
    near-Nyquist flag. The lines of a save or a restart are the spectrum, `at` is
    the line n, and the output and the states are what is lent. What a call does not
    take is 0 or empty."""

    call: int
    duration: int = 0
    bandwidth: int = 0
    choice: int = 0
    filters: int = 0
    orders: tuple = ()
    indices: tuple = ()
    bits: int = 0
    lines: tuple = ()
    at: int = 0
    output: tuple = ()
    states: tuple = ()


@dataclasses.dataclass
class Answer:
    """What is answered, and what is left of all that was lent. Side data,
    coefficients and gains are the encoder's alone: gain and damping of the first
    filter, then of the second, and in `on` a byte for each that is 1 if it is on. A
    save and a restart leave states, and their output in the place of the lines."""

    refusal: int = 0
    place: int = 0
    found: int = 0
    bits: int = 0
    side: bytes = b""
    coefficients: tuple = ()
    gains: tuple = ()
    on: bytes = b""
    states: tuple = ()
    lines: tuple = ()


def has_output(call):
    """Whether a call reads its lines and writes an output."""
    return call.call in (SAVE, RESTART)


def taken(call):
    """What a call takes besides its head and its lines."""
    if call.call == ENCODE:
        return struct.pack("<Q", call.bits)
    if call.call == INDEX:
        return b""
    side = struct.pack("<3s17s", bytes(call.orders), bytes(call.indices))
    if not has_output(call):
        return side
    m = len(call.output)
    return side + struct.pack("<QI", call.at, m) + words(call.output) + words(call.states)


def words(numbers):
    return struct.pack(f"<{len(numbers)}I", *numbers)


def to_bytes(call, answer):
    """One record."""
    orders, indices, n = len(call.orders), len(call.indices), len(call.lines)
    written = call.output if has_output(call) else call.lines
    assert orders <= 3 and indices <= 17 and max(n, len(written)) <= 401
    assert len(answer.lines) == len(written) and len(answer.states) == len(call.states)
    numbers = (call.call, call.duration, call.bandwidth, call.choice, call.filters)
    return b"".join(
        [
            struct.pack("<" + HEAD, *numbers, orders, indices, n),
            words(call.lines),
            taken(call),
            words((answer.refusal, answer.place, answer.found, answer.bits)),
            words(answer.side),
            words(answer.coefficients),
            words(answer.gains),
            words(answer.on),
            words(answer.states),
            words(answer.lines),
        ]
    )


def records(data):
    """The records of a list: pairs of a call and its answer."""
    at = 0

    def take(form):
        nonlocal at
        values = struct.unpack_from("<" + form, data, at)
        at += struct.calcsize("<" + form)
        return values

    while at < len(data):
        *numbers, order_count, index_count, n = take(HEAD)
        call = Call(*numbers, lines=take(f"{n}I"))
        if call.call == ENCODE:
            [call.bits] = take("Q")
        elif call.call != INDEX:
            call.orders = take("3B")[:order_count]
            call.indices = take("17B")[:index_count]
        if has_output(call):
            call.at, n = take("QI")
            call.output = take(f"{n}I")
            call.states = take("8I")
        answer = Answer(*take("4I"))
        if call.call == ENCODE:
            answer.side = bytes(take("20I"))
            answer.coefficients = take("16I")
            answer.gains = take("4I")
            answer.on = bytes(take("2I"))
        if has_output(call):
            answer.states = take("8I")
        answer.lines = take(f"{n}I")
        yield call, answer
