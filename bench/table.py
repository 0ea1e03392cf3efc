#!/usr/bin/env python3
"""The table of bench/RESULTS.txt, from what bench/run measured.

    table.py FOLDER

FOLDER holds `times`, the output of `oracle/run speed`, and `counts/part.N`, one
file of callgrind's for each label of the harness's word `counts`. Assumes the
fields that oracle/src/words/speed/mod.rs states. Python 3's standard library alone.
"""

import pathlib
import platform
import statistics
import sys

# Whose calls are measured, in the order of the harness's fields.
WHOSE = ("port", "guarded", "crate", "Rust", "liblc3")
COMPARED = ("port", "Rust", "liblc3")
OWN = ("port", "guarded", "crate")
# Which calls of the port are measured for restart, likewise.
PARTS = ("decode", "restart", "copy", "save")

ROWS = [(duration, bandwidth) for duration in "01" for bandwidth in "01234"]
DURATIONS = {"0": "10 ms", "1": "7.5 ms"}

# What is asked: the ratio to the Rust's time and to liblc3's, required, and wanted if there is such.
ENCODE = {"Rust": (2.0, 2.5), "liblc3": (1.5, 2.0)}
DECODE = {"Rust": (0.95, None), "liblc3": (1.0, None)}
# What is asked of restart and of save: at most this part of another call.
RESTART = {("restart", "decode"): 0.6, ("save", "copy"): 1.1}


def calls_of(name):
    """The calls that are measured under a name."""
    return PARTS if name[0] == "restart" else WHOSE


def read_times(folder):
    """What was said of the run, and for each measurement what was met and whose time is which."""
    head, times = [], {}
    for line in (folder / "times").read_text().splitlines():
        fields = line.split("\t")
        if len(fields) == 5 + len(calls_of(fields)):
            of = dict(zip(calls_of(fields), map(float, fields[5:])))
            times[tuple(fields[:4])] = (fields[4], of)
        else:
            head.append(line)
    return head, times


def read_counts(folder):
    """Instructions a call for each measurement, and whose they are."""
    found = {}
    for part in (folder / "counts").glob("part.*"):
        label, total = None, None
        for line in part.read_text().splitlines():
            if line.startswith("desc: Trigger: Client Request: "):
                label = line.split(": ", 3)[3].split("\t")
            elif line.startswith("totals: "):
                total = int(line.split()[1])
        if label is not None:
            *name, whose, calls = label
            found[tuple(name), whose] = total / int(calls)
    names = {name for name, _ in found}
    return {n: {w: found[n, w] - found[n, "nothing"] for w in calls_of(n)} for n in names}


def processor():
    try:
        for line in open("/proc/cpuinfo", encoding="ascii", errors="replace"):
            if line.startswith("model name"):
                return line.split(":", 1)[1].strip()
    except OSError:
        pass
    return platform.machine()


def row_name(duration, bandwidth):
    return f"{DURATIONS[duration]} bandwidth {bandwidth}"


def ratios(times):
    return {other: times[other] / times["port"] for other in ("Rust", "liblc3")}


def print_rows(names, times, counts):
    print(
        f"{'row':<20}{'what':<9}{'orders':<17}{'port':>8}{'Rust':>8}{'liblc3':>8}"
        f"{'Rust/port':>11}{'liblc3/port':>13}{'port':>10}{'Rust':>8}{'liblc3':>8}"
    )
    for name in names:
        met, of = times[name]
        _, duration, bandwidth, what = name
        r = ratios(of)
        cells = "".join(f"{of[w]:>8.1f}" for w in COMPARED)
        instructions = "".join(
            f"{round(counts[name][w]):>{width}}" for w, width in zip(COMPARED, (10, 8, 8))
        )
        print(
            f"{row_name(duration, bandwidth):<20}{what:<9}{met:<17}{cells}"
            f"{r['Rust']:>11.2f}{r['liblc3']:>13.2f}{instructions}"
        )
    print()


def print_own(names, times, counts):
    """The port called in three ways, and what two of them take over the first."""
    print(
        f"{'row':<20}{'what':<9}{'port':>8}{'guarded':>9}{'crate':>8}{'guard':>9}{'ratio':>7}"
        f"{'crate':>9}{'ratio':>7}{'port':>10}{'guarded':>9}{'crate':>8}"
    )
    for name in names:
        of = times[name][1]
        _, duration, bandwidth, what = name
        cells = "".join(f"{of[w]:>{width}.1f}" for w, width in zip(OWN, (8, 9, 8)))
        over = "".join(
            f"{of[w] - of['port']:>+9.1f}{of[w] / of['port']:>7.3f}" for w in ("guarded", "crate")
        )
        instructions = "".join(
            f"{round(counts[name][w]):>{width}}" for w, width in zip(OWN, (10, 9, 8))
        )
        print(f"{row_name(duration, bandwidth):<20}{what:<9}{cells}{over}{instructions}")
    print()


def print_guard(title, names, times, counts):
    """What the guard takes: the middle and the most in ns, and the most instructions."""
    over = {n: times[n][1]["guarded"] - times[n][1]["port"] for n in names}
    most = max(over, key=over.get)
    whole = times[most][1]["port"]
    instructions = max(round(counts[n]["guarded"] - counts[n]["port"]) for n in names)
    where = f"{row_name(*most[1:3])} {most[3]}"
    print(
        f"{title}, the guard: median {statistics.median(over.values()):+.1f} ns, "
        f"largest {over[most]:+.1f} ns on {whole:.1f} ({where}); {instructions} instructions"
    )


def print_restart(names, times, counts):
    """A restart beside a whole decode, and a save beside a copy that is decoded."""
    print(
        f"{'row':<20}{'line':<9}{'decode':>8}{'restart':>9}{'part':>7}{'copied':>9}{'save':>8}"
        f"{'part':>7}{'decode':>10}{'restart':>9}{'copied':>8}{'save':>8}"
    )
    for name in names:
        of = times[name][1]
        _, duration, bandwidth, where = name
        cells = (
            f"{of['decode']:>8.1f}{of['restart']:>9.1f}{of['restart'] / of['decode']:>7.3f}"
            f"{of['copy']:>9.1f}{of['save']:>8.1f}{of['save'] / of['copy']:>7.3f}"
        )
        instructions = "".join(
            f"{round(counts[name][w]):>{width}}" for w, width in zip(PARTS, (10, 9, 8, 8))
        )
        print(f"{row_name(duration, bandwidth):<20}{where:<9}{cells}{instructions}")
    print()


def print_restart_marks(names, times):
    """The highest part, where it is, and the measurements above the mark."""
    titles = {"decode": "restart/decode", "copy": "save/decode and copy"}
    for (call, other), required in RESTART.items():
        of = {name: times[name][1][call] / times[name][1][other] for name in names}
        high = max(of, key=of.get)
        above = sum(part > required for part in of.values())
        state = "met" if above == 0 else f"NOT met by {above} of {len(of)}"
        print(
            f"order 8, {titles[other]}: highest {of[high]:.3f} ({row_name(*high[1:3])} {high[3]}); "
            f"required at most {required}: {state}"
        )


def print_marks(title, names, times, marks):
    """The lowest ratio, where it is, and the measurements below each mark."""
    for other, (required, wanted) in marks.items():
        of = {name: ratios(times[name][1])[other] for name in names}
        low = min(of, key=of.get)
        where = f"{row_name(*low[1:3])} {low[3]}"
        line = f"{title}, {other}/port: lowest {of[low]:.2f} ({where})"
        for word, mark in (("required", required), ("wanted", wanted)):
            if mark is not None:
                below = sum(r < mark for r in of.values())
                state = "met" if below == 0 else f"NOT met by {below} of {len(of)}"
                line += f"; {word} {mark}: {state}"
        print(line)


def main():
    folder = pathlib.Path(sys.argv[1])
    head, times = read_times(folder)
    counts = read_counts(folder)
    if set(times) != set(counts):
        sys.exit("table: the times and the counts are not of the same measurements")
    print("Speed of the port, the Rust and liblc3, by bench/run.")
    print(f"{processor()}; callgrind of {valgrind(folder)}")
    for line in head:
        print(line)
    print()
    print("Times in ns a call; ratios above 1 say that the port is faster; the last three")
    print("columns are instructions a call. The port is called by its exports, as from C.")
    print()
    print("encode: on: every band of every frame gets a filter, of the orders named; flag: the")
    print("same frames with the near-Nyquist flag, which turns the filter off after the")
    print("analysis; silence: all lines 0. In 10 ms bandwidth 2 E filters only up to line 200.")
    print()
    encode = [("encode", d, b, w) for w in ("on", "flag", "silence") for d, b in ROWS]
    print_rows(encode, times, counts)
    print("decode")
    print()
    decode = [("decode", d, b, f"order {o}") for d, b in ROWS for o in range(9)]
    print_rows(decode, times, counts)
    print("restart: the port alone, at order 8 with both filters counted. decode: tns_decode in")
    print("place; restart: tns_decode_restart at the middle of the lines from the first band's")
    print("start to the last stop, and its part of decode; copied: a copy of the spectrum into")
    print("the output and tns_decode there; save: tns_decode_save before the same line, and its")
    print("part of that; instructions.")
    print()
    restart = sorted((n for n in times if n[0] == "restart"), key=lambda n: n[1:3])
    if [name[1:3] for name in restart] != ROWS:
        sys.exit("table: restart was not measured in every row")
    print_restart(restart, times, counts)
    print("guard: the port by its exports, by the same inside the Rust crate's guard of the float")
    print("environment, and by the crate's functions; what the guard and the crate take over the")
    print("exports, in ns and as a ratio; instructions. The crate also hands the answer over as a")
    print("Result, the encoder's with its side data, coefficients and gains.")
    print()
    print_own(encode + decode, times, counts)
    print("marks")
    for what in ("on", "flag", "silence"):
        names = [name for name in encode if name[3] == what]
        print_marks(f"encode, {what}", names, times, ENCODE)
    print_marks("decode, order 0", [n for n in decode if n[3] == "order 0"], times, DECODE)
    others = [n for n in decode if n[3] != "order 0"]
    print_marks("decode, orders 1 to 8", others, times, DECODE)
    print_restart_marks(restart, times)
    print_guard("encode", encode, times, counts)
    print_guard("decode, order 0", [n for n in decode if n[3] == "order 0"], times, counts)
    print_guard("decode, orders 1 to 8", others, times, counts)


def valgrind(folder):
    for line in (folder / "valgrind").read_text().splitlines():
        if "Using Valgrind-" in line:
            return "valgrind " + line.split("Using Valgrind-")[1].split()[0]
    return "valgrind"


if __name__ == "__main__":
    main()
