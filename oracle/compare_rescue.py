#!/usr/bin/env python3
"""Compares the port's rescue of damaged block files with the model blocks.py (docs/RULES.md,
"Rescue (C-16)").

    oracle/compare_rescue.py [--src DIR] --caller PROGRAM --tns PROGRAM --folder DIR

Two ways. Files with damage of every kind (damage.py) go through the library's step on a
block, one call for each block and for what is left at the end, and blocks of any number
besides; the caller is blocks.c, linked with the library (port.py). Some of the files, long
ones, and some with as many blocks to keep as there may be, or one more, go through
`./tns rescue`, in a folder made below DIR: what is compared is what comes out, the report,
standard error with the line that says how much was kept, the status, that the damaged file
is as it was, and that nothing else is left. Some run beside part files of other rescues,
which standard error must name and which must stay. What came out of some is rescued once
more, and must come out as it is.

It fails if something differs, or if a kind of damage, a fault, one of its reasons, an
entry of the report or a line on standard error did not occur. Numbers are drawn from
fixed seeds. Assumes Python 3 with its standard library.
"""

import collections
import functools
import operator
import os
import pathlib
import subprocess
import sys
import tempfile

import blocks
import damage
import model
import port
from blocks import BLOCK, MOST_BLOCKS, RECORD, Format
from damage import Draw, any_number
from port import LAYOUT, LENGTH, NUMBER, OF_RECORDS, SUMS, Calls, Tally, request

FILES = 30_000
OTHER_BLOCKS = 12_000
RUNS = 2_000
LONG_RUNS = 80
AGAIN = 4
BESIDE = 10
# The numbers of parts that a run meets; the last two leave a number free below others.
PARTS = [(0,), (0, 1), (0, 1, 2), (0, 1, 3), (1, 2)]

# What a report can have; `none` is a report that is empty.
ENTRIES = ["none", "dropped 10", "dropped 11", "dropped 12", "renumbered", "stray"]


def answer(refusal, made, old):
    return port.answer(b"m", refusal, old, made)


def good(where, lacking, *differences):
    return port.good(f"rescue: {where}", lacking, *differences)


def kinds_of(report):
    """What entries a report has, each as often as it has it."""
    kinds = (f"dropped {entry[2]}" if entry[0] == "dropped" else entry[0] for entry in report)
    return collections.Counter(kinds) if report else collections.Counter(none=1)


def said(count, names):
    return ", ".join(f"{name} {count[name]}" for name in names)


# The library


def single_bytes(caller, rules):
    """Every place of two sound blocks gets every other value. The answer is not the model's
    here: a sum is wrong, and it must be 10."""
    draw, calls = Draw(1601, rules), Calls(caller, "rescue")
    for count in (20, 1):
        block = blocks.sealed(3, draw.records(count))
        calls.add("unchanged", request(b"m", 3, block), answer(0, block, 3))
        for place in range(BLOCK):
            for value in range(1, 256):
                other = block[:place] + bytes([block[place] ^ value]) + block[place + 1 :]
                name = f"place {place} changed by {value}"
                calls.add(name, request(b"m", 3, other), answer(10, b"", 0))
    calls.make()
    print(
        f"rescue: single bytes: two blocks, of 20 records and of 1, each byte changed to every "
        f"other value: {calls.made} calls; {calls.differ} not refused with 10, {calls.wrote} wrote "
        f"beyond"
    )
    return calls.differ == 0


def records_in(file):
    """The records of sound blocks, by the count in each header. The line on standard error counts
    them in the same way, so their number is compared with that count."""
    found = b"".join(b[blocks.FIRST :][: RECORD * b[2]] for b in blocks.pieces(file, BLOCK))
    return found if len(found) == RECORD * blocks.records_counted(file) else None


def step_calls(calls, rules, name, file, tally):
    """A file block by block, as the program takes it, and what is left at its end. Each call
    gets a block, or all that is left of the file. Gives the blocks that are kept."""
    kept, at, asked, wanted = [], 0, [], []
    while at < len(file):
        given = file[at:] if (at // BLOCK + len(file)) % 5 == 0 else file[at : at + BLOCK]
        refusal, reason, block, old = rules.rescue_block(len(kept), given)
        asked.append(request(b"m", len(kept), given))
        wanted.append(answer(refusal, block, old))
        tally.count(refusal, reason)
        if not refusal:
            kept.append(block)
        at += BLOCK
    calls.add(name, b"".join(asked), b"".join(wanted), len(asked))
    return b"".join(kept)


def checked(rules, name, file, kept):
    """What the model makes of a file; also that it keeps the promises of a rescue itself."""
    mended, report = rules.rescue_file(file)
    if mended != kept:
        sys.exit(f"rescue: the model's file is not made of the model's blocks: {name}")
    if rules.rescue_file(mended) != (mended, []):
        sys.exit(f"rescue: the model changes what it has rescued: {name}")
    if not report and mended != file:
        sys.exit(f"rescue: the model changes a file and reports nothing: {name}")
    if rules.read_file(mended) != (records_in(mended), None):
        sys.exit(f"rescue: the model counts other records than it reads: {name}")
    return mended, report


def steps(caller, rules, chosen):
    draw, calls, tally = Draw(1602, rules), Calls(caller, "rescue"), Tally()
    lengths, entries, sound = collections.Counter(), collections.Counter(), 0
    kinds = collections.defaultdict(collections.Counter)
    for k, how_many, damages, file in damage.damaged_files(draw, FILES):
        name = f"file {k} ({', '.join(damages)})"
        kept = step_calls(calls, rules, name, file, tally)
        mended, report = checked(rules, name, file, kept)
        found = kinds_of(report)
        lengths[how_many] += 1
        entries += found
        for kind in damages:
            kinds[kind]["all"] += 1
            if len(damages) == 1:
                kinds[kind].update(found.keys())
        sound += not damages
        if not damages and report:
            sys.exit("rescue: the model reports a sound file")
        if k % (FILES // RUNS) == 0 and len(chosen) < RUNS:
            chosen.append((name, file, mended, report))
    calls.make()
    print(
        f"rescue: steps: {FILES} files of 0..6 blocks {[lengths[n] for n in range(7)]}, {sound} "
        f"undamaged; {calls.made} calls: {tally.said()}; {calls.differ} files differ, "
        f"{calls.wrote} wrote beyond"
    )
    print(f"rescue: steps: why: {tally.reasons_said()}")
    print(f"rescue: steps: entries of the reports: {said(entries, ENTRIES)}")
    for kind, count in sorted(kinds.items()):
        print(
            f"rescue: steps: damage, {kind.replace('_', ' ')}: {count['all']} files; where it is "
            f"the only one, reports with {said(count, ENTRIES)}"
        )
    reasons = [reason for reason in LENGTH[:1] + SUMS + LAYOUT + OF_RECORDS if reason not in NUMBER]
    lacking = tally.lacks(reasons) + [entry for entry in ENTRIES if not entries[entry]]
    lacking += [kind.__name__ for kind in damage.KINDS if not kinds[kind.__name__]["all"]]
    lacking += [f"{n} blocks" for n in range(7) if not lengths[n]]
    return good("steps", lacking, calls.differ)


def any_blocks(caller, rules):
    """Single blocks with any number of their own, some damaged, to become any number, up to
    2^64 - 1; of any length, and with any bytes after them."""
    draw, calls, tally = Draw(1603, rules), Calls(caller, "rescue"), Tally()
    r, over = draw.random, collections.Counter()
    for k in range(OTHER_BLOCKS):
        file = [blocks.sealed(r.choice([0, 65535, r.randrange(65536)]), draw.records(draw.count()))]
        number = any_number(draw)
        damage.damage(draw, file)
        block = b"".join(file)
        if r.random() < 0.2:
            block = block[: r.choice([0, 1, 511, r.randrange(BLOCK)])]
        refusal, reason, made, old = rules.rescue_block(number, block)
        tally.count(refusal, reason)
        over[refusal] += number >= MOST_BLOCKS
        wanted = answer(refusal, made, old)
        calls.add(f"block {k}, number {number}", request(b"m", number, block), wanted)
    calls.make()
    print(
        f"rescue: steps: {calls.made} blocks to become any number: {tally.said()}, of which with a "
        f"number over 65535 {[over[n] for n in range(9, 13)]}; {calls.differ} differ, {calls.wrote} "
        f"wrote beyond"
    )
    lacking = tally.lacks(LENGTH)
    lacking += [f"{n} at a number over 65535" for n in range(9, 13) if not over[n]]
    return good("numbers", lacking, calls.differ)


def edge_blocks(draw):
    """Blocks that are just right or have one fault alone, and the refusal of each."""
    zeros = bytes(RECORD)
    full, one, nothing = draw.records(20), draw.records(1), blocks.sealed(0, zeros)
    yield "a record of zeros", nothing, 0
    yield "twenty of them", blocks.sealed(65535, 20 * zeros), 0
    yield "no records", blocks.with_sums(changed(nothing, 2, 0)), 11
    yield "a count over zeros of the fill", blocks.with_sums(changed(nothing, 2, 20)), 0
    for count in (0, 21, 255):
        yield f"a count of {count}", blocks.with_sums(changed(blocks.sealed(1, full), 2, count)), 11
    for edition in (0, 2, 255):
        yield f"edition {edition}", blocks.with_sums(changed(blocks.sealed(1, one), 3, edition)), 11
    for place in (*range(4, 8), 32, 507):
        for value in (1, 128, 255):
            block = changed(blocks.sealed(1, one), place, value)
            yield f"{value} at place {place}", blocks.with_sums(block), 11
    # Sums with room for another 65521: the plain one is 2 here, the weighted one 0.
    for at, block in ((508, nothing), (510, blocks.sealed(1657, zeros))):
        over = blocks.u16(block[at : at + 2]) + blocks.MODULUS
        yield "a sum and its modulus", block, 0
        yield "a sum over its modulus", block[:at] + blocks.bytes_of(over) + block[at + 2 :], 10


def changed(block, place, value):
    return block[:place] + bytes([value]) + block[place + 1 :]


def edges(caller, rules):
    """Blocks at the edge of what is right, and numbers of every kind, old and new."""
    draw, calls = Draw(1606, rules), Calls(caller, "rescue")
    for name, block, wanted in edge_blocks(draw):
        refusal, _, made, old = rules.rescue_block(7, block)
        if refusal != wanted:
            sys.exit(f"rescue: the model answers {refusal} to {name}")
        calls.add(name, request(b"m", 7, block), answer(refusal, made, old))
    how_many = calls.made
    for k in range(1 << 13):
        old, new = 8 * k + k % 8, (40503 * k + 7) % 65536
        block = blocks.sealed(old, draw.records(1))
        refusal, _, made, found = rules.rescue_block(new, block)
        calls.add(f"{old} to {new}", request(b"m", new, block), answer(refusal, made, found))
    calls.make()
    print(
        f"rescue: steps: {how_many} blocks that are just right or have one fault alone, and "
        f"{calls.made - how_many} other numbers: {calls.differ} differ, {calls.wrote} wrote beyond"
    )
    return calls.differ == 0


# The program


# What a write to a file, or another file of its name, would change of it.
facts = operator.attrgetter("st_ino", "st_size", "st_mode", "st_nlink", "st_mtime_ns", "st_ctime_ns")


class Room:
    """A folder in which a damaged file is rescued."""

    def __init__(self, tns, folder):
        self.tns, self.folder = tns, pathlib.Path(folder)
        self.damaged, self.mended = self.folder / "damaged", self.folder / "mended"
        self.runs = self.differ = 0
        self.lines = collections.Counter()

    def rescue(self, name, file, wanted, numbers=()):
        """Rescues a file and compares: what is wanted is what comes out and the report, or None
        where the call must be refused. The numbers are those of parts that are there already."""
        self.damaged.write_bytes(file)
        parts = {f"tns-rescue-{number}.part": b"%d" % number for number in numbers}
        for part, text in parts.items():
            (self.folder / part).write_bytes(text)
        os.utime(self.damaged, (1e9, 1e9))
        before = self.damaged.stat()
        run = subprocess.run([self.tns, "rescue", self.damaged, self.mended], capture_output=True)
        after = self.damaged.stat()
        names = sorted(os.listdir(self.folder))
        if wanted is None:
            result = 1, b"", b"refused 9\n", None
        else:
            mended, report = wanted
            kept = blocks.kept_line(file, mended, report)
            beside = list(blocks.part_lines(f"{self.folder}/", numbers))
            self.lines.update(kept=bool(kept), part=len(beside))
            printed = "".join(map(blocks.report_line, report)).encode()
            result = 0, printed, "".join([*beside, kept]).encode(), mended
        found = self.mended.read_bytes() if "mended" in names else None
        stay = {part: (self.folder / part).read_bytes() for part in parts if part in names}
        why = [
            what
            for what, is_so in [
                (f"status {run.returncode}, not {result[0]}", run.returncode != result[0]),
                (f"a report of {len(run.stdout)} bytes", run.stdout != result[1]),
                (f"standard error {run.stderr[:300]}", run.stderr != result[2]),
                ("what comes out", found != result[3]),
                ("the damaged file is another", self.damaged.read_bytes() != file),
                ("the damaged file was touched", facts(before) != facts(after)),
                ("the parts of others", stay != parts),
                (f"left: {names}", not set(names) <= {"damaged", "mended", *parts}),
            ]
            if is_so
        ]
        for left in names:
            (self.folder / left).unlink()
        self.runs += 1
        if why:
            self.differ += 1
            if self.differ <= 10:
                print(f"rescue: ./tns rescue: {name}: {'; '.join(why)}")


def long_file(draw):
    """A file of 100 to 700 blocks with much damage, which is more than a piece of input."""
    r = draw.random
    file = [blocks.sealed(n, draw.records(draw.count())) for n in range(r.randint(100, 700))]
    ends = damage.cut, damage.trailing
    inner = [kind for kind in damage.KINDS if kind not in ends]
    for _ in range(r.choice([1, 10, 100])):
        r.choice(inner)(draw, file)
    for kind in r.choice([[], ends[:1], ends[1:]]):
        kind(draw, file)
    return b"".join(file)


def large_files(draw):
    """Files with as many blocks to keep as there may be, or others."""
    r = draw.random
    sound = [blocks.sealed(n * 97 % 65536, draw.records(20)) for n in range(400)]
    hole = bytes(BLOCK)
    spoiled = blocks.with_sums(bytes([*sound[0][:12], 9, *sound[0][13:]]))
    for kept in (MOST_BLOCKS - 1, MOST_BLOCKS, MOST_BLOCKS + 1):
        for bad in (0, 500):
            file = r.choices(sound, k=kept)
            for _ in range(bad):
                file.insert(r.randrange(len(file)), r.choice([hole, spoiled]))
            stray = r.randbytes(r.choice([0, 17]))
            yield f"{kept} blocks to keep and {bad} others", b"".join(file) + stray


def programs(tns, folder, rules, chosen):
    """Whole files through the program, which is built first if it is not there."""
    draw, entries, again, refused = Draw(1604, rules), collections.Counter(), 0, 0
    with tempfile.TemporaryDirectory(prefix="rescue-", dir=folder) as made:
        room = Room(tns, made)
        room.damaged.write_bytes(b"")
        first = subprocess.run([tns, "rescue", room.damaged, room.mended], stdin=subprocess.DEVNULL)
        if first.returncode != 0:
            print("rescue: ./tns rescue: NOT COMPARED: it does not run")
            return False
        room.mended.unlink()
        for k in range(LONG_RUNS):
            file = long_file(draw)
            chosen.append((f"long file {k}", file, *rules.rescue_file(file)))
        for k, (name, file, mended, report) in enumerate(chosen):
            numbers = PARTS[k // BESIDE % len(PARTS)] if k % BESIDE == 3 else ()
            room.rescue(name, file, (mended, report), numbers)
            entries += kinds_of(report)
            if k % AGAIN == 0:
                room.rescue(f"{name}, once more", mended, (mended, []))
                again += 1
        # The same blocks come again and again.
        rules.fault_in = functools.lru_cache(1 << 10)(rules.fault_in)
        for name, file in large_files(draw):
            wanted = rules.rescue_file(file)
            refused += wanted is None
            room.rescue(name, file, wanted)
    print(
        f"rescue: ./tns rescue: {len(chosen)} files, {LONG_RUNS} of them of 100 to 700 blocks: "
        f"entries of the reports: {said(entries, ENTRIES)}; lines on standard error: "
        f"{said(room.lines, ['kept', 'part'])}; {again} rescued once more; "
        f"{room.runs - len(chosen) - again} of 65,535 to 65,537 blocks to keep: {refused} refused "
        f"9; {room.differ} differ"
    )
    lacking = [entry for entry in ENTRIES if not entries[entry]] + ["refused 9"] * (not refused)
    lacking += [f"a line, {line}" for line in ("kept", "part") if not room.lines[line]]
    return good("./tns rescue", lacking, room.differ)


def main():
    arguments = model.parser("compares the port's rescue of damaged files with the model")
    arguments.add_argument("--caller", required=True, help="the program that makes the calls")
    arguments.add_argument("--tns", required=True, help="the launcher")
    arguments.add_argument("--folder", required=True, help="where files can be put")
    given = arguments.parse_args()
    rules, chosen = Format(given.src), []
    results = [
        single_bytes(given.caller, rules),
        steps(given.caller, rules, chosen),
        any_blocks(given.caller, rules),
        edges(given.caller, rules),
        programs(given.tns, given.folder, rules, chosen),
    ]
    sys.exit(0 if all(results) else 1)


if __name__ == "__main__":
    main()
