#!/usr/bin/env python3
"""Compares the port's block files with the model blocks.py (docs/RULES.md, "Block files
(C-11)").

    oracle/compare_blocks.py [--src DIR] --caller PROGRAM --tns PROGRAM

Three ways: every single-byte change of some files; files with damage of every kind
(damage.py), and lists of records, through the library; and some of them through
`./tns read` and `./tns write`. The caller is blocks.c, linked with the library: it makes
the calls (port.py). What is compared of a program is its output, its line on standard
error and its status.

It fails if something differs, if a kind of damage, a refusal or one of its reasons did
not occur, or if a changed byte is not refused with 10 at its block. Numbers are drawn
from fixed seeds. Assumes Python 3 with its standard library.
"""

import collections
import subprocess
import sys

import blocks
import damage
import model
import port
from blocks import BLOCK, RECORD, Format
from damage import Draw, any_number
from port import LAYOUT, LENGTH, NUMBER, OF_RECORDS, SUMS, Calls, Tally, request

FILES = 130_000
LISTS = 120_000
OTHER_BLOCKS = 30_000
READ_RUNS = 2_400
WRITE_RUNS = 1_200


def answer(word, refusal, made):
    """The answer to a call that reads or writes: it gives how many records there are."""
    records = 0 if refusal else made[2] if word == b"w" and made else len(made) // RECORD
    return port.answer(word, refusal, records, made)


def good(where, lacking, *differences):
    return port.good(f"blocks: {where}", lacking, *differences)


def read_calls(calls, rules, name, file, tally=None):
    """Reads a file block by block, to its end or to what the model refuses. Each call
    gets a block, or all that is left of the file."""
    number, at, asked, wanted, last = 0, 0, [], [], 0
    while at < len(file) and not last:
        given = file[at:] if (number + len(file)) % 5 == 0 else file[at : at + BLOCK]
        last, reason, records = rules.read_block(number, given)
        asked.append(request(b"r", number, given))
        wanted.append(answer(b"r", last, records))
        if tally:
            tally.count(last, reason)
        number, at = number + 1, at + BLOCK
    calls.add(name, b"".join(asked), b"".join(wanted), number)
    return last


def changed_bytes(caller, rules):
    """Every place of some files gets other values. The answer is not the model's here:
    it must be 10 at the changed block, after the records of those before it."""
    draw, calls = Draw(1101, rules), Calls(caller, "blocks")
    flipped = [1 << k for k in range(8)]
    some = flipped + [255, 3, 85, 129]
    every = range(1, 256)
    kinds = [([20, 20, 7], every), ([1], every), ([20, 1], some), ([3, 20, 19, 1, 7, 20], flipped)]
    total = 0
    for counts, values in kinds:
        lists = [draw.records(count) for count in counts]
        file = [blocks.sealed(n, records) for n, records in enumerate(lists)]
        before, given = b"", b""
        for n, (block, records) in enumerate(zip(file, lists)):
            refused = given + answer(b"r", 10, b"")
            for place in range(BLOCK):
                head, tail = before + request(b"r", n, block)[: 13 + place], block[place + 1 :]
                for value in values:
                    asked = head + bytes([block[place] ^ value]) + tail
                    calls.add(f"block {n} place {place} changed by {value}", asked, refused, n + 1)
            total += BLOCK * len(values)
            before += request(b"r", n, block)
            given += answer(b"r", 0, records)
        calls.add("unchanged", before, given, len(file))
        print(
            f"blocks: single bytes: a file with blocks of {counts} records, each byte changed to "
            f"{len(values)} other values: {BLOCK * len(file) * len(values)} changes"
        )
    calls.make()
    print(
        f"blocks: single bytes: {total} changes, {calls.made} calls; {calls.differ} not refused "
        f"with 10 at the changed block after the records before it, {calls.wrote} wrote beyond"
    )
    return calls.differ == 0


def read_files(caller, rules, kept):
    draw, calls, tally = Draw(1102, rules), Calls(caller, "blocks"), Tally()
    lengths, kinds, sound = collections.Counter(), collections.defaultdict(collections.Counter), 0
    faulty = 0
    for k, how_many, damages, file in damage.damaged_files(draw, FILES):
        last = read_calls(calls, rules, f"file {k} ({', '.join(damages)})", file, tally)
        lengths[how_many] += 1
        faulty += last != 0
        for kind in damages:
            kinds[kind][last] += len(damages) == 1
            kinds[kind]["all"] += 1
        sound += not damages
        if not damages and last:
            sys.exit("blocks: the model refuses a sound file")
        if len(kept) < READ_RUNS and k % (FILES // READ_RUNS) == 0:
            kept.append(file)
    calls.make()
    print(
        f"blocks: read: {FILES} files of 0..6 blocks {[lengths[n] for n in range(7)]}, {sound} "
        f"undamaged, {faulty} refused; {calls.made} blocks read: {tally.said()}; {calls.differ} "
        f"files differ, {calls.wrote} wrote beyond"
    )
    print(f"blocks: read: why: {tally.reasons_said()}")
    for kind, count in sorted(kinds.items()):
        alone = [count[n] for n in (0, 9, 10, 11, 12)]
        print(
            f"blocks: read: damage, {kind.replace('_', ' ')}: {count['all']} files; where it is "
            f"the only one, accepted {alone[0]}, refused 9..12 {alone[1:]}"
        )
    lacking = tally.lacks(LENGTH[:1] + SUMS + LAYOUT + OF_RECORDS)
    lacking += [kind.__name__ for kind in damage.KINDS if not kinds[kind.__name__]["all"]]
    lacking += [f"{n} blocks" for n in range(7) if not lengths[n]]
    return good("read", lacking, calls.differ)


def read_blocks(caller, rules):
    """Single blocks of any number, asked for by it or by another."""
    draw, calls, tally = Draw(1103, rules), Calls(caller, "blocks"), Tally()
    for k in range(OTHER_BLOCKS):
        n = any_number(draw)
        block = blocks.sealed(n % 65536, draw.records(draw.count()))
        asked = draw.random.choice([n, n, n, n ^ 1, n ^ 256, (n + 65536) % (1 << 64)])
        length = draw.random.choice([BLOCK, BLOCK, BLOCK, 0, 1, 511, draw.random.randrange(BLOCK)])
        block = block[:length] + (draw.random.randbytes(k % 700) if length == BLOCK else b"")
        refusal, reason, records = rules.read_block(asked, block)
        tally.count(refusal, reason)
        wanted = answer(b"r", refusal, records)
        calls.add(f"block {k}, number {asked}", request(b"r", asked, block), wanted)
    calls.make()
    print(
        f"blocks: read: {calls.made} blocks of any number: {tally.said()}; {calls.differ} differ, "
        f"{calls.wrote} wrote beyond; why: {tally.reasons_said()}"
    )
    return good("numbers", tally.lacks(LENGTH + NUMBER), calls.differ)


def list_of_records(draw, most):
    """Records, now and then one or two that are not sound, and stray bytes."""
    r = draw.random
    counts = [0, 1, 19, 20, 21] + [r.randint(0, most) for _ in range(3)]
    records = r.choices(draw.pool, k=r.choice(counts))
    for _ in range(r.choice([0, 0, 0, 1, 1, 2]) if records else 0):
        at = r.randrange(len(records))
        records[at] = draw.spoiled(records[at])
    stray = r.choice([0] * 12 + [1, 22, 23, r.randint(1, 23)])
    return b"".join(records) + r.choice(draw.pool)[:stray]


def write_lists(caller, rules, kept):
    draw, calls, tally = Draw(1104, rules), Calls(caller, "blocks"), Tally()
    taken, back = collections.Counter(), 0
    for k in range(LISTS):
        n, records = any_number(draw), list_of_records(draw, 45)
        refusal, reason, block = rules.write_block(n, records)
        tally.count(refusal, reason)
        asked, wanted = request(b"w", n, records), answer(b"w", refusal, block)
        if block:
            # What is written reads back.
            taken[block[2]] += 1
            back += 1
            asked += request(b"r", n, block)
            wanted += answer(b"r", 0, records[: RECORD * block[2]])
        calls.add(f"list {k}, number {n}", asked, wanted, 1)
        if len(kept) < WRITE_RUNS and k % (LISTS // WRITE_RUNS) == 0:
            kept.append(list_of_records(draw, 130))
    calls.make()
    print(
        f"blocks: write: {calls.made} lists: {tally.said()}; {back} blocks written and read back; "
        f"{calls.differ} lists differ, {calls.wrote} wrote beyond"
    )
    print(f"blocks: write: why: {tally.reasons_said()}")
    print(f"blocks: write: blocks of 1..20 records {[taken[n] for n in range(1, 21)]}")
    lacking = tally.lacks(LENGTH[1:] + OF_RECORDS + [(12, "cut short")])
    lacking += [f"{n} records" for n in range(1, 21) if not taken[n]]
    return good("write", lacking, calls.differ)


def programs(tns, rules, files, lists):
    """The same through the programs, whole files at a time. They are built first if they
    are not there."""
    for word in ("read", "write"):
        if subprocess.run([tns, word], stdin=subprocess.DEVNULL).returncode != 0:
            print(f"blocks: ./tns {word}: NOT COMPARED: it does not run")
            return False
    result = True
    for word, given, rule in [("read", files, rules.read_file), ("write", lists, rules.write_file)]:
        tally, differ = collections.Counter(), 0
        for k, bytes_ in enumerate(given):
            stands, refused = rule(bytes_)
            tally[refused[0] if refused else 0] += 1
            said = b"refused %d at block %d\n" % refused if refused else b""
            run = subprocess.run([tns, word], input=bytes_, capture_output=True)
            if (run.stdout, run.stderr, run.returncode) != (stands, said, 1 if refused else 0):
                differ += 1
                if differ <= 10:
                    found = f"status {run.returncode}, {run.stderr}, {len(run.stdout)} bytes"
                    wanted = f"{said}, {len(stands)} bytes"
                    print(f"blocks: ./tns {word}: input {k}: {found}; wanted {wanted}")
        met = [0, 9, 10, 11, 12] if word == "read" else [0, 12]
        shown = ", ".join(f"{f'refused {n}' if n else 'accepted'} {tally[n]}" for n in met)
        print(f"blocks: ./tns {word}: {len(given)} inputs: {shown}; {differ} differ")
        result &= good(f"./tns {word}", [n for n in met if not tally[n]], differ)
    return result


def main():
    arguments = model.parser("compares the port's block files with the model")
    arguments.add_argument("--caller", required=True, help="the program that makes the calls")
    arguments.add_argument("--tns", required=True, help="the launcher")
    given = arguments.parse_args()
    rules, files, lists = Format(given.src), [], []
    results = [
        changed_bytes(given.caller, rules),
        read_files(given.caller, rules, files),
        read_blocks(given.caller, rules),
        write_lists(given.caller, rules, lists),
        programs(given.tns, rules, files, lists),
    ]
    sys.exit(0 if all(results) else 1)


if __name__ == "__main__":
    main()
