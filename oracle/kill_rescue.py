#!/usr/bin/env python3
"""Ends `./tns rescue` at many moments, and looks what it has left (docs/RULES.md,
"Rescue (C-16)").

    oracle/kill_rescue.py [--src DIR] --tns PROGRAM --folder DIR

A file of 20 MiB is rescued again and again, in a folder made below DIR, and a signal is
sent after a time that goes evenly from none to a fifth more than a run takes, three times
as long for every tenth: SIGKILL to the launcher and the program, SIGKILL to the program
alone, and SIGTERM, SIGINT and SIGHUP, to both and to the launcher alternately. Afterwards
there is either no file of the asked name or all of it, byte for byte, and the damaged file
is as it was. The status is 128 and the signal's number, or 0 if the run was over before;
standard error has the line that says how much was kept only if the file is there.

Only SIGKILL to both may leave a part file. These are counted, and removed; before some of
them are removed, a run that nobody ends must name them and make the file. In every other
case the launcher removes the part as soon as the program has said its number: an empty one,
of a run that was ended before it could say that, is counted, and one with bytes is wrong.

It fails if something else is left, if every run left the whole, or if none did. The counts
depend on the machine and its load. Numbers are drawn from a fixed seed. Assumes Python 3
with its standard library, on Linux with /proc.
"""

import collections
import hashlib
import os
import pathlib
import re
import signal
import statistics
import subprocess
import sys
import tempfile
import time

import blocks
import model
from blocks import BLOCK, Format
from damage import Draw

BLOCKS = 40_960
# What is sent, to whom, and in how many runs.
ALL, PROGRAM, EITHER = "all", "the program", "all and to the launcher"
RUNS = [
    (signal.SIGKILL, ALL, 300),
    (signal.SIGKILL, PROGRAM, 100),
    (signal.SIGTERM, EITHER, 80),
    (signal.SIGINT, EITHER, 80),
    (signal.SIGHUP, EITHER, 80),
]
AFTERWARDS = 20  # how many of the parts that are left are met by another run
PART = re.compile(r"tns-rescue-([0-9]+)\.part")


def damaged_file(draw, rules):
    """Blocks under any numbers, with holes, so that nearly all that is kept is written anew;
    what comes out of it, and the line that says how much that is."""
    r = draw.random
    sound = [blocks.sealed(r.randrange(65536), draw.records(20)) for _ in range(400)]
    file = b"".join(r.choice([*sound, bytes(BLOCK)]) for _ in range(BLOCKS))
    mended, report = rules.rescue_file(file)
    return file, mended, blocks.kept_line(file, mended, report).encode()


def reset():
    """What a shell in the background would have the runs ignore."""
    for number in (signal.SIGTERM, signal.SIGINT, signal.SIGHUP):
        signal.signal(number, signal.SIG_DFL)


def program_of(launcher):
    """The process of the program, if it runs by now."""
    try:
        children = pathlib.Path(f"/proc/{launcher}/task/{launcher}/children").read_text().split()
        for child in children:
            if pathlib.Path(f"/proc/{child}/comm").read_text() == "prog_rescue\n":
                return int(child)
    except OSError:
        pass
    return None


def send(running, number, whom):
    """Sends the signal, if there is still somebody to get it."""
    try:
        if whom == ALL:
            os.killpg(running.pid, number)
        elif whom == PROGRAM:
            while (program := program_of(running.pid)) is None and running.poll() is None:
                time.sleep(0.0005)
            if program is not None:
                os.kill(program, number)
        elif running.poll() is None:
            os.kill(running.pid, number)
    except ProcessLookupError:
        pass


def run(tns, damaged, mended, after=None, number=None, whom=None):
    """How long a run took, its status and its standard error. It is over when nobody holds that."""
    began = time.monotonic()
    running = subprocess.Popen(
        [tns, "rescue", damaged, mended],
        stdin=subprocess.DEVNULL,
        stdout=subprocess.DEVNULL,
        stderr=subprocess.PIPE,
        start_new_session=True,
        preexec_fn=reset,
    )
    if number is not None:
        time.sleep(max(0, began + after - time.monotonic()))
        send(running, number, whom)
    _, printed = running.communicate()
    return time.monotonic() - began, running.returncode, printed


def digest(path):
    return hashlib.sha256(path.read_bytes()).digest()


def wrongs(number, whom, status, printed, found, line):
    """What is wrong with the status and standard error of a run that left `found`."""
    why = []
    if found == "not whole" or status == 0 and found == "none":
        why.append(f"what is made: {found}, with status {status}")
    # A launcher ends by the signal that it got; it says so of one that only the program got.
    ends = {-number, 128 + number}
    if (number, whom) == (signal.SIGKILL, ALL):
        ends = {-number}
    elif whom == PROGRAM:
        ends = {128 + number}
    if status not in ends | {0}:
        why.append(f"status {status}")
    said = f"tns: signal {number} ended the rescue\n".encode() if status == 128 + number else b""
    may_be = {line} if status == 0 else {said} if found == "none" else {said, line + said}
    if printed not in may_be:
        why.append(f"with status {status} and {found} made, standard error {printed[:300]}")
    return why


def is_made_beside(tns, damaged, mended, wanted, line, parts):
    """Whether a run that nobody ends names the parts that are there, and makes the file."""
    numbers = {int(PART.fullmatch(name)[1]) for name in parts}
    names = "".join(blocks.part_lines(f"{mended.parent}/", numbers)).encode()
    other = mended.with_name("other")
    _, status, printed = run(tns, damaged, other)
    return (status, printed) == (0, names + line) and other.read_bytes() == wanted


def ended(tns, folder, file, wanted, line):
    damaged, mended = folder / "damaged", folder / "mended"
    damaged.write_bytes(file)
    stood = digest(damaged)
    times = []
    for _ in range(5):
        took, status, printed = run(tns, damaged, mended)
        if status != 0 or printed != line or mended.read_bytes() != wanted:
            print("rescue: ended: NOT TRIED: a run that nobody ends does not make the file")
            return False
        mended.unlink()
        times.append(took)
    whole = statistics.median(times)
    result = True
    for number, whom, runs in RUNS:
        left, wrong = collections.Counter(), 0
        for k in range(runs):
            after = 1.2 * whole * (k + 0.5) / runs * (3 if k % 10 == 9 else 1)
            to = whom
            if whom == EITHER:
                to = ALL if k % 2 else "the launcher"
            _, status, printed = run(tns, damaged, mended, after, number, to)
            names = set(os.listdir(folder)) - {"damaged"}
            parts = {name for name in names if PART.fullmatch(name)}
            found = "none"
            if "mended" in names:
                found = "whole" if mended.read_bytes() == wanted else "not whole"
            left[found] += 1
            left["over before"] += status == 0
            why = [f"{name} is left" for name in sorted(names - parts - {"mended"})]
            why += wrongs(number, to, status, printed, found, line)
            if (number, to) == (signal.SIGKILL, ALL):
                left["parts"] += len(parts)
                if parts and left["met"] < AFTERWARDS:
                    left["met"] += 1
                    if not is_made_beside(tns, damaged, mended, wanted, line, parts):
                        why.append("another run does not name the part and make its file")
                    names.add("other")
            else:
                empty = {name for name in parts if not (folder / name).stat().st_size}
                left["empty"] += len(empty)
                why += [f"{name} is left, with bytes" for name in sorted(parts - empty)]
            if digest(damaged) != stood:
                why.append("the damaged file is another")
            for name in names:
                (folder / name).unlink(missing_ok=True)
            wrong += bool(why)
            if why and wrong <= 10:
                print(f"rescue: ended: {number.name} to {to}, run {k}: {'; '.join(why)}")
        parts = f"{left['empty']} empty parts left and removed"
        if (number, whom) == (signal.SIGKILL, ALL):
            parts = f"{left['parts']} parts left and removed, {left['met']} of them after another run"
        print(
            f"rescue: ended: {runs} runs on {BLOCKS} blocks, a run taking {whole:.3f} s, ended by "
            f"{number.name} to {whom}: {left['none']} left none, {left['whole']} a whole one "
            f"({left['over before']} were over before the signal); {parts}; {wrong} wrong"
        )
        if not left["none"] or not left["whole"]:
            print(f"rescue: ended: {number.name} to {whom}: never occurred: none, or a whole one")
            result = False
        result &= not wrong
    return result


def main():
    arguments = model.parser("ends ./tns rescue at many moments")
    arguments.add_argument("--tns", required=True, help="the launcher")
    arguments.add_argument("--folder", required=True, help="where files can be put")
    given = arguments.parse_args()
    rules = Format(given.src)
    file, wanted, line = damaged_file(Draw(1605, rules), rules)
    with tempfile.TemporaryDirectory(prefix="rescue-", dir=given.folder) as made:
        sys.exit(0 if ended(given.tns, pathlib.Path(made), file, wanted, line) else 1)


if __name__ == "__main__":
    main()
