"""Calls of the port's functions on blocks, by the program of blocks.c, and what is
counted of their answers. compare_blocks.py and compare_rescue.py ask by it.

What is compared of a call is its whole answer and every byte of what it was lent, and
that it wrote nothing else. Assumes Python 3 with its standard library.
"""

import collections
import struct
import subprocess
import sys

from blocks import BLOCK, CAPACITY, FIELDS, RECORD

# What is lent before a call, and how long that is: to read, to write and to rescue.
LENT = bytes((7 * i + 165) % 256 for i in range(BLOCK))
SIZE = {b"r": CAPACITY * RECORD, b"w": BLOCK, b"m": BLOCK}


def request(word, number, bytes_):
    return word + struct.pack("<QI", number, len(bytes_)) + bytes_


def answer(word, refusal, told, made):
    """The answer to a call that gives a number and wrote these bytes at the start of
    what it was lent."""
    return struct.pack("<HHB", refusal, told, 0) + made + LENT[len(made) : SIZE[word]]


class Calls:
    """Calls with the answers that they must get, made some thousand at a time. Each
    belongs to a case, whose name is printed if it differs, after the oracle's word."""

    def __init__(self, caller, word):
        self.caller, self.word = caller, word
        self.made = self.differ = self.wrote = 0
        self.empty()

    def empty(self):
        self.requests, self.answers, self.names, self.length = [], [], [], 0

    def add(self, name, asked, wanted, count=1):
        """Some requests in one, with their answers."""
        self.requests.append(asked)
        self.answers.append(wanted)
        self.names.append(name)
        self.length += len(asked)
        self.made += count
        if self.length > 1 << 22:
            self.make()

    def make(self):
        given = subprocess.run([self.caller], input=b"".join(self.requests), stdout=subprocess.PIPE)
        if given.returncode != 0:
            sys.exit(f"{self.word}: the calls ended with status {given.returncode}")
        if given.stdout != b"".join(self.answers):
            self.compare(given.stdout)
        self.empty()

    def compare(self, found):
        at = 0
        for name, asked, wanted in zip(self.names, self.requests, self.answers):
            part = found[at : at + len(wanted)]
            at += len(wanted)
            if part != wanted:
                self.differ += 1
                self.wrote += part[4:5] != b"\0"
                if self.differ <= 10:
                    print(f"{self.word}: differs: {name}: {described(asked, part, wanted)}")
        # What comes after the last answer belongs to no case.
        if len(found) > at:
            self.differ += 1
            print(f"{self.word}: differs: {len(found) - at} bytes after the last answer")


def described(asked, found, wanted):
    """Where the answers to a case differ."""
    first = 0
    while found[first : first + 1] == wanted[first : first + 1]:
        first += 1
    return f"{len(asked)} bytes asked; of {len(wanted)} answered byte {first} differs first"


# Counting


class Tally:
    """How often what occurred."""

    def __init__(self):
        self.answers = collections.Counter()
        self.reasons = collections.Counter()

    def count(self, refusal, reason):
        self.answers[refusal] += 1
        if refusal:
            self.reasons[refusal, reason] += 1

    def said(self):
        refused = [self.answers[n] for n in range(9, 13)]
        return f"accepted {self.answers[0]}, refused 9..12 {refused}"

    def reasons_said(self):
        listed = sorted(self.reasons, key=REASONS.index)
        return ", ".join(f"{n} {reason} {self.reasons[n, reason]}" for n, reason in listed)

    def lacks(self, wanted):
        return sorted(set(wanted) - set(self.reasons))


LENGTH = [(9, "short"), (9, "number")]
SUMS = [(10, reason) for reason in ("plain", "weighted", "plain and weighted")]
NUMBER = [(11, "number")]
LAYOUT = [(11, reason) for reason in ("count", "edition", "zeros")] + NUMBER + [(11, "fill")]
OF_RECORDS = [(12, name) for name, _ in FIELDS] + [(12, "bits")]
REASONS = LENGTH + SUMS + LAYOUT + OF_RECORDS + [(12, "cut short")]


def good(where, lacking, *differences):
    """Whether nothing is lacking that had to occur, and nothing differs."""
    for what in lacking:
        print(f"{where}: never occurred: {what}")
    return not lacking and not any(differences)
