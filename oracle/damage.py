"""Draws block files, and damages them: records, lists of them, sound files, and seventeen
kinds of damage. What is drawn and what is done to it are the same for the words blocks
and rescue; each has seeds of its own. Assumes Python 3 with its standard library.
"""

import random
from operator import mul

import blocks
from blocks import BLOCK, CAPACITY, FIELDS, FIRST, RECORD, SUMMED, bytes_of, with_sums


class Draw:
    def __init__(self, seed, rules):
        self.random = random.Random(seed)
        self.rules = rules
        # Records are drawn from some thousand that are sound.
        self.pool = [self.sound() for _ in range(6000)]

    def sound(self):
        """A sound record of any numbers, its limits often among them."""
        numbers = [self.number(most) for _, most in FIELDS]
        record = bytes(numbers) + b"\0\0"
        return record[:22] + bytes_of(self.rules.cost(record))

    def number(self, most):
        r = self.random
        return r.choice([0, most]) if r.random() < 0.1 else r.randint(0, most)

    def records(self, count):
        return b"".join(self.random.choices(self.pool, k=count))

    def count(self):
        """How many records a block has."""
        return self.random.choice([1, 19, 20, 20, self.random.randint(1, 20)])

    def file(self):
        """Sound blocks, none to six."""
        how_many = self.random.choice([0, 1, 1, 2, 2, 3, 3, 4, 5, 6])
        return [blocks.sealed(n, self.records(self.count())) for n in range(how_many)]

    def spoiled(self, record):
        """A record with one number past its limit, or bits that are not its cost."""
        r = self.random
        place = r.randrange(-8, len(FIELDS))
        if place < 0:
            bits = blocks.u16(record[22:])
            other = r.choice([bits + 1, bits - 1, bits ^ 256, bits + 256, r.randrange(65536)])
            return record[:22] + bytes_of(other % 65536)
        most = FIELDS[place][1]
        over = r.choice([most + 1, r.randint(most + 1, 255), 255])
        return record[:place] + bytes([over]) + record[place + 1 :]


# Damage: each kind changes a list of blocks in place, at least one, and may leave them
# sound. What it leaves is a list of bytes of any length.


def change(draw, file, what):
    """Changes one block."""
    at = draw.random.randrange(len(file))
    block = bytearray(file[at])
    result = what(block, at)
    file[at] = bytes(block if result is None else result)


def flips(draw, file):
    def what(block, at):
        for _ in range(draw.random.randint(1, 4)):
            block[draw.random.randrange(len(block))] ^= 1 << draw.random.randrange(8)

    change(draw, file, what)


def other_bytes(draw, file):
    def what(block, at):
        for _ in range(draw.random.randint(1, 20)):
            block[draw.random.randrange(len(block))] = draw.random.randrange(256)

    change(draw, file, what)


def two_bytes(draw, file):
    """One byte more and another less by as much, so that the plain sum stays."""

    def what(block, at):
        more = [place for place in range(SUMMED) if block[place] < 255]
        less = [place for place in range(SUMMED) if block[place] > 0]
        if more and less:
            i, j = draw.random.choice(more), draw.random.choice(less)
            by = draw.random.randint(1, min(255 - block[i], block[j]))
            block[i] += by
            block[j] -= by

    change(draw, file, what)


def zeroed(draw, file):
    def what(block, at):
        start, stop = sorted(draw.random.choices(range(len(block) + 1), k=2))
        block[start:stop] = bytes(stop - start)

    change(draw, file, what)


def any_block(draw, file):
    change(draw, file, lambda block, at: draw.random.randbytes(BLOCK))


def swapped(draw, file):
    i, j = draw.random.choices(range(len(file)), k=2)
    file[i], file[j] = file[j], file[i]


def dropped(draw, file):
    del file[draw.random.randrange(len(file))]


def doubled(draw, file):
    at = draw.random.randrange(len(file))
    file.insert(draw.random.randint(0, len(file)), file[at])


def cut(draw, file):
    whole = b"".join(file)
    file[:] = [whole[: draw.random.choice([draw.random.randrange(len(whole)), len(whole) - 1])]]


def trailing(draw, file):
    more = draw.random.choice([1, 8, 511, 512, draw.random.randint(1, 600)])
    file.append(draw.random.choice([bytes(more), draw.random.randbytes(more)]))


def header(draw, file):
    def what(block, at):
        place = draw.random.randint(2, 7)
        block[place] = draw.random.choice([0, 1, 2, 20, 21, draw.random.randrange(256)])
        return with_sums(block)

    change(draw, file, what)


def count_by_one(draw, file):
    def what(block, at):
        block[2] = (block[2] + draw.random.choice([1, -1])) % 256
        return with_sums(block)

    change(draw, file, what)


def number(draw, file):
    def what(block, at):
        others = [at + 1, at - 1, at + 256, at << 8, draw.random.randrange(65536)]
        block[:2] = bytes_of(draw.random.choice(others) % 65536)
        return with_sums(block)

    change(draw, file, what)


def fill(draw, file):
    def what(block, at):
        first = min(FIRST + RECORD * block[2], SUMMED - 1)
        place = draw.random.choice([first, SUMMED - 1, draw.random.randint(first, SUMMED - 1)])
        block[place] = draw.random.randint(1, 255)
        return with_sums(block)

    change(draw, file, what)


def record(draw, file):
    def what(block, at):
        which = draw.random.randrange(min(max(block[2], 1), CAPACITY))
        start = FIRST + RECORD * which
        block[start : start + RECORD] = draw.spoiled(bytes(block[start : start + RECORD]))
        return with_sums(block)

    change(draw, file, what)


def record_kept_sound(draw, file):
    """Another sound record, with the sums as they were."""

    def what(block, at):
        start = FIRST + RECORD * draw.random.randrange(min(max(block[2], 1), CAPACITY))
        block[start : start + RECORD] = draw.random.choice(draw.pool)

    change(draw, file, what)


def other_sums(draw, file):
    """Sums by another rule."""

    def what(block, at):
        summed, rest = block[:SUMMED], block[SUMMED:]
        plain = sum(summed)
        ways = [
            rest[2:] + rest[:2],
            rest[1::-1] + rest[:1:-1],
            bytes_of(plain % 65536) + bytes_of(sum(map(mul, blocks.WEIGHTS, summed)) % 65536),
            rest[:2] + bytes_of(sum((507 - k) * b for k, b in enumerate(summed)) % 65521),
            rest[:2] + bytes_of(sum((k + 1) * b for k, b in enumerate(summed)) % 65521),
            bytes_of((blocks.u16(rest[:2]) + 65521) % 65536) + rest[2:],
            bytes(4),
        ]
        return summed + draw.random.choice(ways)

    change(draw, file, what)


KINDS = [flips, other_bytes, two_bytes, zeroed, any_block, swapped, dropped, doubled, cut, trailing]
KINDS += [header, count_by_one, number, fill, record, record_kept_sound, other_sums]
# These look into a block, so that one that was cut before is not for them.
WHOLE = {two_bytes, header, count_by_one, number, fill, record, record_kept_sound, other_sums}


def damage(draw, file):
    """Damages a file in none to three ways, and says which."""
    said = []
    for _ in range(draw.random.choice([0, 1, 1, 1, 1, 2, 2, 3])):
        kind = draw.random.choice(KINDS)
        empty = not file or not all(file)
        if kind is trailing or not empty and (kind not in WHOLE or set(map(len, file)) == {BLOCK}):
            kind(draw, file)
            said.append(kind.__name__)
    return said


def damaged_files(draw, count):
    """Files of none to six blocks: which it is, how many blocks it had, what was done to it,
    and its bytes."""
    for k in range(count):
        file = draw.file()
        how_many = len(file)
        kinds = damage(draw, file)
        yield k, how_many, kinds, b"".join(file)


# Numbers that a block may be asked for by, and those that are over the last.
FAR = [65536, 65537, 131071, 1 << 32, (1 << 32) + 7, 1 << 63, (1 << 64) - 1]


def any_number(draw):
    r = draw.random
    return r.choice([0, 65535, r.choice(FAR)] + [r.randrange(65536) for _ in range(3)])
