"""A plain model of block files: writing, reading and rescue.

It is an oracle: something to compare the proved library's answers with. It was written from the
rules alone (docs/RULES.md, "Block files (C-11)" and "Rescue (C-16)"), and shares nothing with the
library or the gate's model of the format. Its callers fixed the names, the wording of reasons and
of what is printed, the order of the reasons within one refusal, and what single-block calls do
with no bytes. The one thing it takes from other code is what a record costs in bits, which is
another rule (docs/RULES.md, "Cost"); model.py answers that.

It assumes Python 3, its standard library, model.py beside it, and block numbers that are not
negative. It knows edition 1 only. "Decided:" in a comment marks a choice that was made here.
"""

import functools
from operator import mul

import model

# The sizes of a block and of a record, where the records begin and how many there may be; the
# bytes that are summed, and the sums' modulus; how many blocks a file may have.

BLOCK = 512
FIRST = 8
RECORD = 24
CAPACITY = 20
SUMMED = 508
MODULUS = 65521
MOST_BLOCKS = 65536
EDITION = 1

# What a byte counts in the weighted sum: 508 at place 0, down to 1 at place 507.

WEIGHTS = [508 - place for place in range(SUMMED)]

# A record: 22 numbers of one byte, each with the largest that is accepted, and the bits in the last
# two of its 24 bytes. The limits are those of the refusals 1, 2, 5, 8, 6 and 7 (docs/RULES.md,
# "Refusal numbers"), for orders and indices that are not used too. The refusals 3 and 4 are about
# lengths, which a record doesn't have.
# Decided: two filters on a bandwidth with one band are no fault, since every call accepts the count.

FIELDS = [
    ("duration", 1),
    ("bandwidth", 4),
    ("filters", 2),
    ("weighting", 1),
    ("order 0", 8),
    ("order 1", 8),
] + [(f"index {place}", 16) for place in range(16)]

# Refusals: 9 for a short block or one too many, 10 for a wrong sum, 11 for a wrong header, number or
# fill byte, 12 for a record that is over a limit or has other bits than its cost.

EXTENT, SUMS, LAYOUT, CONTENT = 9, 10, 11, 12
SOUND = (0, "")


# Every u16 has its low byte first.

def u16(two_bytes):
    return int.from_bytes(two_bytes, "little")


def bytes_of(number):
    return number.to_bytes(2, "little")


# The last four bytes are the sums: first the plain one, then the weighted one.

def sums_of(block):
    summed = block[:SUMMED]
    return sum(summed) % MODULUS, sum(map(mul, WEIGHTS, summed)) % MODULUS


def with_sums(block):
    plain, weighted = sums_of(block)
    return bytes(block[:SUMMED]) + bytes_of(plain) + bytes_of(weighted)


# A block: its number, the record count, the edition and four zeros; the records; fill; the sums.

def sealed(number, records):
    count = len(records) // RECORD
    header = bytes_of(number) + bytes([count, EDITION]) + bytes(4)
    return with_sums((header + records).ljust(SUMMED, b"\0"))


# Bytes cut into pieces of one size; the last piece may be shorter.

def pieces(whole, size):
    return (bytes(whole[start:start + size]) for start in range(0, len(whole), size))


# One line of a rescue's report. The rules say what is reported; the callers fixed the words.

def report_line(entry):
    kind, *values = entry
    if kind == "dropped":
        place, fault = values
        return f"block {place} dropped {fault}\n"
    if kind == "renumbered":
        place, old, new = values
        return f"block {place} renumbered {old} to {new}\n"
    if kind == "stray":
        [count] = values
        return f"{count} stray bytes\n"
    raise ValueError(f"no such report entry: {entry}")


# How many records a file of sound blocks has, by the count in each block's header.

def records_counted(file):
    return sum(file[2::BLOCK])


# What a rescue prints besides its report once the new file is made: how much was kept, where a block
# was dropped or bytes are stray.

def kept_line(file, mended, report):
    if all(entry[0] == "renumbered" for entry in report):
        return ""
    kept, whole = len(mended) // BLOCK, len(file) // BLOCK
    return f"kept {kept} of {whole} blocks, {records_counted(mended)} records\n"


# Before that it names the part files of other rescues. It takes the first free number for its own,
# and so meets those below. `folder` is MENDED's path up to its last slash, with it; `numbers` are
# those of the parts.

def part_lines(folder, numbers):
    own = 0
    while own in numbers:
        yield (
            f"tns: {folder}tns-rescue-{own}.part: a rescue that was killed left this file, unless "
            f"one is running; if none is, remove it\n"
        )
        own += 1


class Format:
    """Block files, with the bit costs taken from the tables in a source folder."""

    def __init__(self, source):
        self.tables = model.Tables(source)
        # The same records come again and again, and the verdict hangs on their bytes alone.
        self.fault_in_record = functools.lru_cache(maxsize=100_000)(self.fault_in_record)

    # Records

    def cost(self, record):
        filters, weighting = record[2], record[3]
        orders = (record[4], record[5])
        return model.cost_of(self.tables, weighting, filters, orders, list(record[6:22]))

    # Whether a record is sound.
    # Decided: the fields are looked at in the record's order, the bits last; a record cut short
    # (only a writer can meet one) is called that whatever is in the part that is there.

    def fault_in_record(self, record):
        if len(record) < RECORD:
            return CONTENT, "cut short"
        for (name, largest), value in zip(FIELDS, record):
            if value > largest:
                return CONTENT, name
        if u16(record[22:24]) != self.cost(record):
            return CONTENT, "bits"
        return SOUND

    # Decided: of several faulty records the first one gives the reason.

    def fault_in_records(self, records):
        for record in pieces(records, RECORD):
            fault = self.fault_in_record(record)
            if fault != SOUND:
                return fault
        return SOUND

    # The faults of a whole block except 9, in the order of their numbers: sums; header, number and
    # fill; records. Without a number it is what a rescue looks at, which keeps a block whatever
    # number it has.
    # Decided: a stored sum must be the number below 65521 itself; 65521 doesn't stand for 0.

    def fault_in(self, block, number=None):
        plain, weighted = sums_of(block)
        wrong = []
        if u16(block[508:510]) != plain:
            wrong.append("plain")
        if u16(block[510:512]) != weighted:
            wrong.append("weighted")
        if wrong:
            return SUMS, " and ".join(wrong)

        count = block[2]
        fill = FIRST + RECORD * count
        if not 1 <= count <= CAPACITY:
            return LAYOUT, "count"
        if block[3] != EDITION:
            return LAYOUT, "edition"
        if any(block[4:8]):
            return LAYOUT, "zeros"
        if number is not None and u16(block[0:2]) != number:
            return LAYOUT, "number"
        if any(block[fill:SUMMED]):
            return LAYOUT, "fill"

        return self.fault_in_records(block[FIRST:fill])

    # One block. No bytes are no block, so reading and writing them succeeds with nothing, and
    # bytes past one block are left alone (both fixed by the callers). A number over the last one
    # is a block too many.

    def read_block(self, number, lent):
        block = bytes(lent[:BLOCK])
        if len(block) == 0:
            return 0, "", b""
        if len(block) < BLOCK:
            return EXTENT, "short", b""
        if number >= MOST_BLOCKS:
            return EXTENT, "number", b""
        refusal, reason = self.fault_in(block, number)
        if refusal:
            return refusal, reason, b""
        return 0, "", block[FIRST:FIRST + RECORD * block[2]]

    def write_block(self, number, lent):
        records = bytes(lent[:RECORD * CAPACITY])
        if len(records) == 0:
            return 0, "", b""
        if number >= MOST_BLOCKS:
            return EXTENT, "number", b""
        refusal, reason = self.fault_in_records(records)
        if refusal:
            return refusal, reason, b""
        return 0, "", sealed(number, records)

    # A kept block gets a new number and new sums; the bytes between them stay, and the records with
    # them. Only a block that is kept can be one too many.

    def rescue_block(self, number, lent):
        block = bytes(lent[:BLOCK])
        if len(block) < BLOCK:
            return EXTENT, "short", b"", 0
        refusal, reason = self.fault_in(block)
        if refusal:
            return refusal, reason, b"", 0
        if number >= MOST_BLOCKS:
            return EXTENT, "number", b"", 0
        return 0, "", with_sums(bytes_of(number) + block[2:]), u16(block[0:2])

    # Files. The first refused block ends a reading, so a fault in an early block is the answer even
    # for a file that is also too long. The blocks before it give their records, and it gives none. A
    # file of no bytes has no records.

    def read_file(self, file):
        records = []
        for number, block in enumerate(pieces(file, BLOCK)):
            refusal, _, found = self.read_block(number, block)
            if refusal:
                return b"".join(records), (refusal, number)
            records.append(found)
        return b"".join(records), None

    # Every block but the last is full, and of a refused block nothing is written.
    # Decided: the blocks before the refused one stay written, as the reader's records do.

    def write_file(self, records):
        blocks = []
        for number, part in enumerate(pieces(records, RECORD * CAPACITY)):
            refusal, _, block = self.write_block(number, part)
            if refusal:
                return b"".join(blocks), (refusal, number)
            blocks.append(block)
        return b"".join(blocks), None

    # A rescue keeps the order of the blocks and numbers them from 0. It reports the dropped blocks,
    # the renumbered ones and the stray bytes. With more blocks to keep than there are numbers it is
    # refused with 9: then there is no file and no report, which is None here.
    # Decided: a place is the block's count from 0 in the damaged file, which may pass 65,535; a
    # fault is the refusal's number, 10 to 12; a kept block whose number was right already, and
    # an end without stray bytes, are not reported, since a sound file has an empty report.

    def rescue_file(self, file):
        kept, report = [], []
        for place, block in enumerate(pieces(file, BLOCK)):
            if len(block) < BLOCK:
                report.append(("stray", len(block)))
                break
            new = len(kept)
            refusal, _, mended, old = self.rescue_block(new, block)
            if refusal == EXTENT:
                return None
            if refusal:
                report.append(("dropped", place, refusal))
                continue
            kept.append(mended)
            if old != new:
                report.append(("renumbered", place, old, new))
        return b"".join(kept), report
