#!/usr/bin/env python3
"""Brings this repository's own definitions, fields and lemmas to today's spelling, after port.py: words in snake case.

usage: python3 tools/respell.py    at the top of the repository, once, right after port/port.py of the kit

A definition `lineDecoded` becomes `line_decoded`, a lemma `passed-by-checks` becomes `passed_by_checks`. Types and facts, which
begin with a capital letter, keep their names, and so do functions of src/, exported names, strings, inputs, outputs, and names that
Rattle makes (goals and invariants in proofs/F/). A name is turned where it is declared, where it is imported from a crate of
this repository, and where it is read off a record of this repository. It prints names that fall together.

It also adds `#![tactic(auto)]` to each root file and `#[derive(Clone, Copy)]` to each struct and enum of plain values, which today's
language asks for, and turns the texts of must-fail edits that stand in the files no more.
"""

import collections
import glob
import os
import re
import sys

words = set()
WORD = r"[^\s:(){}\[\],;=.«»]+"
DECLARED = re.compile(r"^\s*(?:(?:pub|abbrev|unfoldable|opaque)\s+)*(" + WORD + r")\s+:(?:\s|$)")
MADE = re.compile(r"^(invariant|decreases|ghost|before|after|Need|returns|loop)-")
TOKEN = re.compile(r"[A-Za-z_][\w'′₀-₉-]*(?<!-)")


def turned(name):
    name = name.replace("′", "'")
    to = re.sub(r"(?<=[a-z0-9])([A-Z])", lambda m: "_" + m.group(1).lower(), name).replace("-", "_")
    # A lemma that would have its definition's name.
    return to + "_lem" if "-" in name and to in words else to


def is_ours(name):
    """Whether a name is a word in a form of before: no type, and camel case or dashes in it."""
    if not re.match(r"[a-z]", name) or MADE.match(name):
        return False
    return turned(name) != name


def read(p):
    with open(p, encoding="utf-8") as f:
        return f.read()


def write(p, t):
    with open(p, "w", encoding="utf-8") as f:
        f.write(t)


def uncommented(line):
    return line.split("-- ")[0] if not line.lstrip().startswith("--") else ""


def uncommented_all(text):
    return "\n".join(uncommented(line) for line in text.split("\n"))


def module_of(p):
    """crates/c/specs/A.antt is Rattle.c.specs.A"""
    parts = p[:-5].split("/")
    return ".".join(["Rattle"] + parts[1:])


antt = sorted(glob.glob("crates/*/specs/**/*.antt", recursive=True) + glob.glob("crates/*/proofs/**/*.antt", recursive=True))
declared = {p: set() for p in antt}
fields = set()
for p in antt:
    in_record = -1
    for line in read(p).split("\n"):
        code = uncommented(line)
        if not code.strip():
            continue
        depth = len(code) - len(code.lstrip())
        if in_record >= 0 and depth <= in_record:
            in_record = -1
        m = DECLARED.match(code)
        if m:
            declared[p].add(m.group(1))
            if in_record >= 0:
                fields.add(m.group(1))
        if re.match(r"\s*(pub )?record\s", code) and code.rstrip().endswith("where"):
            in_record = depth
        # fields of a record type written in a line
        for r in re.findall(r"record \{([^}]*)\}", code):
            for one in r.split(";"):
                f = re.match(r"\s*(" + WORD + r")\s+:\s", one)
                if f:
                    fields.add(f.group(1))
        own = {module_of(p): p for p in antt}
words |= {turned(n) for ns in declared.values() for n in ns if re.match(r"[a-z]\w*[A-Z]", n)}
fields = {f for f in fields if is_ours(f)}
IMPORT = re.compile(r"((?:ghost )?use )(Rattle\.[\w.+'-]+)\.\{([^}]*)\}")


def names_of(p, text):
    """The names that are turned in a file: what it declares, and what it imports from this repository."""
    names = set(n for n in declared.get(p, ()) if is_ours(n))
    for _, path, listed in IMPORT.findall(text):
        crate = path.split(".")[1]
        if not os.path.isdir(os.path.join("crates", crate)):
            continue
        if path not in own:
            continue
        for one in listed.split(","):
            for n in one.split(" as "):
                n = n.strip()
                if is_ours(n):
                    names.add(n)
    return names


def respelled(text, names, is_edit=False):
    out = []
    for line in text.split("\n"):
        def one(m):
            name, at = m.group(0), m.start()
            before = line[:at]
            dotted = before.endswith(".") and not before.endswith("..")
            if dotted:
                head = re.search(r"Rattle\.[\w.+'-]+\.$", before)
                if head:
                    path = head.group(0)[:-1]
                    return turned(name) if path in own and is_ours(name) else name
                return turned(name) if name in fields else name
            if name in names:
                return turned(name)
            # a field that is set in a record
            if name in fields and re.match(r"\s+=\s", line[m.end():] + " ") :
                return turned(name)
            return name
        out.append(TOKEN.sub(one, line))
    return "\n".join(out)


# Lemmas, with underscores before this script, that would have their definition's name.
APART = [
    ("crates/lattice_exact/proofs/NearLattice.antt", r"\bat_rest\b", "at_rest_lem"),
    ("crates/side_near/proofs/NearFrames.antt", r"\bat_rest\b", "at_rest_lem"),
    ("crates/lattice_rows/proofs/Filters.antt", r"\bat_rest\b", "at_rest_lem"),
    ("crates/side_decoded/proofs/CountedFilters.antt", r"\bat_rest\b", "at_rest_lem"),
    ("crates/row_bands/proofs/Apart.antt", r"\blaid_out\b", "laid_out_lem"),
    ("crates/block_*/proofs/Determined.antt", r"\banswer_back\b", "answer_back_lem"),
    ("crates/block_kept/proofs/Kept.antt", r"\bby_tests\b", "by_tests_lem"),
    ("crates/replay_list/proofs/float_of/Proof.antt", r"\bis-nan\b", "is_nan_lem"),
]


def derived():
    """Today's language moves a value of a type that is not Copy, and the check tries its tactics where a root file says so."""
    for p in sorted(glob.glob("crates/*/src/*.rt")):
        lines, out = read(p).split("\n"), []
        for i, line in enumerate(lines):
            m = re.match(r"(pub )?(struct|enum) (\w+)", line)
            if m:
                j, body = i, line
                while not lines[j].endswith(("}", ";")):
                    j += 1
                    body += lines[j]
                if "&" not in body:
                    if out and out[-1] == "#[derive(Drop)]":
                        out.pop()
                    if not (out and out[-1].startswith("#[derive")):
                        out.append("#[derive(Clone, Copy)]")
            out.append(line)
        if p.endswith(("/lib.rt", "/main.rt")) and "#![tactic(auto)]" not in out:
            i = 0
            while i < len(out) and out[i].startswith("//"):
                i += 1
            out[i:i] = ["#![tactic(auto)]", ""]
        write(p, "\n".join(out))


def edits(turns):
    """Turns the texts of must-fail edits: names, and projections that are written tight."""
    left = 0
    for e in sorted(glob.glob("crates/*/must-fail/*.edit")):
        crate, f, out, cur, lines = e.split("/must-fail/")[0], None, [], {}, read(e).split("\n")
        i = 0
        while i < len(lines):
            line = lines[i]
            if line.startswith("file: "):
                f = os.path.join(crate, line[6:].strip())
            if line.startswith("old: ") and i + 1 < len(lines) and lines[i + 1].startswith("new: "):
                old, new = line[5:], lines[i + 1][5:]
                t = cur.get(f) or read(f)
                if t.count(old) != 1 or f.endswith(".antt"):
                    turn = lambda s: TOKEN.sub(lambda m: turns.get(m.group(0), m.group(0)), s)
                    tight = lambda s: re.sub(r"\(([\w'-]+) \.([\w.-]+)\)", r"\1.\2", s)
                    tight2 = lambda s: re.sub(r"(?<![\w)])([\w'-]+) \.([a-z][\w-]*)", r"\1.\2", tight(s))
                    for way in (turn, lambda s: tight(turn(s)), lambda s: tight2(turn(s)), lambda s: tight2(turn(s)).replace("getD", "get_or")):
                        if t.count(way(old)) == 1:
                            old, new = way(old), way(new)
                            break
                if t.count(old) == 1:
                    cur[f] = t.replace(old, new)
                else:
                    left += 1
                    print("left: an edit whose text does not stand:", e)
                out += ["old: " + old, "new: " + new]
                i += 2
                continue
            out.append(line)
            i += 1
        write(e, "\n".join(out))
    return left


def main():
    if not os.path.isdir("crates"):
        raise SystemExit("run it at the top of the repository")
    for where, word, to in APART:
        for p in sorted(glob.glob(where)):
            write(p, re.sub(word, to, read(p)))
    for p in antt:
        declared[p] = set(m.group(1) for line in read(p).split("\n") for m in [DECLARED.match(uncommented(line))] if m)
    fell = []
    turns = {}
    for p in antt + sorted(glob.glob("crates/*/src/*.rt")):
        t = read(p)
        names = names_of(p, t)
        tokens = set(TOKEN.findall(t))
        alike = collections.Counter(turned(n) for n in names)
        for n in sorted(names):
            to = turned(n)
            if alike[to] > 1:
                fell.append(f"{p}: {n} and another become {to}")
            if to in tokens and p.endswith(".antt") and re.search(r"(?<![\w.'-])" + re.escape(to) + r"(?![\w.'-])", uncommented_all(t)):
                fell.append(f"{p}: {n} becomes {to}, which stands there")
            turns[n] = to
        if p.endswith(".rt"):
            new = []
            for line in t.split("\n"):
                new.append(line if line.lstrip().startswith("//") else respelled(line, names))
            u = "\n".join(new)
        else:
            u = respelled(t, names)
            m = re.match(r"crates/\w+/proofs/(?:\+)?(?:.*/)?([\w]+)/Proof\.antt$", p)
            if m:
                u = u.replace(m.group(1).replace("_", "-") + "-spec", m.group(1) + "_spec")
        if u != t:
            write(p, u)
    for line in fell:
        print("falls together:", line)
    derived()
    left = edits(turns)
    print(f"respell: {len(turns)} names turned, {left} texts of edits left by hand")


main()
