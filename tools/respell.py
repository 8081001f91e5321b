#!/usr/bin/env python3
"""Brings the repository's own words to the language's spelling: definitions, lemmas and fields in snake case.

Run once at the top, after the toolchain's own scripts: python3 tools/respell.py [--dry]
It turns dropLowest and drop-lowest into drop_lowest in crates/: the .antt files, the clauses and ghost lines of the .rt files, and in
comments what stands in backquotes. Types, modules, constants in capitals and what is imported from elsewhere keep their names.
It prints where two names may fall together in a file."""

import collections
import os
import re
import sys

WORD = re.compile(r"[^\s(){}\[\],.;:\"`⌜⌝⟨⟩]+")
DECLARED = re.compile(r"^\s*(?:(?:abbrev|unfoldable|pub)\s+)*([^\s(){}\[\],.;:\"`]+)\s+:(?:\s|$)")
USE = re.compile(r"^\s*(?:ghost |unfoldable |pub )*use\s+([^\s{;]+?)(?:\.\{([^}]*)\})?(?:\s+as\s+(\S+?))?;?\s*$")


def snake(name):
    """The name in snake case, or itself where it is a type's, a constant's or has it already."""
    if not re.search(r"[a-z]", name) or name[0].isupper() or "◌" in name:
        return name
    out = re.sub(r"(?<=[a-z0-9])([A-Z])", lambda m: "_" + m.group(1).lower(), name)
    return re.sub(r"(?<=\w)-(?=\w)", "_", out)


# Lemmas whose name would fall together with a definition's, or with a word of the library, that is said in the same place
LAWS = """body-text chain-hit chain-words change-most count-of edge-at edge-entry every-below every-slot every-within fields-from
finding-back first-half first-mid first-refused from-lines in-numbers inputs-at item-size last-mid line-back line-hit line-masked lines-from
longest-notice longest-sheet lower-sources lower-value lowest-line no-refusal ones-in packed-four range-entry read-range record-at
record-by records-of refuse-fault section-at section-lines sections-from sent-from sent-once sheet-with six-at slot-back slot-from slot-most
sum-asked sum-means table-at table-from table-length tell-line tell-masks term-at turn-lower turn-sample turn-upper turn-value upper-sources
upper-value walk-lines word-at word-hit words-of words-read""".split()

# The same, of names that are in snake case already: the file that has the lemma, and the names
MOVED = {
    "demands/proofs/NoticeBytes.antt": ["input_back"],
    "verbs/proofs/Giving.antt": ["left_by"],
    "reader/proofs/Keeping.antt": ["parts_from"],
    "programme/proofs/Looked.antt": ["range_at"],
    "range/proofs/Decode.antt": ["read_back"],
    "refusal/proofs/Theorems.antt": ["read_back"],
    "sheet/proofs/Records.antt": ["record_of"],
}


# Parameters, whose names no line declares by itself
PARAMETERS = "ofSheet ofSamples ofRun ofRoom ofOld ofNew ofNeither lowTable highTable atZero atOne at-v told-at-01-aF told_at_01_aF".split()


def law(name):
    return snake(name) + "_law"


def files(top):
    for folder, dirs, names in os.walk(os.path.join(top, "crates")):
        dirs[:] = sorted(d for d in dirs if d != "out")
        for n in sorted(names):
            if n.endswith((".antt", ".rt")):
                yield os.path.join(folder, n)


def imports(text, own):
    """Names imported from elsewhere, and from the repository's own crates, with the modules' short names."""
    other, ours, short = set(), set(), {}
    for line in text.split("\n"):
        m = USE.match(line)
        if not m:
            continue
        path, names, alias = m.groups()
        parts = path.split(".")
        mine = len(parts) > 1 and parts[0] == "Rattle" and parts[1] in own
        for n in re.split(r"\s*,\s*", names.strip()) if names else []:
            (ours if mine else other).add(n.split(" as ")[0].strip())
        if alias:
            short[alias] = mine
    return other, ours, short


def moved(path, text):
    """The names of MOVED that this file has, itself or by an import."""
    out = []
    for at, names in MOVED.items():
        module = "Rattle." + at[:-5].replace("/", ".")
        for line in text.split("\n"):
            m = USE.match(line)
            if m and m.group(1) == module and m.group(2):
                out += [n for n in names if n in re.split(r"\s*,\s*", m.group(2).strip())]
        if path.endswith("/crates/" + at) or path == "./crates/" + at:
            out += names
    return out


def is_goal(line):
    return bool(re.search(r":\s*(tie|goal)\.", line))


def declared(path, text):
    out = set()
    for line in text.split("\n"):
        if line.lstrip().startswith("--"):
            continue
        m = DECLARED.match(line)
        if m and not is_goal(line) and not m.group(1).endswith("-spec") and m.group(1) not in ("let", "in", "where"):
            out.add(m.group(1))
    return out


def turn(text, names, kebab):
    def one(m):
        w = m.group(0)
        n = names.get(w)
        if w in LAWS and m.start() and text[m.start() - 1] == ".":
            # a step of a function, or a field
            return snake(w)
        return w if n is None or (not kebab and "-" in w) else n

    return WORD.sub(one, text)


def main():
    top, dry = ".", "--dry" in sys.argv
    own = {l.split(":")[0].split()[0] for l in open(os.path.join(top, "crates.txt")) if l.strip() and not l.startswith("#")}
    texts = {p: open(p, encoding="utf-8").read() for p in files(top)}
    shared, local, other = collections.defaultdict(set), {}, set()
    for p, t in texts.items():
        if p.endswith(".antt"):
            local[p] = declared(p, t)
            if not p.endswith("Proof.antt"):
                for n in local[p]:
                    shared[n].add(p)
        other |= imports(t, own)[0]
    turned = {n: law(n) if n in LAWS else snake(n) for n in shared if n in LAWS or snake(n) != n}
    said = []
    for p, t in sorted(texts.items()):
        outside, ours, short = imports(t, own)
        names = dict(turned)
        names.update({a: snake(a) for a in short if snake(a) != a})
        names.update({n: law(n) if n in LAWS else snake(n) for n in local.get(p, ()) if n in LAWS or snake(n) != n})
        names.update({n: law(n) for n in moved(p, t)})
        names.update({n: snake(n) for n in PARAMETERS})
        for n in list(names):
            # a name that this file has from elsewhere, and not from a crate of the repository
            if n in outside and n not in ours and n not in local.get(p, ()):
                del names[n]
        words = set(WORD.findall(t))
        for n, to in names.items():
            if n in words and to in words and n != to:
                said.append(f"{p}: {n} and {to}")
        if dry:
            continue
        if p.endswith(".antt"):
            lines = []
            for line in t.split("\n"):
                code, dash, comment = line.partition("--") if line.lstrip().startswith("--") else (line, "", "")
                comment = re.sub(r"`[^`]*`", lambda m: turn(m.group(0), names, True), comment)
                comment = turn(comment, names, "proofs/" in comment)
                if dash:
                    comment = re.sub(r"(?<=theorem )\S+", lambda m: turn(m.group(0), names, True), comment)
                lines.append(turn(code, names, True) + dash + comment)
            new = "\n".join(lines)
        else:
            lines = []
            ghost = False
            for line in t.split("\n"):
                bare = line.strip()
                if bare.startswith("//"):
                    line = re.sub(r"`[^`]*`", lambda m: turn(m.group(0), names, True), line)
                    line = turn(line, names, "proofs/" in line)
                else:
                    line = turn(line, names, bool(re.match(r"(ghost|requires|ensures)\b", bare)))
                lines.append(line)
            new = "\n".join(lines)
        if new != t:
            with open(p, "w", encoding="utf-8") as f:
                f.write(new)
    for s in said:
        print("fall together?", s)
    print(len(turned), "names")


main()
