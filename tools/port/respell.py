#!/usr/bin/env python3
"""Spells the definitions and lemmas of this repository in snake case, where the kit's port.py left them in camel case.

usage: tools/port/respell.py [--check]     at the top of the repository, after port.py

A name of specs/ or proofs/ that begins with a small letter and has a capital behind a small letter or a digit gets an underscore there and
a small letter: `blockBit` is `block_bit`, `placeFrom-add` is `place_from-add`. A field of a record and a definition get underscores for dashes:
`any-cutting` is `any_cutting`. In a lemma's name a dash joins two names, and stays. Types, facts and modules keep their capitals. It turns
whole words: in .antt files, in clauses and comments of .rt files, in must-fail edits and in pages. A Rust function may have the name of the
definition that it computes. Where a new name stands already for something else of specs/ or proofs/, it says so and turns nothing.
"""

import collections
import os
import re
import sys

WORD = re.compile(r'[^\s(){}.;,@"«»`]+')
CAMEL = re.compile(r"(?<=[a-z0-9])[A-Z]")
# Names that a definition's new name would meet, each in its own file alone: they give way first.
GIVE_WAY = [
    ("crates/receiving/proofs/States.antt", "is_state", "is_state_lem"),
    ("crates/receiving/proofs/Fed.antt", "is_state", "is_state_lem"),
    ("crates/card/proofs/Cutting.antt", "is_state", "is_state_lem"),
    ("crates/card/proofs/Edges.antt", "is_state", "is_state_lem"),
    ("crates/outer/proofs/solution/solved/Proof.antt", "kept_byte", "kept_byte_lem"),
    ("crates/profile/proofs/RoundTrip.antt", "read_as", "value_read"),
    ("crates/adding/proofs/Agreement.antt", "same_bits", "same_bits_lem"),
    ("crates/hearing/proofs/Reading.antt", "read_as", "slot_read"),
    ("crates/hearing/proofs/read_slot/Proof.antt", "read_as", "slot_read"),
]


def files():
    for folder, dirs, names in os.walk("."):
        dirs[:] = sorted(d for d in dirs if d not in ("out", "target", ".git"))
        for name in sorted(names):
            path = os.path.join(folder, name)
            if os.path.islink(path):
                continue
            if name.endswith((".antt", ".rt", ".edit")) or name.endswith(".md") and not name.startswith("PORT"):
                yield path


def antt_words(text):
    return WORD.findall(re.sub(r"--[^\n]*", "", text))


def snake(word):
    return CAMEL.sub(lambda m: "_" + m[0].lower(), word)


def declared(text):
    """What a file declares: its fields and definitions, and its lemmas."""
    text = re.sub(r"--[^\n]*", "", text)
    fields, others = set(), set()
    lines = text.split("\n")
    in_record = False
    marked = ""
    for line in lines:
        if re.match(r" *(pub )?record .*where *$", line):
            in_record = True
            continue
        m = re.match(r"( *)((?:(?:pub|abbrev|unfoldable) )*)([^\s(){}.;,@\"«»:=]+)(?: \{[^{}\n]*\})* :", line)
        if in_record and line.strip() and not line.startswith(" "):
            in_record = False
        if not m or m[3] in ("let", "use", "module"):
            continue
        if in_record and "pub" in m[2] or "abbrev" in m[2] or "unfoldable" in m[2]:
            fields.add(m[3])
        else:
            others.add(m[3])
    return fields, others


def main():
    texts = {}
    for path in files():
        with open(path, encoding="utf-8") as f:
            texts[path] = f.read()
    for path, old, new in GIVE_WAY:
        path = "./" + path
        if path not in texts:
            continue
        texts[path] = WORD.sub(lambda m: new if m[0] == old else m[0], texts[path])
    words = collections.Counter()
    fields, lemmas = set(), set()
    for path, text in texts.items():
        if path.endswith(".antt"):
            words.update(antt_words(text))
            if not path.endswith("/Proof.antt"):
                f, o = declared(text)
                fields |= f
                lemmas |= o
    rows = {w: snake(w) for w in words if re.match(r"[a-z]", w) and any(CAMEL.search(part) for part in w.split("-") if part[:1].islower())}
    for w in fields:
        if "-" in w and re.match(r"[a-z]", w):
            rows[w] = snake(w).replace("-", "_")
    met = sorted(f"{old} {new}" for old, new in rows.items() if new in fields or new in lemmas)
    back = collections.defaultdict(list)
    for old, new in rows.items():
        back[new].append(old)
    met += sorted(f"{' '.join(olds)} {new}" for new, olds in back.items() if len(olds) > 1)
    if met:
        print("these would meet a name that is there already:", *met, sep="\n  ")
        return 1
    changed = 0
    for path, text in texts.items():
        new = WORD.sub(lambda m: rows.get(m[0], m[0]), text)
        with open(path, encoding="utf-8") as f:
            old = f.read()
        if new != old:
            changed += 1
            if "--check" not in sys.argv:
                with open(path, "w", encoding="utf-8") as f:
                    f.write(new)
    print(f"{len(rows)} names, {changed} files")
    if "--check" in sys.argv:
        print(*(f"{old}\t{new}" for old, new in sorted(rows.items())), sep="\n")
    return 0


sys.exit(main())
