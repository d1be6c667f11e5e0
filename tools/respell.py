#!/usr/bin/env python3
"""Spells the definitions, lemmas and fields of this repository as today's Rattle does: `hasDigit` and `next-digit` become `has_digit` and
`next_digit`. Run once, at the top of the repository, after port.py. Functions of src/, strings and outputs keep their names.

usage: tools/respell.py [--dry]
"""
import collections
import glob
import re
import sys

WORD = r'[^\s(){}.;,@"«»]+'
DECLARED = re.compile(r"( *)((?:unfoldable |abbrev |pub |data |record |mutual )*)(%s)((?: \{[^{}\n]*\})*) :(?: |$)" % WORD)
# Names that plain underscores would spell badly.
GIVEN = {
    "leZ-refl": "le_z_refl",
    "leZ-trans": "le_z_trans",
    "leZ-plus": "le_z_plus",
    "leZ-more": "le_z_more",
    "leZ-rise": "le_z_rise",
    "leZ-down": "le_z_down",
    "leZ-degrees": "le_z_degrees",
}
# Names that port.py spelled as a definition's new name: the file or folder, the name there, its name now.
FIRST = [
    ("crates/theorems/specs/WholeCounts.antt", "low-byte", "is_low_byte"),
    ("crates/theorems/specs/WholeCounts.antt", "high_byte", "is_high_byte"),
    ("crates/spoken/specs/", "read_byte", "read_byte_lem"),
    ("crates/spoken/specs/", "read_answer", "read_answer_lem"),
]


def spelled(name):
    if name in GIVEN:
        return GIVEN[name]
    words = re.sub(r"(?<=[a-z0-9])[A-Z]", lambda m: "_" + m[0].lower(), name) if not name[:1].isupper() else name
    return words.replace("-", "_")


def declared():
    """The names of specs/ and of lemma files, and which of them are fields."""
    names, fields = {}, set()
    for path in sorted(glob.glob("crates/*/specs/**/*.antt", recursive=True) + glob.glob("crates/*/proofs/*.antt")):
        record = False
        for line in open(path, encoding="utf-8"):
            if re.match(r"\S", line):
                record = bool(re.match(r"(?:pub )?record ", line))
            m = DECLARED.match(line)
            if m and ("-" in m[3] or re.search(r"[a-z0-9][A-Z]", m[3])) and not m[3].startswith("Is") and re.match(r"[A-Za-z]", m[3]):
                if m[3][0].isupper() and "-" not in m[3]:
                    continue
                names[m[3]] = spelled(m[3])
                if record and m[1]:
                    fields.add(m[3])
    return names, fields


def turn_code(text, names, fields, labels):
    """Every whole word; behind a dot only fields, where labels that Rattle makes may stand there."""

    def one(m):
        w = m[0]
        if w not in names:
            return w
        if labels and m.start() and text[m.start() - 1] == "." and w not in fields:
            return w
        return names[w]

    return re.sub(WORD, one, text)


def turn_antt(text, names, fields, labels):
    out = []
    for line in text.split("\n"):
        at = re.search(r"(?<![^\s(){}.;,])--(?: |$)", line)
        code, comment = (line[: at.start()], line[at.start() :]) if at else (line, "")
        comment = re.sub(r"`[^`]*`", lambda m: turn_code(m[0], names, fields, labels), comment)
        comment = re.sub(r"[a-z0-9]+[A-Z]\w*", lambda m: names.get(m[0], m[0]), comment)
        out.append(turn_code(code, names, fields, labels) + comment)
    return "\n".join(out)


def turn_rt(text, names, fields):
    def turned(m):
        return turn_code(m[0], names, fields, False)

    text = re.sub(r"(?m)^ghost use [^;]*;", turned, text)
    return re.sub(r"(?m)^( *)(?:ensures|requires|ghost)\b[^\n]*\{[^\n]*\}$", turned, text)


def main():
    for place, old, new in FIRST:
        for path in glob.glob(place + "*" if place.endswith("/") else place):
            text = open(path, encoding="utf-8").read()
            made = re.sub(WORD, lambda m: new if m[0] == old else m[0], text)
            if made != text and "--dry" not in sys.argv:
                open(path, "w", encoding="utf-8").write(made)
    names, fields = declared()
    antt = sorted(glob.glob("crates/*/specs/**/*.antt", recursive=True) + glob.glob("crates/*/proofs/**/*.antt", recursive=True))
    words = collections.defaultdict(set)
    for path in antt + sorted(glob.glob("crates/*/src/*.rt")):
        for w in re.findall(WORD, open(path, encoding="utf-8").read()):
            words[w].add(path)
    # A lemma that would have a definition's or a function's name gets `_lem`.
    made = collections.Counter(names.values())
    for old, new in sorted(names.items()):
        if "-" in old and not old[0].isupper() and (made[new] > 1 or any(p.endswith(".antt") for p in words.get(new, ()))):
            names[old] = new + "_lem"
            print(f"{old} is now {new}_lem")
    made = collections.Counter(names.values())
    for old, new in sorted(names.items()):
        if made[new] > 1:
            print(f"falls together: {old} as {new}")
        for path in sorted(words.get(new, ())):
            if path.endswith(".antt") and "/specs/" in path:
                print(f"stands already: {new} (of {old}) in {path}" + (" beside it" if path in words[old] else ""))
    if "--dry" in sys.argv:
        print(len(names), "names")
        return
    for path in antt + sorted(glob.glob("crates/*/src/*.rt")):
        text = open(path, encoding="utf-8").read()
        if path.endswith(".rt"):
            new = turn_rt(text, names, fields)
        else:
            new = turn_antt(text, names, fields, bool(re.search(r"/proofs/[^/]+/", path)))
        if new != text:
            open(path, "w", encoding="utf-8").write(new)


main()
