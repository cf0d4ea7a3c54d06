#!/usr/bin/env python3
"""Respells this repository's own names: `declarationsIn` becomes `declarations_in`, and `first-least` becomes `first_least`.

usage: python3 tools/respell.py [--look] [FOLDER]

Run once, after port.py, at the top of the repository. It turns

- each word in camel case that begins with a small letter, in the .rt and .antt files of crates/ and in must-fail edits, in comments too,
  and leaves strings alone. No library of Rattle's has such a word, so each is our own;
- each name of names.txt, beside this file, in .antt files: a line has the old name, the new one, and `field` for a field or a
  constructor. A dash stays in a lemma's name only where it joins two names that stand in its statement, as in `bit-inverted`;
- names of modules, as in `use .. as open-field-reads`.

LEMMAS, and `_lem` in names.txt, are for lemmas that would fall together with another name. --look lists where the new spelling of a word
in camel case already stands in the same file, and writes nothing.
"""

import os
import re
import sys

WORD = re.compile(r"(?<![A-Za-z0-9_])[a-z][a-z0-9]*(?:[A-Z][a-z0-9]*)+(?![A-Za-z0-9_])")
TOKEN = re.compile(r"[^\s(){}.;,@\"«»\[\]\\]+")
STRING = re.compile(r'b?"(?:[^"\\\n]|\\.)*"|\'[^\'\s]\'')

# Lemmas, by the file of proofs/ that has them, whose names a definition takes in its new spelling: each gets `_lem` after it.
LEMMAS = {
    "AllBytesLaws": ["four_bytes"],
    "AnswerLaws": ["one_answer"],
    "CellBytes": ["cell_in"],
    "DeclarationLaws": ["name_in"],
    "DeclarationTests": ["no_name", "other_byte"],
    "EachField": ["one_more"],
    "FieldLaws": ["fixed_then"],
    "ListedRight": ["no_cell", "no_name"],
    "LongInput": ["too_long"],
    "Merging": ["same_operand"],
    "NetlistBytes": ["in_cells"],
    "PlacedParts": ["part_bytes"],
    "StatementBytes": ["after_items"],
    "TreeAnswers": ["in_order"],
    "WidthLaws": ["one_width", "ones_below"],
}


def spelled(word):
    return re.sub(r"(?<!^)([A-Z])", lambda m: "_" + m.group(1).lower(), word)


def to_rename(root):
    """LEMMAS, without those that have their new name already."""
    out = {}
    for path in files(root):
        stem = os.path.splitext(os.path.basename(path))[0]
        if stem in LEMMAS and path.endswith("/proofs/" + stem + ".antt"):
            with open(path, encoding="utf-8") as f:
                text = f.read()
            out.setdefault(stem, []).extend(n for n in LEMMAS[stem] if n + "_lem" not in text)
    return out


def lemmas_renamed(path, text, lemmas):
    own = os.path.splitext(os.path.basename(path))[0]
    for stem, names in lemmas.items():
        if not (own == stem and "/proofs/" in path) and not re.search(r"\.proofs\." + stem + r"\.\{", text):
            continue
        for name in names:
            text = re.sub(r"(?<![\w.-])" + name + r"(?![\w-])", name + "_lem", text)
    return text


def turned(text):
    out, at = [], 0
    for s in STRING.finditer(text):
        out.append(WORD.sub(lambda m: spelled(m.group()), text[at : s.start()]))
        out.append(s.group())
        at = s.end()
    out.append(WORD.sub(lambda m: spelled(m.group()), text[at:]))
    return "".join(out)


def table():
    with open(os.path.join(os.path.dirname(os.path.realpath(__file__)), "names.txt"), encoding="utf-8") as f:
        rows = [line.split() for line in f]
    return {r[0]: r[1] for r in rows}, {r[0] for r in rows if len(r) > 2}


def dashes(text, names, fields):
    """Each name of the table; after a dot only fields, and a theorem after the name of its module. What a let binds keeps its name."""
    own = set(re.findall(r"\blet ([^\s:]+)", text)) - fields
    own -= set(re.findall(r"[^\s{},]+", " ".join(re.findall(r"(?m)^use [^{\n]*\{([^}]*)\}", text))))
    out, at = [], 0
    for m in TOKEN.finditer(text):
        word = m.group()
        if word not in names or word in own:
            continue
        comment = text.rfind("--", text.rfind("\n", 0, m.start()) + 1, m.start())
        if comment >= 0 and text.count("`", comment, m.start()) % 2 == 0:
            continue  # a word of a comment, unless it stands in backticks
        before = text[at : m.start()]
        if m.start() and text[m.start() - 1] == "." and word not in fields and not text[: m.start()].endswith("definitions."):
            continue
        out.append(before + names[word])
        at = m.end()
    return "".join(out) + text[at:]


def modules(text):
    for name in set(re.findall(r"(?m)^(?:ghost )?use [^{\n]* as ([a-z_]+(?:-[a-z_]+)+);?$", text)):
        text = re.sub(r"(?<![\w.-])" + name + r"(?![\w-])", name.replace("-", "_"), text)
    return text


def files(root):
    for folder, dirs, names in os.walk(os.path.join(root, "crates")):
        dirs[:] = sorted(d for d in dirs if d != "out")
        for name in sorted(names):
            if name.endswith((".rt", ".antt", ".edit")):
                yield os.path.join(folder, name)


def look(path, text):
    words = set(WORD.findall(text))
    for w in sorted(words):
        new = spelled(w)
        n = len(re.findall(r"(?<![\w])" + re.escape(new) + r"(?![\w])", text))
        if n:
            print(f"{path}: {w} -> {new}, which stands there {n} times")


def main(argv):
    looking = "--look" in argv
    rest = [a for a in argv if a != "--look"]
    root = rest[0] if rest else "."
    names, fields = table()
    lemmas = to_rename(root)
    for path in files(root):
        with open(path, encoding="utf-8") as f:
            text = f.read()
        if looking:
            look(path, text)
            continue
        new = turned(lemmas_renamed(path, text, lemmas) if path.endswith(".antt") else text)
        if not path.endswith(".edit"):
            new = modules(dashes(new, names, fields) if path.endswith(".antt") else new)
        if new != text:
            with open(path, "w", encoding="utf-8") as f:
                f.write(new)


if __name__ == "__main__":
    main(sys.argv[1:])
