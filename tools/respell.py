#!/usr/bin/env python3
"""Spells the repository's own definitions, lemmas and fields, and what these bind, as Rattle does today: in snake case, facts in camel case.

usage: tools/respell.py [FOLDER]         turns the checkout in FOLDER (without one: the one that this file stands in)
       tools/respell.py --names [FOLDER]    lists the names that FOLDER declares, spelled with a dash or with one of Rattle's older words

The names are the rows of respelled.tsv beside this file: the old one, a tab, the new one. It goes by whole words, and turns
  .antt      the code, and what stands between backquotes in a comment
  .rt .edit  the same, but no string
  .md        what stands between backquotes, and lines that are quoted (indented by four blanks); not tester/, whose pages speak of other code, and not
             docs/PORT.md, which tells of the names
A name that Rattle itself makes of the code stays: in a proof of a function the first name behind c, g, v or w. So does, in the whole file, a name that
an item 'use' brings from a library that is not the repository's own.
A second run changes nothing. It proves nothing: `rt check` does.
"""

import os
import re
import sys

HERE = os.path.dirname(os.path.realpath(__file__))
WORD = re.compile(r'[^\s(){}.;,@"«»`\[\]]+')
MADE = re.compile(r"(?<![\w'.)\-])[cgvw]\.$")
PROOFS = {"Answers.antt", "Invariants.antt", "Proof.antt"}
BACKQUOTED = re.compile(r"`[^`\n]*`")
USED = re.compile(r"\buse ([^\s;{}]+)\.\{([^}]*)\}")
DECLARED = re.compile(r'^ *(?:\w+ )*?([^\s(){}.;,@"«»]+)(?: \{[^{}\n]*\})*(?: \([^()\n]*\))* :')


def rows():
    with open(os.path.join(HERE, "respelled.tsv"), encoding="utf-8") as f:
        return dict(line.rstrip("\n").split("\t") for line in f if line.strip())


def turned(text, names, is_proof=False):
    """The text with each whole word that is a row of `names` spelled anew."""

    def word(m):
        new = names.get(m[0])
        return m[0] if new is None or (is_proof and MADE.search(text, max(0, m.start() - 3), m.start())) else new

    return WORD.sub(word, text)


def spans(text, names):
    return BACKQUOTED.sub(lambda m: turned(m[0], names), text)


def code(line, names, comment, is_proof=False):
    """A line of code: strings stay, and of a comment what stands between backquotes is turned."""
    at = line.find(comment)
    body, rest = (line, "") if at < 0 else (line[:at], line[at:])
    parts = re.split(r'("(?:[^"\\]|\\.)*")', body)
    return "".join(p if i % 2 else turned(p, names, is_proof) for i, p in enumerate(parts)) + spans(rest, names)


def lent(text, crates):
    """The names that the items 'use' bring from libraries other than `crates`."""
    for path, items in USED.findall(text):
        steps = path.split(".")
        if steps[0] != "Rattle" or steps[1] not in crates:
            yield from re.split(r"[,\s]+", items)


def respelled(path, text, names):
    name = os.path.basename(path)
    lines = text.split("\n")
    if name.endswith(".antt"):
        return "\n".join(code(line, names, "--", name in PROOFS) for line in lines)
    if name.endswith(".rt"):
        return "\n".join(code(line, names, "//") for line in lines)
    if name.endswith(".edit"):
        return "\n".join(spans(line, names) if line.startswith("#") else code(line, names, "//") for line in lines)
    return "\n".join(turned(line, names) if line.startswith("    ") else spans(line, names) for line in lines)


def files(root):
    for folder, dirs, found in os.walk(root):
        dirs[:] = sorted(d for d in dirs if d not in ("out", "target", "tester", "tools") and not d.startswith("."))
        for name in sorted(found):
            if name.endswith((".antt", ".rt", ".edit", ".md")) and name != "PORT.md":
                yield os.path.join(folder, name)


def declared(root):
    """The names that the definitions and lemmas below `root` declare and that are not spelled as today."""
    names = set()
    for path in files(root):
        if path.endswith(".antt") and os.path.basename(path) not in PROOFS:
            with open(path, encoding="utf-8") as f:
                found = (DECLARED.match(line) for line in f if not line.lstrip().startswith("--"))
                names.update(m[1] for m in found if m and re.search(r"\w-\w|getD", m[1]))
    return sorted(names)


def own_crates(root):
    with open(os.path.join(root, "crates.txt"), encoding="utf-8") as f:
        return set(re.findall(r"(?m)^(\w+)(?: staticlib)?:", f.read()))


def main(words):
    is_list = words[:1] == ["--names"]
    folders = words[1:] if is_list else words
    if len(folders) > 1 or folders[:1] and folders[0].startswith("-"):
        sys.exit(__doc__)
    root = folders[0] if folders else os.path.dirname(HERE)
    if not os.path.isdir(os.path.join(root, "crates")):
        sys.exit(f"respell: no crates/ in {root}")
    if is_list:
        print("\n".join(declared(root)))
        return
    names, crates, changed = rows(), own_crates(root), 0
    for path in files(root):
        with open(path, encoding="utf-8") as f:
            text = f.read()
        staying = set(lent(text, crates))
        new = respelled(path, text, {old: new for old, new in names.items() if old not in staying})
        if new != text:
            changed += 1
            with open(path, "w", encoding="utf-8") as f:
                f.write(new)
    print(f"respell: {len(names)} names, {changed} files changed")


if __name__ == "__main__":
    main(sys.argv[1:])
