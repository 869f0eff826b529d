#!/usr/bin/env python3
"""Counts the places of docs/DESIGN-PASS.md in the sources of the crates: where the code reads like the older language.

usage: tools/places.py [POINT ..]          the counts of these points (1 to 8; without any: of all), for the files as they are
       tools/places.py --at COMMIT ..      the same for the files of a commit
       tools/places.py --list ..           each place as well, with its file and line

It goes by patterns, and judges nothing: what is counted and has to stay is said in docs/DESIGN-PASS.md, and so is what no pattern finds.
"""

import collections
import re
import subprocess
import sys

FN = re.compile(r'^( *)(?:pub(?:\(\w+\))? )?(?:extern "C" )?fn (\w+)(?:<[^(]*>)?\((.*?)\)(?: -> ([^\n{]*?))?\n?((?:\n* *(?:where|requires|ensures)[^\n]*)*)\n?\1?\{\n(.*?)\n\1\}$', re.M | re.S)


def sources(commit, end):
    """The files below crates/*/src (or, for proofs, crates/*/proofs), by name."""
    if commit:
        names = subprocess.run(["git", "ls-tree", "-r", "--name-only", commit, "crates"], check=True, capture_output=True, text=True).stdout.split()
    else:
        names = subprocess.run(["git", "ls-files", "-co", "--exclude-standard", "crates"], check=True, capture_output=True, text=True).stdout.split()
    files = {}
    for name in sorted(set(names)):
        if not name.endswith(end) or (end == ".rt" and "/src/" not in name) or (end == ".antt" and "/proofs/" not in name):
            continue
        if commit:
            files[name] = subprocess.run(["git", "show", f"{commit}:{name}"], check=True, capture_output=True, text=True).stdout
        else:
            try:
                files[name] = open(name, encoding="utf-8").read()
            except FileNotFoundError:
                continue
    return files


def bare(text):
    """The text with comments and ghost imports blanked, line by line."""
    return "\n".join("" if line.startswith("ghost use") else re.sub(r"//.*", "", line) for line in text.split("\n"))


def matches(files, patterns):
    for name, text in files.items():
        code = bare(text)
        for what, pattern in patterns:
            for m in re.finditer(pattern, code, re.M):
                yield f"{name}:{code.count(chr(10), 0, m.start()) + 1}", what


def functions(files):
    for name, text in files.items():
        code = bare(text)
        for m in FN.finditer(code):
            yield f"{name}:{code.count(chr(10), 0, m.start()) + 1}", m


def point_1(files):
    """A flag or a refusal's number beside a value, an enum that is an Option or a Result, a number for a kind or a refusal."""
    yield from matches(files, [
        ("flag or number beside a value", r"^ +(?:pub )?(?:found|listed|seated|leads|going|number): (?:bool|u8),"),
        ("enum like Option or Result", r"^ +Refused\((?:u8, u16|Refusal)\),"),
        ("a refusal by its number", r"\b(?:refused|refusal|refusing|Refused)\([1-9]\d*,|\bnumber: [1-9]\d*,|return (?:5|6|10|11|12);"),
        ("a number for a kind", r"\b(?:comparison|kind|wanted|rule|known): u8\b|-> u8\n(?= *(?:requires[^\n]*\n)? *ensures \{ result ≡ (?:kind|broken_rule|refusal|mark))"),
    ])
    for place, m in functions(files):
        if re.search(r"-> u(?:8|16)$", "-> " + (m[4] or "")) and re.search(r"^ *0$", m[6], re.M) and re.search(r"return \(?i \+", m[6]):
            yield place, "0 for none"


def point_2(files):
    """Functions whose code is the same but for names, types and numbers: of each group all but one."""
    groups = collections.defaultdict(list)
    for place, m in functions(files):
        words = {}
        text = []
        for token in re.findall(r"\w+|\S", m[6]):
            if re.match(r"[A-Za-z_]\w*$", token) and token not in {"let", "mut", "while", "for", "in", "if", "else", "return", "match", "true", "false", "self", "as"}:
                token = f"w{words.setdefault(token, len(words))}"
            elif token.isdigit():
                token = "0"
            text.append(token)
        if len(text) > 12:
            groups[" ".join(text)].append((place, m[2]))
    for same in groups.values():
        for place, name in same[1:]:
            yield place, f"{name}, like {same[0][1]}"


def point_3(files):
    """Loops that count an index by hand: a `while` whose condition names what a line of its body counts."""
    for name, text in files.items():
        lines = bare(text).split("\n")
        for i, line in enumerate(lines):
            m = re.match(r"( *)while (.*) \{$", line)
            if m and not m[2].startswith("let "):
                body = []
                for later in lines[i + 1:]:
                    if later == m[1] + "}":
                        break
                    body.append(later)
                counted = {w for l in body for w in re.findall(r"^ *(\w+) [+-]= (?:1|size|more);", l)}
                if counted & set(re.findall(r"\w+", m[2])):
                    yield f"{name}:{i + 1}", f"while {m[2]}"


def point_4(files):
    """Order, copying, conversion and printing by hand."""
    yield from matches(files, [
        ("the same name twice", r"^ +(\w+): \1,$"),
        ("bytes put together or taken apart", r"\* 256\b|/ 256\b|% 256\b"),
        ("copied or filled one by one", r"^ +\w+\[\w+\] = (?:\w+\[\w+\](?: as u\d+)?|0);"),
        ("the greater or the lesser", r"if (\w+) < (\w+) \{\n +return (?:\1|\2);\n +\}\n +(?:\1|\2)\n"),
        ("matched through a local", r"let (\w+) = \w+\.\w+;\n +match \1 \{"),
        ("a digit by hand", r"48 \+ |% 10\b"),
    ])


def contracts(files):
    for place, m in functions(files):
        for fact in re.findall(r"requires(?: \w+)? \{ (.*) \}$", m[5], re.M):
            yield place, fact


def point_5(files):
    """A fact that three or more functions ask for; parameters that three or more functions take together."""
    where = collections.defaultdict(list)
    for place, fact in contracts(files):
        where[fact].append(place)
    for fact, places in where.items():
        if len(places) >= 3:
            for place in places:
                yield place, fact
    groups = {"table, head": r"(?:table|file): &\[u8\][^;]*\bhead: Head", "list, clocks, count": r"list: &\[u8\][^;]*\bclocks: Clocks[^;]*\bcount: usize",
              "start, end": r"\bstart: usize,\s*end: usize", "clocks, e": r"\bclocks: Clocks[^;]*\be: Edge"}
    for place, m in functions(files):
        for what, pattern in groups.items():
            if re.search(pattern, m[3], re.S):
                yield place, f"parameters: {what}"


def point_6(files):
    """A buffer with a length beside it, parallel arrays, a search by halves by hand."""
    yield from matches(files, [
        ("nine numbers for a reach", r"\[u32; 9\]"),
        ("a length beside its array", r"^ +(?:pub )?(?:guard_count|size): \w+,|\bsize: usize\b"),
        ("parallel arrays", r"^ +(?:pub )?(?:counts|samples): \["),
        ("by halves", r"while low < high \{"),
    ])


def point_7(files):
    """A parameter that says which step to run."""
    yield from matches(files, [("a switch", r"\bif (?:rule|step|halve|kind|wanted) == \d|\b(?:rule: u8|halve: bool|up: bool)")])


def point_8(files):
    """Lines of proof in functions' folders (Answers, Invariants, Proof)."""
    for name, text in files.items():
        if name.rsplit("/", 1)[1] in ("Answers.antt", "Invariants.antt", "Proof.antt"):
            for i, line in enumerate(text.split("\n")):
                if line.strip() and not line.startswith("use "):
                    yield f"{name}:{i + 1}", line.strip()


def main():
    words = sys.argv[1:]
    commit, listed, points = None, False, []
    while words:
        word = words.pop(0)
        if word == "--at" and words:
            commit = words.pop(0)
        elif word == "--list":
            listed = True
        elif word.isdigit() and 1 <= int(word) <= 8:
            points.append(int(word))
        else:
            sys.exit(__doc__)
    code, proofs = sources(commit, ".rt"), None
    for point in points or range(1, 9):
        if point == 8:
            proofs = sources(commit, ".antt")
        found = list(globals()[f"point_{point}"](proofs if point == 8 else code))
        print(f"point {point}: {len(found)} places{' (lines of proof)' if point == 8 else ''}")
        kinds = collections.Counter(what for _, what in found)
        if point in (1, 4, 6, 7):
            for what, n in kinds.most_common():
                print(f"    {n:4} {what}")
        if listed:
            for place, what in found:
                print(f"    {place}: {what}")


main()
