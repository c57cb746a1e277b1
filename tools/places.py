#!/usr/bin/env python3
"""Lists places in src/ that an older form of the language may have shaped, for docs/DESIGN-PASS.md.

usage: python3 tools/places.py [COMMIT]     the places in the tree of COMMIT, or in the files as they lie

It goes by text and proves nothing: what it lists is read, and the page says what each place is.
"""

import re
import subprocess
import sys
from collections import defaultdict
from pathlib import Path

SOURCES = re.compile(r"^crates/(?!.*_tests/)[a-z_]+/src/.*\.rt$")


def sources(commit):
    """The source files, test crates left out, by name."""
    if commit is None:
        names = [str(p) for p in sorted(Path("crates").glob("*/src/**/*.rt"))]
        return {n: Path(n).read_text() for n in names if SOURCES.match(n)}
    listed = subprocess.run(["git", "ls-tree", "-r", "--name-only", commit], capture_output=True, text=True, check=True)
    names = [n for n in listed.stdout.split("\n") if SOURCES.match(n)]
    return {n: subprocess.run(["git", "show", f"{commit}:{n}"], capture_output=True, text=True, check=True).stdout for n in names}


def lines_with(files, pattern):
    """Each line that the pattern fits, but for comments."""
    fits = re.compile(pattern)
    return [
        f"{name}:{at}: {line.strip()}"
        for name, text in files.items()
        for at, line in enumerate(text.split("\n"), 1)
        if fits.search(line) and not line.lstrip().startswith("//")
    ]


def functions(files):
    """Each function: its place, its clauses and its body."""
    for name, text in files.items():
        for found in re.finditer(r"^( *)(?:pub(?:\(crate\))? )?(?:const )?fn (\w+)(.*?)^\1\}", text, re.M | re.S):
            whole = found.group(3)
            head, _, body = whole.partition("\n" + found.group(1) + "{\n")
            yield f"{name}:{text.count(chr(10), 0, found.start()) + 1}: {found.group(2)}", head, body


def skeleton(body):
    """A body with every name, number and text as one sign."""
    plain = re.sub(r"//.*", "", body)
    return re.sub(r"\s+", " ", re.sub(r'b?"[^"]*"|b?\'.\'|[A-Za-z_][A-Za-z_0-9]*|[0-9][0-9_]*', "x", plain)).strip()


def twins(files):
    """Functions whose bodies differ in names, numbers and texts alone, of three lines or more."""
    groups = defaultdict(list)
    for place, _, body in functions(files):
        if body.count("\n") >= 3:
            groups[skeleton(body)].append(place)
    return [" = ".join(group) for group in groups.values() if len(group) > 1]


def facts(files):
    """Facts that stand in the contracts of three functions or more, whatever values they are said of."""
    stands = defaultdict(set)
    for place, head, _ in functions(files):
        for clause in re.findall(r"(?:requires|ensures)[ a-z_]*\{(.*)\}", head):
            for part in clause.split(" × "):
                stands[re.sub(r"\.(old|new|now)\b", "", re.sub(r"[()]", "", part)).strip()].add(place)
    return [f"{len(places)}: {fact}" for fact, places in sorted(stands.items(), key=lambda s: -len(s[1])) if len(places) >= 3]


def main():
    files = sources(sys.argv[1] if len(sys.argv) > 1 else None)
    enums = [line for line in lines_with(files, r"^\s+(No|Not|Nothing|Neither|Over|Refused|Unreadable|Absent|Missing|Empty)[A-Za-z]*(\(.*\))?,$")]
    sections = [
        ("1, cases that say that there is nothing, or why", enums),
        ("1, numbers for kinds", lines_with(files, r"pub (kind|direction|order_type|ending|phase): u(8|32)|const (FUTURES|SPREAD)\b")),
        ("1, flags beside a value", lines_with(files, r"let mut \w+ = (true|false);|: bool,$")),
        ("2, bodies that differ in names alone", twins(files)),
        ("3, indices counted by hand", lines_with(files, r"for \w+ in [^&]*\.\.|while .*<|\bn \+= 1;")),
        ("4, conversions and numbers by hand", lines_with(files, r"fn (code|from_code|from_row|row_of|number)\(")),
        ("4, equality by hand", lines_with(files, r"fn (is_same|are_both|are_alike|is_trading)\(|Some\((\w+)\), Some\((\w+)\)\) => \w+ == \w+")),
        ("4, texts by hand", lines_with(files, r"fn (message|phase_name|ending_name|fault_words|piece_text)\(")),
        ("4, records of noughts", lines_with(files, r"const (NOUGHTS|NO_ORDER|NO_TRADE)\b|\[Trade \{")),
        ("5, facts in three contracts or more", facts(files)),
        ("6, a length beside its buffer", lines_with(files, r"^\s+(pub(\(crate\))? )?(count|len): usize,")),
        ("7, a step chosen by a case, function values", lines_with(files, r"enum Stop\b|\bdyn\b|: fn\(")),
    ]
    for title, hits in sections:
        print(f"{title}: {len(hits)}")
        for hit in hits:
            print(f"    {hit}")


if __name__ == "__main__":
    main()
