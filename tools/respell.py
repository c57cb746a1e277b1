#!/usr/bin/env python3
"""Respells this repository's own definitions and lemmas: words in snake case, types and facts in camel case.

    python3 tools/respell.py [--list]

Run once, at the top of a tree that the kit's script port.py has turned. A name of specs/ or proofs/ that is written with a
dash is respelled wherever antt reads it: in specs/, in proofs/, and in the clauses and ghost lines of src/. Texts,
comments, the names of goals and what Rattle makes itself stay as they are. --list prints the names and changes nothing.
"""

import collections
import pathlib
import re
import sys

# Variables of definitions and proofs; what is declared is found by itself.
VARIABLES = """at-end behind-stop lots-few money-little none-better order-places passed-from that-one trade-places
whole-read whole-text in-purchase in-word""".split()

# A field that port.py left where a variable of the code has the new name.
FIELDS = {"all-read"}

# Names in which a letter stood for the type.
LETTERED = {"sumZ": "sum_ℤ", "decides-leZ": "decides_le_ℤ"}

DECLARED = re.compile(r"^\s*(?:abbrev |unfoldable )?(?:pub )?([^\s(){}=:.,]+) *: *(.*)$", re.M)
HEADED = re.compile(r"^\s*(?:pub )?(?:data|record|module) +(?:pub )?([^\s(){}=:]+)", re.M)
RENAMED = re.compile(r"\bas ([A-Za-z][\w'-]*-[\w'-]*)")
FIELD = re.compile(r"^  pub ([^\s(){}=:.,]+) *: ", re.M)
WORD = r"[\w'′ℕℤ-]"
# A text, a comment (a line's own or behind code), or a name with what stands just before it.
PIECE = re.compile(r'"(?:[^"\\\n]|\\.)*"|(?m:^\s*--[^\n]*)|//[^\n]*|(?<!' + WORD + r")([.]?)([A-Za-z]" + WORD + r"*)")


def respelled(name):
    if name in LETTERED:
        return LETTERED[name]
    for old, new in (("sumZ-", "sum_ℤ-"),):
        if name.startswith(old):
            name = new + name[len(old):]
    if name[0].isupper():
        first, *rest = name.split("-")
        return first + "".join(part[:1].upper() + part[1:] for part in rest)
    return name.replace("-", "_")


def sources(top):
    found = []
    for folder in ("specs", "proofs", "src"):
        for suffix in ("antt", "rt"):
            found += sorted(top.glob(f"crates/*/{folder}/**/*.{suffix}"))
    return [path for path in found if path.is_file()]


def own_names(paths):
    """The names to respell, and which of them are fields, so that they may stand behind a dot."""
    names, fields = set(VARIABLES) | set(LETTERED) | FIELDS, set(FIELDS)
    for path in paths:
        text = path.read_text()
        if path.suffix == ".antt":
            for found in DECLARED.finditer(text):
                if not found.group(2).startswith("goal."):
                    names.add(found.group(1))
            names.update(HEADED.findall(text))
            if path.parts[-2] == "specs" or "record" in text:
                fields.update(FIELD.findall(text))
        names.update(RENAMED.findall(text))
    wanted = {name for name in names if "-" in name or name in LETTERED}
    return wanted, fields & wanted


def turned(text, names, fields):
    def piece(found):
        dot, name = found.group(1), found.group(2)
        if name is None or name not in names or (dot and name not in fields):
            return found.group(0)
        return dot + respelled(name)

    return PIECE.sub(piece, text)


def main():
    top = pathlib.Path(__file__).resolve().parent.parent
    paths = sources(top)
    names, fields = own_names(paths)
    together = collections.defaultdict(list)
    for name in sorted(names):
        together[respelled(name)].append(name)
    texts = {path: path.read_text() for path in paths}
    for new, old in together.items():
        if len(old) > 1:
            sys.exit(f"respell: {' and '.join(old)} would both be {new}")
    taken = {found.group(1) for path, text in texts.items() if path.suffix == ".antt" for found in DECLARED.finditer(text)}
    for new, old in together.items():
        if new in taken and old[0] not in FIELDS:
            sys.exit(f"respell: there is a {new} already")
    if "--list" in sys.argv:
        for name in sorted(names):
            print(name, respelled(name))
        return
    changed = 0
    for path, text in texts.items():
        new = turned(text, names, fields)
        if new != text:
            path.write_text(new)
            changed += 1
    print(f"respell: {len(names)} names in {changed} files")


main()
