#!/usr/bin/env python3
"""Spells the repository's own definitions and lemmas as today's Rattle spells names.

usage: python3 tools/spell.py [FOLDER]      FOLDER: the top of the repository (this one, if none is given)

Run it once, after the kit's own script for older repositories. Words go into snake case, types and facts into camel
case: `of-journal` becomes `of_journal`, and `Comes-to` becomes `ComesTo`. A dash stays where it joins the names of two
functions, as in `length-recorded`, and in the names of goals and loops, which the check makes. It writes the files of
specs/, proofs/ and src/ below crates/, and prints each name that it turned. It stops, and writes nothing, where two names
would become one, or where a new name is already in a file that has the old one.
"""

import os
import re
import sys

# Lemmas that are named by two functions: the dash between the two stays.
JOINED = {
    "admits-admitted": "admits-admitted",
    "history-append": "history-append",
    "history-from-append": "history_from-append",
    "length-decimal-20": "length-decimal_20",
    "length-decimal-more": "length-decimal_more",
    "length-recorded": "length-recorded",
    "putMid-written": "put_mid-written",
    "written-paste": "written-paste",
    "written-written": "written-written",
}

# What stands at a name's left end where it is declared: a definition, a record, a constructor, a field or a helper.
DECLARED = re.compile(r"^\s*(?:(?:abbrev|unfoldable|pub|record|data|ruleset)\s+)*([^\s:(){},;.=|]+)(?:\s+[({].*)?\s*:(?:\s|$)(.*)")
LET = re.compile(r"\blet\s+([^\s:(){},;.=|]+-[^\s:(){},;.=|]+)\s+[:=]")
NAME = r"[\w'◌]"


def files(top):
    for folder, inner, names in os.walk(os.path.join(top, "crates")):
        inner[:] = sorted(f for f in inner if f not in ("out", "must-fail", ".git"))
        for name in sorted(names):
            if name.endswith((".antt", ".rt")):
                yield os.path.join(folder, name)


def declared(path, text):
    """The names that a file declares, but for those of goals, which the check makes."""
    if not path.endswith(".antt"):
        return
    for line in text.splitlines():
        if line.lstrip().startswith("--"):
            continue
        m = DECLARED.match(line)
        if m and not m.group(2).startswith("goal."):
            yield m.group(1)
        yield from LET.findall(line)


def respelled(name):
    if name in JOINED:
        return JOINED[name]
    parts = name.split("-")
    if name[0].isupper():
        return "".join(p[:1].upper() + p[1:] for p in parts)
    return "_".join(parts)


def main(argv):
    top = argv[0] if argv else os.path.join(os.path.dirname(os.path.abspath(__file__)), "..")
    texts = {}
    for path in files(top):
        with open(path, encoding="utf-8") as f:
            texts[path] = f.read()
    names = {}
    for path, text in texts.items():
        for name in declared(path, text):
            if "-" in name and re.search(r"\w-\w", name) and not name.startswith(("-", "goal")):
                names[name] = respelled(name)
    names = {old: new for old, new in names.items() if old != new}
    bad = []
    into = {}
    for old, new in sorted(names.items()):
        if into.setdefault(new, old) != old:
            bad.append(f"{old} and {into[new]} would both be {new}")
    one = re.compile(rf"(?<!{NAME})(?<!{NAME}-)(" + "|".join(re.escape(n) for n in sorted(names, key=len, reverse=True)) + rf")(?!-?{NAME})")
    for path, text in texts.items():
        # A function of src/ may have the name of a definition, as many have already.
        for old in set(one.findall(text)) if path.endswith(".antt") else ():
            if re.search(rf"(?<![-\w'.:]){re.escape(names[old])}(?![\w'-])", text):
                bad.append(f"{os.path.relpath(path, top)}: {old} would be {names[old]}, which stands there already")
    if bad:
        print("\n".join(sorted(bad)))
        return 1
    for path, text in texts.items():
        turned = one.sub(lambda m: names[m.group(1)], text)
        if turned != text:
            with open(path, "w", encoding="utf-8") as f:
                f.write(turned)
    for old, new in sorted(names.items()):
        print(f"{old} {new}")
    return 0


if __name__ == "__main__":
    raise SystemExit(main(sys.argv[1:]))
