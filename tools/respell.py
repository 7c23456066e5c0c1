#!/usr/bin/env python3
"""Brings the names that this repository defines in antt to one spelling: types in upper camel case, all else in
snake case. A dash stays only where it joins the names of two functions, as in a law of one over the other.

usage: python3 tools/respell.py      at the top of the repository, once; it rewrites files in place

It reads the definitions of crates/*/specs and crates/*/proofs, and turns each of their names wherever it stands: in
specs and proofs, in the contracts of src/, in must-fail edits, and in backquotes in README.md and docs/. It stops,
and writes nothing, where two of these names would fall together.
"""

import glob
import re
import sys

# names of laws, `outer-inner`, and names that the rule alone would spell badly
KEPT = {"length-holding", "take-holding", "length-waiting"}
CHOSEN = {"getD-holding": "get_or-holding", "getD-held": "get_or-held", "S-slow": "s_slow"}

DEFINITION = re.compile(r"^\s*((?:(?:abbrev|unfoldable|pub|record|data) +)*)([^\s:(){}\[\].,;=«»]+)\s*((?:[({][^=]*)?):(.*)$")


def read(path):
    with open(path, encoding="utf-8") as f:
        return f.read()


def defined(paths):
    """The names with a dash that these files define; not the goals that a proof file answers."""
    names = set()
    for path in paths:
        for line in read(path).splitlines():
            m = DEFINITION.match(line)
            if not m or "-" not in m[2] or m[2].startswith("--") or m[4].strip().startswith(("goal.", "given.", "need.")):
                continue
            if m[3] and not re.search(r"record|data", m[1]):
                continue
            names.add(m[2])
    return names


def respelled(name):
    if name in CHOSEN:
        return CHOSEN[name]
    if not name[0].isupper():
        return name.replace("-", "_")
    return "".join(part.capitalize() if part.isupper() else part[0].upper() + part[1:] for part in name.split("-"))


def token(names):
    alternatives = "|".join(re.escape(n) for n in sorted(names, key=len, reverse=True))
    return re.compile(r"(?<![\w?'·-])(?:" + alternatives + r")(?![\w?'·-])")


def main():
    antt = sorted(p for part in ("specs", "proofs") for p in glob.glob(f"crates/*/{part}/**/*.antt", recursive=True))
    names = defined(antt) - KEPT - set(CHOSEN.values())
    if not names:
        print("respell: nothing to do")
        return 0
    new = {n: respelled(n) for n in names}
    whole = "\n".join(map(read, antt))
    taken = set(re.findall(r"^\s*(?:(?:abbrev|unfoldable|pub|record|data) +)*([^\s:(){}\[\].,;=«»]+)\s*:", whole, re.M))
    clash = [f"{a} -> {b}" for a, b in new.items() if b in taken or list(new.values()).count(b) > 1]
    if clash:
        print("respell: these would fall together with another name:", ", ".join(sorted(clash)), file=sys.stderr)
        return 1
    names_in = token(names)
    turn = lambda text: names_in.sub(lambda m: new[m[0]], text)
    files = antt + sorted(glob.glob("crates/*/src/**/*.rt", recursive=True) + glob.glob("crates/*/must-fail/*.edit"))
    pages = sorted(glob.glob("README.md") + glob.glob("docs/*.md"))
    changed = 0
    for path in files + pages:
        old = read(path)
        text = re.sub(r"`[^`\n]+`", lambda m: turn(m[0]), old) if path in pages else turn(old)
        if text != old:
            changed += 1
            with open(path, "w", encoding="utf-8") as f:
                f.write(text)
    print(f"respell: {len(names)} names in {changed} files")
    return 0


if __name__ == "__main__":
    raise SystemExit(main())
