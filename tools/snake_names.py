#!/usr/bin/env python3
"""Brings this repository's own definitions and lemmas to the spelling of today's Rattle: words in snake case.

usage: python3 tools/snake_names.py [--list]      at the top of the repository, once, after port.py

A name that specs/ or proofs/ declares, and a name that a proof binds, has `_` where it had a dash, in every file of
proofs, specs and source. Not touched: names of the library, names that Rattle makes of the code (goals, steps, loops),
functions of src/, strings. A word of a comment is turned where it is such a name: read those. A dash stays where it
joins the names of two operations, as in the library's `mul-add`: KEPT.
It stops, and writes nothing, where two names would fall together. --list prints what it would rename.
"""

import os
import re
import sys

KEPT = set(
    "zero-add unit-mul mul-unit mul-add add-mul zero-mul mul-zero add-zero sum-zero sum-add mul-sum sum-mul length-meanings "
    "two-plus plus-two unit-two two-unit zero-two two-zero zero-plus one-times times-plus zero-times".split()
)

# A name that a function of src/ has already: the lemma of that function, by the ending `_lem`, or what it answers, by `_of`.
OTHER = {n: n.replace("-", "_") + "_lem" for n in "bags-by-counting line-totals one-total outcome-is-single packed-form-exists packed-form-is-unique sound-sheet-is-packed totals-agree working-is-single".split()}
OTHER |= {n: n.replace("-", "_") + "_of" for n in "next-column next-stored".split()}
OTHER["column-at"] = "column_of"

# The function of this name is another crate's, which sees no definition of it.
SEPARATE = {"figure-at"}

LETTER = r"[^\s(){}\[\];,.«»@\"`]"
TOKEN = re.compile(LETTER + "+")
DASHED = re.compile(r"^[A-Za-z][A-Za-z0-9_']*(-[A-Za-z0-9_'∷]+)+$")
SIGNATURE = re.compile(r"^\s*(?:(?:abbrev|unfoldable|pub|data|record)\s+)*(" + LETTER + r"+)\s*(?:[({][^=]*[)}]\s*)?:\s*(.*)$")
MADE = ("loop-", "returns-", "then-", "else-", "if-", "not-", "in_", "invariant-", "decreases-", "overflow", "index-", "ensures-", "ghost-", "bounds-")


def files(root):
    for folder, dirs, names in os.walk(os.path.join(root, "crates")):
        dirs[:] = sorted(d for d in dirs if d != "out")
        for name in sorted(names):
            if name.endswith((".antt", ".rt")):
                yield os.path.join(folder, name)


def code(line):
    """The line without its comment."""
    at = line.find("--")
    while at >= 0 and at and not line[at - 1].isspace():
        at = line.find("--", at + 2)
    return line if at < 0 else line[:at]


def imports(text):
    """The names that a file takes from outside the repository, or from what Rattle makes of its code."""
    found = set()
    for path, names in re.findall(r"^(?:ghost )?use (\S+?)\.\{([^}]*)\}", text, re.M):
        if ".Goals" in path or ".Given" in path or not OWN_PATH.match(path):
            found.update(n.strip().split(" as ")[-1] for n in names.split(","))
    return found


def declared(path, text):
    """The dashed names that a file of specs/ or proofs/ declares, and are no goal of a function."""
    for line in text.splitlines():
        line = code(line)
        if line.startswith("use "):
            continue
        m = SIGNATURE.match(line)
        if m and DASHED.match(m.group(1)) and not m.group(2).startswith("goal."):
            yield m.group(1)


def bound(text, taken):
    """The dashed names that a term binds: by let, by λ, in a pattern, in a parameter list, in a record field's pun."""
    for line in text.splitlines():
        line = code(line)
        if line.startswith("use "):
            continue
        for pattern in (r"\blet ([^=:]*?)[=:]", r"λ ([^.]*?)\.", r"\(([^():]*?) :", r"\{([^{}:]*?) :", r"\[ ?([^\[\]]*?)↦", r"\| ?([^|\[\]]*?)↦"):
            for group in re.findall(pattern, line):
                for t in TOKEN.findall(group):
                    if DASHED.match(t) and t not in taken and not t.startswith(MADE):
                        yield t
        m = re.match(r"^\s*(" + LETTER + r"+)((?: " + LETTER + r"+)+) =(?: |$)", line)
        if m:
            for t in TOKEN.findall(m.group(2)):
                if DASHED.match(t) and t not in taken and not t.startswith(MADE):
                    yield t


def main(argv):
    root = "."
    crates = sorted(os.listdir(os.path.join(root, "crates")))
    global OWN_PATH
    OWN_PATH = re.compile(r"^Rattle\.(?:" + "|".join(crates) + r")\.")
    texts = {p: open(p, encoding="utf-8").read() for p in files(root)}
    own, every = set(), set()
    for p, text in texts.items():
        every.update(TOKEN.findall(text) if p.endswith(".antt") else re.findall(r"fn (\w+)", text))
        if p.endswith(".antt"):
            own.update(declared(p, text))
    own -= KEPT
    turned = {n: OTHER.get(n, n.replace("-", "_")) for n in own}
    clash = sorted(n for n in own if turned[n] in every and n not in SEPARATE)
    edits = {}
    for p, text in texts.items():
        taken = imports(text)
        local = set(bound(text, taken)) - KEPT if p.endswith(".antt") else set()
        names = dict(turned)
        names.update({n: n.replace("-", "_") for n in local if n not in turned})
        here = set(TOKEN.findall(text))
        clash += sorted(f"{n} in {p}" for n in local if n not in turned and names[n] in here)
        names = {n: s for n, s in names.items() if n not in taken}

        def turn(m):
            t = m.group(0)
            before = text[: m.start()]
            if before.endswith("goal."):
                return t
            return names.get(t, t)

        new = text
        if p.endswith(".antt"):
            new = TOKEN.sub(turn, text)
        else:
            # in src/: ghost use lines and clauses alone, where a name with a dash can stand
            new = re.sub(LETTER + r"+-" + LETTER + "+", turn, text)
        edits[p] = (new, local)
    if clash and "--list" not in argv:
        sys.exit("these names would fall together, and nothing was written: " + ", ".join(clash))
    if "--list" in argv:
        print(f"{len(own)} declared names:", " ".join(sorted(own)))
        print("bound:", " ".join(sorted(set().union(*[l for _, l in edits.values()]) - own)))
        print("clash:", " ".join(clash))
        return 0
    for p, (new, _) in edits.items():
        if new != texts[p]:
            with open(p, "w", encoding="utf-8") as f:
                f.write(new)
    return 0


if __name__ == "__main__":
    raise SystemExit(main(sys.argv[1:]))
