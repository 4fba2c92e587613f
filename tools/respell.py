#!/usr/bin/env python3
"""Brings the names of definitions and lemmas to today's spelling: words in snake case.

usage: python3 tools/respell.py    at the top of the repository, once, after the port's own script

Reads which names specs/ and proofs/ define, and writes each in snake case wherever it stands: in specs/, proofs/, clauses of src/,
texts of must-fail edits and the documents. Types and modules keep their capitals, functions of src/ and exported names stay.
A lemma that would have a function's name gets _lem; a dash stays where it joins two functions that the lemma is about.
"""

import glob
import re

# Fields of theorems that would have the name of a function that stands beside them, and names with a number or single letters.
BY_HAND = {
    "atMost8": "is_at_most_8",
    "oneOfAtoD": "one_of_a_to_d",
    "oneOfEtoH": "one_of_e_to_h",
    "refusalsWith99": "refusals_with_99",
    "bonnet-open": "bonnet_open_stop",
    "boot-open": "boot_open_stop",
    "low-severity": "low_severity_stop",
    "is-new": "is_a_new",
}
# A lemma about two of these keeps the dash between them.
FUNCTIONS = {"append", "take", "drop", "replicate", "length", "nat_abs", "splice", "overlay", "encode"}
FUNCTIONS |= {"all_zero", "samples_in", "block_with", "unused_in", "first_samples", "bytes", "bytes_at", "bytes_of", "little", "word"}
NAME = re.compile(r"[^\W\d_][\w'\u2080-\u2089-]*")
DEFINED = re.compile(r"^(?:abbrev |unfoldable )?(?:pub )?(?:(?:record|data|ruleset) )?([^\s(){}:]+)(?: [({].*?)?\s+: ", re.M)
INNER = re.compile(r"^ +(?:abbrev |unfoldable )?(?:pub )?([^\s(){}:]+)(?: [({].*?)?\s+: ", re.M)


def files(*patterns):
    return sorted({f for p in patterns for f in glob.glob(p, recursive=True)})


def snake(name):
    return re.sub(r"([a-z0-9])([A-Z0-9]?[A-Z])", lambda m: m.group(1) + "_" + m.group(2).lower(), name)


def definitions():
    """The names that specs/ and proofs/ define; those of a function's own proof are Rattle's."""
    found = set()
    for f in files("crates/*/specs/**/*.antt", "crates/*/proofs/**/*.antt"):
        if f.endswith(("/Proof.antt", "/Answers.antt", "/Invariants.antt")):
            continue
        text = open(f, encoding="utf-8").read()
        found |= {m.group(1) for m in list(DEFINED.finditer(text)) + list(INNER.finditer(text))}
    return found


def joined(name):
    """The name with a dash between the two functions that it joins, or None."""
    parts = [snake(p) for p in name.split("-")]
    for k in range(1, len(parts)):
        left, right = "_".join(parts[:k]), "_".join(parts[k:])
        if left in FUNCTIONS and right in FUNCTIONS:
            return left + "-" + right
    return None


def renamings():
    found = definitions()
    functions = {n for n in found if "-" not in n and n[:1].islower()}
    taken = {BY_HAND.get(n) or snake(n) for n in functions}
    names = {}
    for n in found:
        if not n[:1].islower():
            continue
        if "-" in n:
            new = BY_HAND.get(n) or joined(n)
            if not new:
                new = snake(n).replace("-", "_")
                if new in taken:
                    new += "_lem"
        else:
            new = BY_HAND.get(n) or snake(n)
        if new != n:
            names[n] = new
    # Two lemmas whose names the port's script turned already, and that would have their functions' names now.
    names |= {snake(n): snake(n) + "_lem" for n in ("sameBytes", "sameRow") if n in found}
    return names


def check(names, found):
    ends = {}
    for n in found:
        ends.setdefault(names.get(n, n), set()).add(n)
    for new, olds in sorted(ends.items()):
        if len(olds) > 1:
            print("these fall together:", new, sorted(olds))


def turned(text, names, loose=(), keep_dashes=False):
    """The text with its names in today's spelling. With loose, the names that are defined: a word that is one of them but for the spelling is turned too."""

    def one(m):
        n = m.group(0)
        if keep_dashes and "-" in n:
            return n
        if n not in names and n not in loose and snake(n).replace("-", "_") in loose:
            return snake(n).replace("-", "_")
        return names.get(n, n)

    # What stands in quotation marks is a string, or words of document 01.
    parts = text.split('"')
    return '"'.join(NAME.sub(one, p) if k % 2 == 0 else p for k, p in enumerate(parts))


def turned_code(line, mark, names, found):
    """A line of code: its comment keeps words with a dash, which may be plain words."""
    code, dashes, comment = line.partition(mark)
    if dashes and not (code == "" or code.endswith(" ")):
        code, dashes, comment = line, "", ""
    return turned(code, names) + dashes + turned(comment, names, found, keep_dashes=True)


def turned_edit(line, names, found):
    if line.startswith("file: "):
        return line
    return turned(line, names, found, keep_dashes=not line.startswith(("old: ", "new: ")))


def turned_page(line, names, found):
    """A line of a document: what stands between backticks."""
    parts = line.split("`")
    return "`".join(turned(p, names, found) if k % 2 == 1 else p for k, p in enumerate(parts))


def main():
    names = renamings()
    found = definitions()
    check(names, found)
    known = {names.get(n, n) for n in found}
    for f in files("crates/*/src/**/*.rt", "crates/*/specs/**/*.antt", "crates/*/proofs/**/*.antt", "crates/*/must-fail/*.edit", "README.md", "docs/*.md"):
        with open(f, encoding="utf-8") as h:
            old = h.read()
        if f.endswith(".antt"):
            turn = lambda line: turned_code(line, "--", names, known)
        elif f.endswith(".rt"):
            turn = lambda line: turned_code(line, "//", names, known)
        elif f.endswith(".edit"):
            turn = lambda line: turned_edit(line, names, known)
        else:
            turn = lambda line: turned_page(line, names, known)
        new = "\n".join(turn(line) for line in old.split("\n"))
        if new != old:
            with open(f, "w", encoding="utf-8") as h:
                h.write(new)
    print(len(names), "names")


if __name__ == "__main__":
    main()
