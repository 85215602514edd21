#!/usr/bin/env python3
"""Spells the names of specs/ and proofs/ as the library does: words in snake case, a fact as a type is spelled.

usage: python3 tools/respell.py [--dry]     at the top of the repository, once, after the kit's own script

What is declared in specs/*.antt and proofs/*.antt gets its new name wherever it is cited: in those files, in the clauses of src/,
in the edits of must-fail/ and, between backticks, in README.md and docs/ (the notes of older landings stay as they were written).
Functions, types, variants and fields of src/ keep their names. A lemma that would get its definition's name ends in _lem. Two names that would fall together in one file are printed, and then
nothing is written.
"""

import os
import re
import sys

WORD = re.compile(r"[^\s(){}.,;:|`]+")
DECLARED = re.compile(r"^((?:abbrev |unfoldable |pub |data |record |ruleset )*)([^\s:(){}=]+)(?: [({].*)? :(?: |$)")
RULESET = re.compile(r"^(?:pub )?ruleset (\S+)")
RECORD = re.compile(r"^(?:pub )?(?:record|data) (\S+)")
INNER = re.compile(r"^ +(?:abbrev |unfoldable |pub )*([^\s:|(){}=]+)(?: [({].*?)? :(?: |$)")
NEED = re.compile(r" : (tie|goal)\.")

# What a rule cannot spell: facts, and names that would fall together with another.
BY_HAND = {
    "weakFine": "WeakFine",
    "eitherFine": "EitherFine",
    "optionalFine": "OptionalFine",
    "getD-from": "get_or_from",
    "onlyUOrT": "only_u_or_t",
    "runP9In34": "run_p9_in_34",
    "naturalDigit": "digit_of_natural",
    "pinDigit": "digit_of_pin",
    "lastFive": "five_last",
}

# Where a file has a name of its own that a definition's new name would meet, and that definition.
IN_FILE = {
    ("crates/bk/proofs/Calls.antt", "box_read"): ("box_answer", "boxRead"),
    ("crates/verify/proofs/Calls.antt", "box_read"): ("box_answer", "boxRead"),
    ("crates/claims_exactly/proofs/Responses.antt", "is_framed"): ("is_framed_lem", "isFramed"),
    ("crates/claims_exactly/proofs/Sent.antt", "is_framed"): ("is_framed_lem", "isFramed"),
    ("crates/texts/proofs/Whole.antt", "read_back"): ("read_back_lem", "readBack"),
}


def files(root):
    for folder, dirs, names in os.walk(os.path.join(root, "crates")):
        dirs[:] = sorted(d for d in dirs if d not in ("out", "data"))
        for name in sorted(names):
            if name.endswith((".antt", ".rt", ".edit")):
                yield os.path.join(folder, name)


def of_function(path):
    """A file below proofs/F/: its names are those that the checker asks for."""
    return os.path.basename(path) in ("Proof.antt", "Answers.antt", "Invariants.antt")


def snake(name):
    if "·" in name:
        head, tail = name.split("·", 1)
        return head + "-" + tail.replace("-", "_")
    if name in BY_HAND:
        return BY_HAND[name]
    if "-" in name:
        return name if name[0].isupper() else name.replace("-", "_")
    if re.match(r"^[a-z].*[A-Z]", name) and "_" not in name:
        out = ""
        for i, c in enumerate(name):
            before = name[i - 1] if i else ""
            if c.isupper():
                fresh = before.islower() or before.isdigit() and not (i > 1 and name[i - 2].isupper()) and i + 1 < len(name) and name[i + 1].islower()
                out += ("_" if before and before != "_" and fresh else "") + c.lower()
            elif c.isdigit() and before.islower() and name[:i].rstrip("0123456789")[-1:].islower() and not before.isdigit() and re.search(r"[A-Z]", name):
                out += "_" + c
            else:
                out += c
        return out
    return name


def declared(root):
    found = {}
    for path in files(root):
        if not path.endswith(".antt"):
            continue
        own = of_function(path)
        with open(path, encoding="utf-8") as f:
            for line in f:
                if line.startswith("--"):
                    continue
                m = DECLARED.match(line)
                if m and not (own and NEED.search(line)):
                    found.setdefault(m.group(2), path)
                m = RULESET.match(line) or RECORD.match(line) or INNER.match(line)
                if m and not (own and NEED.search(line)) and not re.search(r"[λ∀{]", m.group(1)):
                    found.setdefault(m.group(1), path)
    return found


def code_of(line, path):
    """The line up to its comment, and the comment."""
    mark = "--" if path.endswith(".antt") else "//"
    if line.lstrip().startswith(mark):
        return "", line
    return line, ""


def turn_text(text, path, table, seen=None):
    own = of_function(path)
    where = path[path.index("/crates/") + 1:]
    aliases = set(re.findall(r"^use \S+ as (\S+)$", text, re.M)) - {"goal", "tie"}
    if "/claims_functions/" in path:
        table = {n: s[:-4] if s.endswith("_lem") else s for n, s in table.items()}
    out = []
    for line in text.split("\n"):
        code, rest = code_of(line, path)
        if path.endswith(".edit") and not line.startswith(("old: ", "new: ")):
            code, rest = "", line

        def one(m):
            word = m.group(0)
            own_name, met = IN_FILE.get((where, word), (word, word))
            new = table.get(word, own_name if met in table else word)
            at = m.start()
            if new != word and "-" in word and at and code[at - 1] == ".":
                head = re.search(r"([^\s(){}.,;:|`]+)\.$", code[:at])
                if head and head.group(1) in aliases:
                    pass
                elif own or path.endswith((".rt", ".edit")) or not head or not head.group(1)[0].isupper():
                    if own or word not in FIELDS:
                        new = word
            if seen is not None:
                seen.setdefault(new, set()).add(word)
            return new

        def camel(m):
            word = m.group(0)
            return table[word] if word in table and re.match(r"^[a-z]+[a-z0-9]*[A-Z]", word) else word

        out.append(WORD.sub(one, code) + (re.sub(r"[A-Za-z][A-Za-z0-9]*", camel, rest) if not path.endswith(".edit") else rest))
    return "\n".join(out)


def turn_page(text, table):
    def span(m):
        def one(w):
            word = w.group(0)
            return table.get(word, word)
        return "`" + re.sub(r"[A-Za-z0-9_'·⁻¹-]+", one, m.group(1)) + "`"
    return re.sub(r"`([^`\n]+)`", span, text)


FIELDS = set()


def main():
    root = os.getcwd()
    dry = "--dry" in sys.argv
    names = declared(root)
    table = {n: snake(n) for n in names if snake(n) != n}
    taken = {snake(n) for n in names if "-" not in n}
    for n in table:
        if "-" in n and table[n] in taken:
            table[n] += "_lem"
    for path in files(root):
        if path.endswith(".antt") and not of_function(path):
            with open(path, encoding="utf-8") as f:
                for line in f:
                    m = INNER.match(line)
                    if m:
                        FIELDS.add(m.group(1))
    if dry:
        for old in sorted(table):
            print(old, table[old])
    told = 0
    turned = {}
    for path in files(root):
        with open(path, encoding="utf-8") as f:
            text = f.read()
        seen = {}
        new = turn_text(text, path, table, seen)
        if new != text:
            turned[path] = new
        for word, olds in sorted(seen.items()):
            # a module, a step or a function beside a definition of its name is no clash
            if len(olds) > 1 and word != ":" and path.endswith(".antt") and not of_function(path) and "/claims_functions/" not in path:
                told += 1
                print(f"together: {os.path.relpath(path, root)}: {word}: {', '.join(sorted(olds))}")
    if told or dry:
        print(f"{told} fall together; nothing was written")
        return 1 if told else 0
    for path, new in turned.items():
        with open(path, "w", encoding="utf-8") as f:
            f.write(new)
    pages = [os.path.join(root, "README.md")] + [os.path.join(root, "docs", n) for n in sorted(os.listdir(os.path.join(root, "docs"))) if n.endswith(".md")]
    shared = {o: n for o, n in table.items() if re.search(r"[A-Z]", o) or "-" in o}
    for path in pages:
        with open(path, encoding="utf-8") as f:
            text = f.read()
        new = turn_page(text, shared)
        if new != text:
            with open(path, "w", encoding="utf-8") as f:
                f.write(new)
    print(f"{len(table)} names, {len(turned)} files")
    return 0


if __name__ == "__main__":
    raise SystemExit(main())
