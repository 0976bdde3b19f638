#!/usr/bin/env python3
"""Spells the repository's own definitions and lemmas in snake case, as the kit does: humps become underscores, and so do hyphens
but where they join two names, as in `length-put_row`.

usage: names.py [--check] [--map FILE]      at the top of the repository, once, after the kit's port.py

Renamed is every name that a .antt file of crates/ declares (definitions, lemmas, fields and constructors), where it has a hump or a
hyphen and does not begin with a capital. Goals of a function's proof keep theirs: the check gives them. Where a lemma would have its
function's name it gets `_lem`. It turns .antt files, the clauses of .rt files, must-fail edits and, in back quotes, the pages. In
comments only names with a hump turn, and those in back quotes.
"""

import collections
import os
import re
import sys

# Names whose plain spelling means something else in a file that has both.
OTHER = {"inFlight": "count_in_flight"}

# Lemmas that had been spelled anew already as a definition is spelled now: the files that declare or import them, old and new name.
BEFORE = [
    (r"crates/(table/proofs/Reading|bucket/proofs/Matching)\.antt$", "same_bytes", "same_bytes_lem"),
    (r"crates/parse/proofs/", "all_three", "all_three_lem"),
    (r"crates/quiet/proofs/Tested\.antt$", "none_open", "none_open_lem"),
    (r"crates/views/proofs/Slots\.antt$", "no_call", "no_call_lem"),
    (r"crates/consistency/proofs/Forgotten\.antt$", "one_more", "one_more_lem"),
    (r"crates/memory/(specs/Layout|proofs/\w+)\.antt$", "value_room", "value_length"),
    (r"crates/message_form/", "table_fits", "table_is_fit"),
]

# Words of the library that a hyphen may join to a name of the repository.
WORDS = set("length take drop set map get_or replicate min max".split())

TOKEN = re.compile(r"[^\s(){}.;,@\"«»`]+")
DECLARED = re.compile(r"^(?:(?:unfoldable|abbrev|pub|opaque|private) +)*([^\s(){}:.;,]+)(?: \{[^{}\n]*\})* :(?: |$)", re.M)
GOAL = re.compile(r"^(?:(?:abbrev|pub) +)*(\S+) : (?:\{[^{}]*\} → )*(?:tie|goal)\.", re.M)
MEMBER = re.compile(r"^ +(?:abbrev +|unfoldable +|pub +)*([^\s(){}:.;,]+) :(?: |$)", re.M)
BLOCK = re.compile(r"(?:(?:unfoldable|abbrev|pub) +)*(record|data|module) ")
ROOT = re.compile(r"(?:^|[\s(,])[cwl](?:\.before)*\.$")


def files(root, *ends):
    for folder, dirs, names in os.walk(root):
        dirs[:] = sorted(d for d in dirs if d not in ("out", ".git", "target"))
        for n in sorted(names):
            if n.endswith(ends):
                yield os.path.join(folder, n)


def humps(name):
    return re.sub(r"(?<=[a-z0-9])([A-Z])", lambda m: "_" + m[1].lower(), name.replace("getD", "get_or"))


def snake(name, names):
    parts = name.split("-")
    if len(parts) == 2 and all(p in WORDS or re.search(r"[a-z0-9][A-Z]", p) and p in names for p in parts):
        return "-".join(humps(p) for p in parts)
    return "_".join(humps(p) for p in parts)


def has_to(name):
    return re.match(r"[a-z]", name) and (re.search(r"[a-z0-9][A-Z]", name) or "-" in name[1:])


def indented(text):
    """The lines below `record ..`, `data ..` and `module ..`."""
    out, inside = [], False
    for line in text.split("\n"):
        if BLOCK.match(line):
            inside = True
        elif line and not line[0].isspace():
            inside = False
        if inside:
            out.append(line)
    return "\n".join(out)


def declared(root):
    names, goals = set(), {}
    for p in files(os.path.join(root, "crates"), ".antt"):
        text = open(p, encoding="utf-8").read()
        goals[p] = set(GOAL.findall(text))
        names |= set(DECLARED.findall(text)) - goals[p]
        names |= set(MEMBER.findall(indented(text)))
    return names, goals


def table_of(names):
    table = {n: OTHER.get(n, snake(n, names)) for n in names if has_to(n)}
    back = collections.defaultdict(set)
    for n, new in table.items():
        back[new].add(n)
    for new, olds in back.items():
        if len(olds) > 1 or new in names:
            for n in olds:
                if "-" in n and n not in OTHER:
                    table[n] = new + "_lem"
    return table


def turned(text, table, kept):
    def word(m):
        w = m[0]
        if w in kept or w not in table:
            return w
        if "-" in w and ROOT.search(m.string[max(0, m.start() - 80) : m.start()]):
            return w  # a step of the code, whose name the check gives
        return table[w]

    return TOKEN.sub(word, text)


def comment(text, table):
    text = re.sub(r"`[^`\n]+`", lambda m: TOKEN.sub(lambda w: table.get(w[0], w[0]), m[0]), text)
    return re.sub(r"\b[a-z]+[a-z0-9]*(?:[A-Z][a-z0-9]*)+\b(?!-)", lambda w: table.get(w[0], w[0]), text)


def page(text, table, names):
    def word(m):
        if re.match(r"\.(txt|out|sh|edit)\b", m.string[m.end() :]):
            return m[0]
        new = table.get(m[0], snake(m[0], names))
        return new if m[0] in table or has_to(m[0]) and new in names else m[0]

    return re.sub(r"`[^`\n]+`", lambda m: re.sub(r"[A-Za-z0-9_'₀₁₂-]+", word, m[0]), text)


def turn(p, text, table, kept, names):
    if p.endswith(".md"):
        return page(text, table, names)
    if p.endswith(".edit"):
        return turned(text, table, kept)
    quiet = r'"(?:[^"\\\n]|\\.)*"|//[^\n]*' if p.endswith(".rt") else r'"(?:[^"\\\n]|\\.)*"|(?<![^\s(){}.;,@"«»])--[^\n]*'
    out, at = [], 0
    for m in re.finditer(quiet, text):
        out.append(turned(text[at : m.start()], table, kept))
        out.append(m[0] if m[0][0] == '"' else comment(m[0], table))
        at = m.end()
    out.append(turned(text[at:], table, kept))
    return "".join(out)


def main(argv):
    root = "."
    for p in files(os.path.join(root, "crates"), ".antt") if "--check" not in argv else ():
        for where, old, new in BEFORE:
            if re.search(where, p):
                text = open(p, encoding="utf-8").read()
                put = re.sub(rf"(?<![\w'-]){old}(?![\w'-])", new, text)
                if put != text:
                    open(p, "w", encoding="utf-8").write(put)
    names, goals = declared(root)
    table = table_of(names)
    if "--map" in argv:
        with open(argv[argv.index("--map") + 1], "w") as f:
            f.writelines(f"{n}\t{table[n]}\n" for n in sorted(table))
    taken = collections.defaultdict(set)
    for n, new in table.items():
        taken[new].add(n)
    for new, olds in sorted(taken.items()):
        if len(olds) > 1 or new in names:
            print("meet:", new, sorted(olds), "declared already" if new in names else "")
    if "--check" in argv:
        return 0
    n = 0
    for p in files(root, ".antt", ".rt", ".edit", ".md"):
        text = open(p, encoding="utf-8").read()
        new = turn(p, text, table, goals.get(p, set()), names)
        if new != text:
            open(p, "w", encoding="utf-8").write(new)
            n += 1
    print(n, "files written")
    return 0


if __name__ == "__main__":
    raise SystemExit(main(sys.argv[1:]))
