#!/usr/bin/env python3
"""Gives the repository's own definitions and lemmas the spelling of today's Rattle.

usage: tools/respell.py [--dry]     at the top, after port.py and before any edit by hand

Words in snake case, types in camel case: `sin-float` becomes `sin_float`, `Is-sine` becomes `IsSine`, `≤-trans` becomes `≤_trans`. A name of capitals
before the first dash stays (`S-is` becomes `S_is`), since it is a constant's. What turns: names that a file of specs/ or proofs/ declares, wherever they are
cited, in .antt and .edit files, in the clauses of .rt files, and in the code spans of comments and of docs. What stays: Rust's names, strings, names of the kit,
names of goals, operators with places (`◌-ᶠ◌`).
"""

import collections
import os
import re
import sys

WORD = r"[^\s(){};.,«»\[\]\"`@]+"
TOKEN = re.compile(WORD)
KEYWORDS = r"(?:(?:pub|abbrev|unfoldable|record|data|let|private) +)*"
# a name at the head of a signature, a clause, a field or a record
HEAD = re.compile(rf"^\s*{KEYWORDS}({WORD})(?=[^\n]*[:=])", re.M)
LET = re.compile(rf"\blet +({WORD})")
# the left side of a clause, and a name given in an import
LEFT = re.compile(r"^\s*([^\n=:]+?) = ", re.M)
ALIAS = re.compile(rf"\bas ({WORD})")
BOUND = re.compile(rf"[({{]((?:{WORD} +)+):(?=\s)|λ ((?:{WORD} *)+)\.")
# names whose spelling by the rule would be a numeral or another name of the file
BY_HAND = {"1-σ": "one_less_σ"}
QUIET = re.compile(r"--[^\n]*")


def files(root, *ends):
    for folder, dirs, names in os.walk(root):
        dirs[:] = sorted(d for d in dirs if d not in ("out", ".git"))
        for name in sorted(names):
            if name.endswith(ends):
                yield os.path.join(folder, name)


def read(path):
    with open(path, encoding="utf-8") as f:
        return f.read()


def is_operator(word):
    return "◌" in word or "⟨" in word or word.startswith("-") or word == "-"


def candidate(word):
    return not is_operator(word) and ("-" in word or re.match(r"[a-z][a-z0-9_]*[A-Z]", word))


def declared():
    """The names to turn, and those of them that are types."""
    names, types, goals = set(), set(), set()
    for path in files("crates", ".antt"):
        text = QUIET.sub("", read(path))
        names |= set(ALIAS.findall(text))
        text = re.sub(r"^use .*$", "", text, flags=re.M)
        for m in HEAD.finditer(text):
            names.add(m[1])
        for m in LET.finditer(text):
            names.add(m[1])
        if re.fullmatch(r"crates/\w+/(specs|proofs)/\w+\.antt", path):
            for m in LEFT.finditer(text):
                names |= set(TOKEN.findall(m[1]))
        for m in BOUND.finditer(text):
            names |= set((m[1] or m[2]).split())
        for m in re.finditer(rf"^\s*{KEYWORDS}({WORD}) *:[^\n]*Type 0\b(?: where)?\s*$", text, re.M):
            types.add(m[1])
        for m in re.finditer(rf"^\s*(?:pub )?(?:record|data) +({WORD})", text, re.M):
            types.add(m[1])
        for m in re.finditer(rf"({WORD}) : goal\.({WORD})", text):
            goals |= {m[1], m[2]}
    names = {n for n in names if candidate(n)} - goals
    return names, types


def spelled(word, types):
    if word in BY_HAND:
        return BY_HAND[word]
    if word in types and word[0].isupper() and "-" in word:
        return "".join(p[:1].upper() + p[1:] for p in word.split("-"))
    word = re.sub(r"(?<=[a-z])([A-Z])", lambda m: "_" + m[1].lower(), word) if word[0].islower() else word
    return word.replace("-", "_")


def imported_from_kit(text, crates):
    found = set()
    for m in re.finditer(r"^ *(?:ghost )?use +([^\s{;]+?)\.\{([^}]*)\}", text, re.M):
        if not any(m[1].startswith(f"Rattle.{c}.") for c in crates):
            found |= {w.strip() for w in m[2].split(",") if " as " not in w}
    return found


def main(argv):
    dry = "--dry" in argv
    names, types = declared()
    table = {n: spelled(n, types) for n in names}
    table = {a: b for a, b in table.items() if a != b}
    crates = os.listdir("crates")
    clashes = 0
    # two names of one file that would fall together
    for path in files("crates", ".antt", ".rt"):
        text = QUIET.sub("", read(path)) if path.endswith(".antt") else ""
        words = set(TOKEN.findall(text))
        kit = imported_from_kit(text, crates)
        to = collections.defaultdict(set)
        for w in words:
            to[table[w] if w in table and w not in kit else w].add(w)
        for new, olds in to.items():
            if len(olds) > 1:
                clashes += 1
                print(f"falls together: {path}: {' '.join(sorted(olds))} -> {new}")
    changed = 0
    for path in files(".", ".antt", ".rt", ".edit", ".md"):
        old = read(path)
        kit = imported_from_kit(old, crates) if path.endswith((".antt", ".rt")) else set()
        turn = lambda m: table[m[0]] if m[0] in table and m[0] not in kit else m[0]
        span = lambda m: TOKEN.sub(turn, m[0])

        def line(l):
            if path.endswith(".md"):
                return re.sub(r"`[^`\n]+`", span, l)
            mark = "--" if path.endswith(".antt") else "//"
            at = re.search(rf"(?:^|(?<=\s)){mark}", l)
            code, comment = (l[: at.start()], l[at.start() :]) if at and not path.endswith(".edit") else (l, "")
            if path.endswith(".rt"):
                # no string turns, and no camel case, which is Rust's own
                code = "".join(p if k % 2 else TOKEN.sub(lambda m: turn(m) if "-" in m[0] else m[0], p) for k, p in enumerate(re.split(r'("(?:\\.|[^"\\])*")', code)))
            else:
                code = TOKEN.sub(turn, code)
            return code + re.sub(r"`[^`\n]+`", span, comment)

        new = "\n".join(line(l) for l in old.split("\n"))
        if new != old:
            changed += 1
            if not dry:
                with open(path, "w", encoding="utf-8") as f:
                    f.write(new)
    print(f"respell: {len(table)} names, {changed} files, {clashes} that fall together")
    if dry:
        for a, b in sorted(table.items()):
            print(f"{a}\t{b}")


if __name__ == "__main__":
    main(sys.argv[1:])
