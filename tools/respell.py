#!/usr/bin/env python3
"""Brings this repository's own definitions and lemmas to the spelling of the library: words in snake case, a dash between two names alone.

usage: python3 tools/respell.py [--check]     at the top of the repository, once, right after the toolchain's own script

What is declared in crates/*/specs and in crates/*/proofs/*.antt is respelled there, in the proofs of functions, in the clauses and comments of src/, in must-fail edits and in the code
spans of README.md and docs/. Functions of src/, exported names, strings and data stay. --check writes nothing and prints each old and new name.

A name of capitals alone stays: the symbols of the request (A, N, T, D, S) and the words that the program prints (GLOBAL-). So does a name whose new spelling another name has.
"""
import collections
import glob
import re
import sys

WORD = re.compile(r'[^\s(){}.;,@"«»`]+')
DECLARED = re.compile(r"(?m)^([ \t]*)((?:(?:abbrev|unfoldable|pub|pattern|axiom)\s+)*)([^\s(){}:;,.=|\[\]\"]+)(?:\{[^}\n]*\})?[ \t]+:[ \t]")
OTHERS = re.compile(r"(?m)^[ \t]*(?:pub[ \t]+)?ruleset[ \t]+([^\s(){}:;,.=]+)")
COMMENT = re.compile(r"--[^\n]*")
# words of the library that a lemma's name may join
LIBRARY = set("length take drop set append map sum abs add mul sub le lt eq cond suc pos negsuc neg replicate reverse ext getD get_or".split())
# spellings that would stand beside a variable or a word of the library
STAYS = {"not-true"}
# Lemmas that the toolchain's script gave the new spelling of a definition already: they give it up first.
GIVEN_UP = {n: n + "_lem" for n in "all_words by_rows entries_fit has_room in_list is_free is_tied last_line row_next same_entries share_u".split()}
# two names that would fall together with another lemma's
OWN = {"subBy": "sub_by_test", "ltOf": "lt_of_parts"}


def snake(word):
    return re.sub(r"(?<=[a-z0-9])([A-Z]+)", lambda up: "_" + up[1].lower(), word) if word[:1].islower() else word


def declarations():
    names, tops, fields = set(), set(), set()
    for path in glob.glob("crates/*/specs/**/*.antt", recursive=True) + glob.glob("crates/*/proofs/*.antt"):
        text = COMMENT.sub("", open(path, encoding="utf-8").read())
        inside = False
        for line in text.split("\n"):
            if re.match(r"\s*(?:(?:pub|abbrev|unfoldable)\s+)*record\b.*\bwhere\s*$", line):
                inside, depth = True, len(line) - len(line.lstrip())
                continue
            if inside and line.strip() and len(line) - len(line.lstrip()) <= depth:
                inside = False
            m = DECLARED.match(line + "\n")
            if m:
                names.add(m[3])
                if inside:
                    fields.add(m[3])
                elif not m[1] or "pub" in m[2]:
                    tops.add(m[3])
        names.update(m[1] for m in OTHERS.finditer(text))
    return names, tops, fields


def is_word(name):
    """Whether the name is spelled in letters, so that this script may turn it."""
    return not name.upper() == name and not name.startswith("-")


def new_spelling(name, known):
    parts = [snake(p) for p in name.split("-")]
    segments, at = [], 0
    while at < len(parts):
        end = next((e for e in range(len(parts), at + 1, -1) if e - at < len(parts) and "_".join(parts[at:e]) in known), at + 1)
        part = "_".join(parts[at:end])
        segments.append((part, part in known or not re.fullmatch(r"[a-z0-9_']*", part)))
        at = end
    out = segments[0][0]
    for (before, first), (after, second) in zip(segments, segments[1:]):
        out += ("-" if first and second else "_") + after
    return out


def table():
    names, tops, fields = declarations()
    names = {GIVEN_UP.get(n, n) for n in names}
    tops = {GIVEN_UP.get(n, n) for n in tops}
    known = LIBRARY | {snake(n) for n in tops if "-" not in n and is_word(n)} | {n for n in tops if n.isupper()}
    new = {n: new_spelling(n, known) for n in names if is_word(n) and (("-" in n) or snake(n) != n)}
    for n in list(new):
        if "-" in n and new[n] in known:
            new[n] += "_lem"
    # where two would fall together, a definition goes before a lemma
    held = {n for n in names if n not in new}
    for wins in (lambda n: "-" not in n, lambda n: "-" in n):
        of = collections.Counter(new[n] for n in new if wins(n))
        for n in [n for n in new if wins(n)]:
            if new[n] in held or of[new[n]] > 1 or n in STAYS:
                del new[n]
            else:
                held.add(new[n])
    return {a: b for a, b in (new | OWN).items() if a != b}, fields, names


def turn(text, new, fields):
    def word(m):
        it = m[0]
        if it not in new:
            return it
        if text[m.start() - 1 : m.start()] == "." and it not in fields:
            return it
        return new[it]

    return WORD.sub(word, text)


CLAUSE = re.compile(r"ghost use[^;]*;|(?:requires|ensures)\*?\s*\w*\s*\{(?:[^{}]|\{[^{}]*\})*\}|//[^\n]*")


def turned(path, text, new, fields):
    if path.endswith(".antt"):
        return turn(turn(text, GIVEN_UP, ()), new, fields)
    if path.endswith(".rt"):
        plain = {a: b for a, b in new.items()}
        return CLAUSE.sub(lambda m: turn(m[0], plain, fields), text)
    if path.endswith(".edit"):
        return turn(text, {a: b for a, b in new.items() if "-" not in a}, fields)
    return re.sub(r"`[^`\n]+`", lambda m: "`" + turn(m[0][1:-1], new, fields) + "`", text)


def main():
    new, fields, names = table()
    check = "--check" in sys.argv[1:]
    paths = sorted(p for k in ("crates/**/*.antt", "crates/**/*.rt", "crates/*/must-fail/*.edit", "README.md", "docs/**/*.md") for p in glob.glob(k, recursive=True) if "/out/" not in p and p != "docs/PORT.md")
    backs = collections.defaultdict(set)
    for a, b in new.items():
        backs[b].add(a)
    for path in paths:
        text = open(path, encoding="utf-8").read()
        code = re.sub(r"//[^\n]*|--[^\n]*", "", text)
        if path.endswith((".antt", ".rt")):
            had = {m[0] for m in WORD.finditer(code if path.endswith(".antt") else " ".join(c[0] for c in CLAUSE.finditer(text) if not c[0].startswith("//"))) if code[m.start() - 1 : m.start()] != "."}
            for b in sorted(had & set(backs)):
                if backs[b] & had:
                    print(f"look: {path}: {b} stands there beside {', '.join(sorted(backs[b] & had))}")
        after = turned(path, text, new, fields)
        if after != text and not check:
            open(path, "w", encoding="utf-8").write(after)
    if check:
        for a in sorted(new):
            print(f"{a}\t{new[a]}")
    print(f"{len(new)} names respelled")


if __name__ == "__main__":
    main()
