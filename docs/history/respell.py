#!/usr/bin/env python3
"""Respells the repository's own definitions and lemmas, once, after port.py: words and lemmas in snake case, types in upper camel case.
A dash stays only between two names of definitions, as in length-words_of. Functions of src/, exported names, strings and comments of src/ keep theirs.

usage: python3 docs/history/respell.py [--list]     at the top of the repository; --list prints old and new names and writes nothing
"""

import os
import re
import sys

GENERATED = re.compile(r"^(?:abbrev |unfoldable )?(?:pub )?([^\s(){}:;=,.]+) : (?:goal|need)\.")
ITEM = re.compile(r"^(?:(?:abbrev|unfoldable|opaque) )?(?:pub )?([^\s(){}:;=,.]+) :")
INNER = re.compile(r"^  (?:abbrev )?(?:pub )?([^\s(){}:;=,.]+) :")
LOCAL = re.compile(r"\blet ([^\s(){}:;=,.]+) :")
TYPE = re.compile(r"^(?:abbrev |unfoldable |opaque )?(?:pub )?(?:record|data) ([^\s(){}:;=,.]+)")
TOKEN = re.compile(r"[^\s(){}\[\];,.:\"«»λ]+")
COMMENT = re.compile(r"//.*|\"(?:\\.|[^\"\\])*\"")
# parts of lemma names that are words of the library under another name now
PARTS = {"getD": "get_or"}
# words of the library that a lemma's name joins by a dash
WORDS = {"length", "get_or", "set", "append", "take", "drop", "map", "replicate", "cond", "++", "suc", "and"}
# names that would fall together with another name: a lemma that would have its word's name ends in _lem
OWN = {
    "Turn-laws": "TurnsKeepLaws",
    "answer_at": "answer_at_lem",
    "head-kind": "head_kind_lem",
    "next-own": "next_own_lem",
    "page-cell": "page_cell_lem",
    "settled-field": "settled_field_lem",
    "state-begun": "state_begun_lem",
}


def files(root, *ends):
    for folder, dirs, names in os.walk(os.path.join(root, "crates")):
        dirs[:] = sorted(d for d in dirs if d != "out")
        for n in sorted(names):
            if n.endswith(ends):
                yield os.path.join(folder, n)


def snake(word):
    return re.sub(r"(?<=[a-z0-9'])([A-Z])", lambda m: "_" + m[1].lower(), word)


def declared(root):
    """The repository's own names, and those of them that are definitions."""
    names, words, made = set(), set(), set()
    for path in files(root, ".antt"):
        for line in open(path, encoding="utf-8"):
            if line.startswith(("use ", "mod ", "pub mod ", "pub use ", "--")):
                continue
            if m := GENERATED.match(line):
                made.add(m[1])
            elif m := TYPE.match(line):
                names.add(m[1])
            elif m := ITEM.match(line):
                names.add(m[1])
                if line.startswith(("abbrev ", "unfoldable ")) or "/specs/" in path:
                    words.add(m[1])
            elif m := INNER.match(line):
                names.add(m[1])
            names.update(LOCAL.findall(line))
    return names - made, words


def spelling(name, words):
    if name in OWN:
        return OWN[name]
    parts = [PARTS.get(p, p) for p in name.split("-") if p]
    if name[0].isupper():
        return "".join(p[0].upper() + p[1:] for p in parts)
    known = {snake(w) for w in words} | WORDS
    new = snake(parts[0])
    for before, part in zip(parts, parts[1:]):
        joined = snake(before) in known and snake(part) in known
        new += ("-" if joined else "_") + snake(part)
    return new


def turned(text, table):
    return TOKEN.sub(lambda m: table.get(m[0], m[0]), text)


def turned_source(text, table):
    """Comments and strings of a source file stay."""
    out, at = [], 0
    for m in COMMENT.finditer(text):
        out += [turned(text[at:m.start()], table), m[0]]
        at = m.end()
    return "".join(out + [turned(text[at:], table)])


def main(argv):
    root = os.path.dirname(os.path.dirname(os.path.abspath(__file__)))
    names, words = declared(root)
    table = {n: spelling(n, words) for n in sorted(names) if any(c.isalpha() for c in n)}
    table = {old: new for old, new in table.items() if old != new}
    news = {}
    for old, new in table.items():
        news.setdefault(new, []).append(old)
    seen = {t for p in files(root, ".antt") for t in TOKEN.findall(open(p, encoding="utf-8").read())}
    for new, olds in sorted(news.items()):
        if len(olds) > 1 or (new in names and new not in table):
            print(f"together: {', '.join(olds)} -> {new}{' (stands already)' if new in names else ''}")
        elif new in seen:
            print(f"look: {olds[0]} -> {new}, which stands somewhere already")
    if "--list" in argv:
        for old, new in table.items():
            print(f"{old} -> {new}")
        return 0
    for path in files(root, ".antt", ".rt", ".edit"):
        with open(path, encoding="utf-8") as f:
            text = f.read()
        new = turned_source(text, table) if path.endswith(".rt") else turned(text, table)
        if new != text:
            with open(path, "w", encoding="utf-8") as f:
                f.write(new)
    return 0


if __name__ == "__main__":
    raise SystemExit(main(sys.argv[1:]))
