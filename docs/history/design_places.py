#!/usr/bin/env python3
"""Lists places in crates/*/src that a plainer form may serve, by point.

    python3 docs/history/design_places.py [POINT]      e.g. 1, or 3

Each line is `POINT name: file:line: text`; the last lines count them. What a match is worth is for a reader to judge.
Twins (point 2) are not found by patterns: `duplicates --min-lines 4 --most 80` lists runs of lines that stand twice.
"""
import collections
import glob
import re
import sys

# Comments and clauses are left out of these.
LINES = [
    (1, "flag or mark with a value beside", r"^ +pub (done|seen|mark): "),
    (1, "refusal as a number or in an Option", r"-> Option<Refusal>|(Refusal::\w+|why)\.code\(\)[,;]|: &mut usize,"),
    (1, "Ok, Err, Some or None only passed on", r"(Err|Some)\((refusal|_|why)\) => (return )?(Err\(|Reply::|why)|^ *let (Some|\(Some)[^{]*else \{|^ *let Ok[^{]*else \{"),
    (1, "0 in place of none", r"(unwrap|map)_or\(0[,)]|^ +(None|_) => 0,|else \{ 0 \}|\{ 0 \} else|keys: 0\b"),
    (3, "loop", r"^ *(while|for) "),
    (3, "length tested and then indexed", r"if \w+ < (64|self\.\w+\.len\(\)|self\.count\(\)) \{|\[0\.\.\w+ - 1\]"),
    (4, "conversion by hand", r"fn (code|byte|of|stamp|value_of|key_of|weight_of|answer_code|sizes_of)\("),
    (4, "printing by hand", r"=> \"the "),
    (4, "type without comparison and Debug", r"^#\[derive\((Clone, Copy|Drop)\)\]"),
    (6, "array or slice of fixed length", r"^ +pub \w+: \[[^\]]+; \w+\]|mut \w+ = \[[^\]]+; \w+\]|out: &mut \[u8; \w+\]"),
    (6, "length beside a buffer", r"^ +(pub )?len: \w+,|count: (&mut )?usize"),
    (7, "match whose arms each run a step", r"^ +(Touch|Entry|Next|Job|Frame|Desk)::\w+(\(.*\)| \{.*\})? => .*\w\("),
    (7, "function pointer, boxed closure or dyn", r"\bdyn\b|: fn\(|Box<"),
]


def code(path):
    """The lines of a file with numbers, without comments and clauses."""
    for n, line in enumerate(open(path, encoding="utf-8"), 1):
        if not re.match(r"\s*(//|ghost|requires|ensures)", line):
            yield n, line.rstrip("\n")


def shaped(path):
    """Enums of two variants with at most one field each, and one with a field; and of one more with none."""
    text = open(path, encoding="utf-8").read()
    for m in re.finditer(r"^pub enum (\w+)(<\w+>)? \{\n(.*?)^\}", text, re.M | re.S):
        variants = [v.strip().rstrip(",") for v in m.group(3).split("\n") if v.strip() and not v.strip().startswith("//")]
        fields = [0 if "(" not in v else v.count(",") + 1 for v in variants if "{" not in v and "=" not in v]
        small = len(fields) == len(variants) and max(fields, default=9) == 1
        if small and (len(fields) == 2 or sorted(fields) == [0, 1, 1]):
            yield text[: m.start()].count("\n") + 1, m.group(1) + ": " + " | ".join(variants)


def facts(files):
    """Facts of clauses, by text, and the functions that have them."""
    found = collections.defaultdict(set)
    for path in files:
        name = ""
        for line in open(path, encoding="utf-8"):
            m = re.search(r"\bfn (\w+)", line)
            name = m.group(1) if m else name
            m = re.match(r"\s*(requires|ensures)\s*\w*\s*\{ (.*) \}", line)
            for part in re.split(r" × ", m.group(2)) if m else []:
                found[part.strip("() ")].add((path, name))
    return {f: w for f, w in found.items() if len(w) >= 3}


def travelling(files):
    """Pairs of parameters (name and type) that three or more functions of a crate take."""
    pairs = collections.defaultdict(set)
    for path in files:
        for m in re.finditer(r"fn (\w+)(?:<[^>]*>)?\(([^)]*)\)", open(path, encoding="utf-8").read()):
            args = [" ".join(a.split()) for a in m.group(2).split(",")]
            args = [a for a in args if ":" in a]
            for i, a in enumerate(args):
                for b in args[i + 1:]:
                    pairs[(path.split("/")[1], a, b)].add(m.group(1))
    return {p: w for p, w in pairs.items() if len(w) >= 3}


def main():
    wanted = int(sys.argv[1]) if len(sys.argv) > 1 else 0
    files = sorted(glob.glob("crates/*/src/**/*.rt", recursive=True))
    counts = collections.Counter()

    def place(point, name, text):
        if wanted in (0, point):
            counts[(point, name)] += 1
            print(f"{point} {name}: {text}")

    for path in files:
        for n, text in shaped(path):
            place(1, "enum of the shape of Option or Result", f"{path}:{n}: {text}")
    for point, name, pattern in LINES:
        for path in files:
            for n, line in code(path):
                if re.search(pattern, line):
                    place(point, name, f"{path}:{n}: {line.strip()}")
    for fact, where in sorted(facts(files).items()):
        place(5, "fact in three or more contracts", f"{fact}: {', '.join(sorted(w[1] for w in where))}")
    for (crate, a, b), where in sorted(travelling(files).items()):
        place(5, "pair of parameters in three or more functions", f"{crate}: {a}, {b}: {', '.join(sorted(where))}")
    for (point, name), n in sorted(counts.items()):
        print(f"{point}\t{n}\t{name}")


main()
