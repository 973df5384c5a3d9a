#!/usr/bin/env python3
"""Brings the repository's own definitions and lemmas to today's spelling: words in snake case, and a dash only between two names.

usage: python3 tools/spelling.py      at the top of the repository, once, right after port.py

It turns names that files of specs/ and proofs/*.antt declare: `getField` to `get_field`, `put-rest-lt` to `put_rest_lt`, `rowsOf-front` to
`rows_of-front`. Where a lemma would then have the name of another definition, the lemma gets `_lem`. Names of functions, fields and constants of
src/, of types and of files stay, and so do the labels that a proof of a function answers. Prints what fell together.
"""
import glob
import os
import re

KEY = r"(?:(?:pub|abbrev|unfoldable)\s+)*"
NAME = r'[^\s(){}.;,@"«»]+'
CAMEL = re.compile(r"[a-z][a-z0-9]*[A-Z]")


def snake(n):
    return re.sub(r"(?<=[a-z0-9])([A-Z])", lambda m: "_" + m[0].lower(), n)


def own(path):
    """A file of definitions or lemmas, and no proof of one function."""
    parts = path.split("/")
    return parts[2] == "specs" or len(parts) == 4


def declared(files):
    names, fields, places = set(), set(), {}
    for p in files:
        if not own(p):
            continue
        record = None
        for line in open(p, encoding="utf-8"):
            indent = len(line) - len(line.lstrip())
            m = re.match(r"\s*(?:pub\s+)?record\s", line)
            if m:
                record = indent
            elif line.strip() and record is not None and indent <= record:
                record = None
            m = re.match(r"\s*" + KEY + r"((?:" + NAME + r"\s+)*" + NAME + r")\s*:(?!:)", line)
            if m and not line.lstrip().startswith("--"):
                for n in m.group(1).split():
                    names.add(n)
                    places.setdefault(n, []).append(p)
                    if record is not None:
                        fields.add(n)
    return names, fields, places


def wanted(n):
    if not re.match(r"[a-z0-9]", n) or not re.search("[a-z]", n):
        return n
    if "-" in n:
        parts = n.split("-")
        return "-".join(map(snake, parts)) if any(snake(x) != x for x in parts) else "_".join(parts)
    return snake(n)


# Lemmas that port.py has spelled in snake case already, where a definition gets that name now.
SPELLED = ["count_at", "distinct_of", "put_word", "run_fits", "step_by"]
# Lemmas whose definition port.py has spelled so.
BEHIND = ["is-empty", "kind-of", "row-of", "source-word", "taken-of"]


def table(names):
    rows, back = {}, {}
    for n in SPELLED:
        rows[n] = n + "_lem"
    for n in BEHIND:
        rows[n] = n.replace("-", "_") + "_lem"
    for n in sorted(names, key=lambda x: ("-" in x, x)):
        if n in rows:
            continue
        w = wanted(n)
        if w == n:
            continue
        if w in back or (w in names and w not in SPELLED):
            print("falls together:", n, "with", back.get(w, w))
            w += "_lem"
        back[w] = n
        rows[n] = w
    return rows


def turn_code(text, rows, fields, function):
    def one(m):
        n = m[0]
        if n not in rows:
            return n
        after_dot = m.start() > 0 and text[m.start() - 1] == "."
        if after_dot and not CAMEL.match(n):
            # behind a dot stand fields, and steps that have the names of functions
            if n not in fields or (function and "_" in rows[n] and "-" not in n):
                return n
        return rows[n]

    return re.sub(NAME, one, text)


def turn_comment(text, rows):
    text = re.sub(r"`[^`\n]*`", lambda m: re.sub(NAME.replace('"', '"`'), lambda k: rows.get(k[0], k[0]), m[0]), text)
    return re.sub(r"(?<![\w`./-])[a-z][\w'-]*[A-Z][\w'-]*", lambda m: rows.get(m[0], m[0]) if CAMEL.match(m[0]) else m[0], text)


def turn_antt(text, rows, fields, function):
    out = []
    for line in text.split("\n"):
        m = re.search(r"(?:^|(?<=\s))--(?=\s|$)", line)
        cut = m.start() if m else len(line)
        out.append(turn_code(line[:cut], rows, fields, function) + turn_comment(line[cut:], rows))
    return "\n".join(out)


def turn_rt(text, rows, fields):
    out = []
    ghost = False
    for line in text.split("\n"):
        m = re.search(r"//", line)
        cut = m.start() if m else len(line)
        code = line[:cut]
        ghost = ghost or code.lstrip().startswith("ghost use")
        if ghost:
            code = turn_code(code, rows, fields, False)
        else:
            code = re.sub(r"[A-Za-z_][\w'-]*", lambda k: rows.get(k[0], k[0]) if CAMEL.match(k[0]) else k[0], code)
        if ghost and ";" in code:
            ghost = False
        out.append(code + turn_comment(line[cut:], rows))
    return "\n".join(out)


def main():
    antt = sorted(glob.glob("crates/*/specs/**/*.antt", recursive=True) + glob.glob("crates/*/proofs/**/*.antt", recursive=True))
    names, fields, _ = declared(antt)
    rows = table(names)
    for p in antt:
        t = open(p, encoding="utf-8").read()
        n = turn_antt(t, rows, fields, not own(p))
        if n != t:
            open(p, "w", encoding="utf-8").write(n)
    for p in sorted(glob.glob("crates/*/src/**/*.rt", recursive=True)):
        t = open(p, encoding="utf-8").read()
        n = turn_rt(t, rows, fields)
        if n != t:
            open(p, "w", encoding="utf-8").write(n)
    for p in sorted(glob.glob("crates/*/must-fail/*.edit")):
        t = open(p, encoding="utf-8").read()
        out, f = [], ""
        for line in t.split("\n"):
            if line.startswith("file:"):
                f = line
            if line.startswith(("old:", "new:")):
                k = 5
                line = line[:k] + (turn_antt(line[k:], rows, fields, False) if f.endswith(".antt") else turn_rt(line[k:], rows, fields))
            elif line.startswith("#"):
                line = turn_comment(line, rows)
            out.append(line)
        n = "\n".join(out)
        if n != t:
            open(p, "w", encoding="utf-8").write(n)
    with open("tools/spelling.tsv", "w", encoding="utf-8") as f:
        for o in sorted(rows):
            f.write(f"{o}\t{rows[o]}\n")
    print(len(rows), "names turned; tools/spelling.tsv has them")


main()
