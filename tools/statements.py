#!/usr/bin/env python3
"""Holds the statements that docs/statements.txt pins against those of an older commit, word by word, and prints where they differ.

usage: python3 tools/statements.py COMMIT      at the top of the repository; COMMIT: the last before the port (docs/PORT.md)

Left out are imports, comments, layout and brackets. Names are taken by tools/spelling.tsv, or else from camel case to snake case; a projection, as
`x .field`, is the two words that it has today, `x.field`; `getD` is `get_or`, the hole of an operator `_` is `◌`. A promise has `result` for its
number, `x.now` for `now (x .entry)` of a lent area that is only read, and `x.old` and `x.new` of one that is written.
"""
import difflib
import re
import subprocess
import sys

TABLE = dict(row.rstrip("\n").split("\t") for row in open("tools/spelling.tsv", encoding="utf-8"))
SAME = {"getD": "get_or"}


def at(commit, path):
    ran = subprocess.run(["git", "show", f"{commit}:{path}"], capture_output=True, text=True)
    return ran.stdout


def spelled(name):
    if "/" in name:
        return name
    if name in SAME:
        return SAME[name]
    if name in TABLE:
        return TABLE[name]
    if not re.match("[a-z]", name):
        return name
    if re.search("[a-z0-9][A-Z]", name):
        return re.sub("(?<=[a-z0-9])([A-Z])", lambda it: "_" + it[0].lower(), name)
    return name.replace("-", "_") if re.fullmatch("[a-z0-9-]+", name) else name


def words(text, is_old):
    """Returns the words of an antt text that say something."""
    text = re.sub(r"(?m)(^|[ \t])--([ \t].*)?$", "", text)
    text = re.sub(r"(?ms)^use [^\n{]*(\{.*?\})?[^\n]*$", "", text)
    found = []
    for word in re.findall(r"[^\s(){};,]+|[{};,]", text):
        for part in re.findall(r"\.?[^.]+|\.+", word) if ".." not in word else [word]:
            dot = "." if part.startswith(".") and len(part) > 1 else ""
            name = part[len(dot) :]
            if is_old:
                name = re.sub("^_(.+)_$", "◌\\1◌", spelled(name))
            found.append(dot + name)
    return found


def promise(line):
    """Returns an old promise in today's words."""
    kinds = dict(re.findall(r"(\w+): (&mut|&) ?\[u8\]", line))
    ends = {"entry": "old", "exit": "new"}
    line = re.sub(r"\(now \((\w+) \.(entry|exit)\)\)", lambda it: f"{it[1]}.{ends[it[2]] if kinds[it[1]] == '&mut' else 'now'}", line)
    line = line.replace("λ r. ⌜ ", "").replace(" ⌝ }", " }")
    return re.sub(r"\) r (?=[\[a-z])", ") result ", line)


def stated(text, is_old):
    """Returns the promises and the theorems of docs/statements.txt, each as words; where they stand and what they import is left out."""
    found = []
    for line in text.splitlines():
        if line.startswith(("promise ", "theorem ")):
            line = promise(line) if is_old and line.startswith("promise") else line
            found.append((line.split("(")[0] if line.startswith("promise") else line.split(") ")[0], words(line, is_old)))
    return found


def tell(what, old, new):
    if old == new:
        return 0
    print(f"differs: {what}")
    for tag, a, b, c, d in difflib.SequenceMatcher(None, old, new, autojunk=False).get_opcodes():
        if tag != "equal":
            print(f"    {' '.join(old[max(0, a - 3) : b + 3])}  ->  {' '.join(new[max(0, c - 3) : d + 3])}")
    return 1


def main(commit):
    now = open("docs/statements.txt", encoding="utf-8").read()
    was = at(commit, "docs/statements.txt")
    differ = same = 0
    olds, news = stated(was, True), stated(now, False)
    if len(olds) != len(news):
        print(f"differs: {len(olds)} promises and theorems then, {len(news)} now")
        differ += 1
    for (name, old), (_, new) in zip(olds, news):
        is_other = tell(name, old, new)
        differ, same = differ + is_other, same + 1 - is_other
    pinned = [re.findall(r"(?m)^statement (\S+) ", it) for it in (was, now)]
    if pinned[0] != pinned[1]:
        print(f"differs: the files that are pinned: {sorted({*pinned[0]} ^ {*pinned[1]})}")
        differ += 1
    for path in pinned[0]:
        is_other = tell(path, words(at(commit, path), True), words(open(path, encoding="utf-8").read(), False))
        differ, same = differ + is_other, same + 1 - is_other
    print(f"statements: {same} are the same, {differ} differ")
    return differ > 0


sys.exit(main(sys.argv[1]))
