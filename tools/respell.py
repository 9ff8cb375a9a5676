#!/usr/bin/env python3
"""Brings this repository's own definitions and laws to the spelling of the library: snake case.

usage: python3 tools/respell.py    at the top of the repository, right behind port.py, with port.py's changes not yet committed

What is declared below crates/*/specs and crates/*/proofs is renamed: camelCase and kebab-case become snake_case. A law that would get the name of a
definition gets `_lem` behind it. Types, modules, functions of src/, exported C names and what the library names stay. Must-fail edits follow their
lines: what a line's text became, its edit's text becomes too. Pages follow between backquotes.
"""

import difflib
import glob
import os
import re
import subprocess
import sys

WORD = r"[^\s(){}\[\].,;:=λ→`\"]+"
NAME = re.compile(WORD)


def git(path):
    r = subprocess.run(["git", "show", "HEAD:" + path], capture_output=True, text=True)
    return r.stdout if r.returncode == 0 else ""


def antt():
    return sorted(p for p in glob.glob("crates/**/*.antt", recursive=True) if "/out/" not in p)


def declared(text):
    for line in text.split("\n"):
        if line.strip().startswith("--"):
            continue
        m = re.match(r"^\s*(?:(?:pub|unfoldable|abbrev|pattern)\s+)*(?:(?:data|record)\s+)?(" + WORD + r")(?:\s+[({].*)?\s*:\s", line)
        if m:
            yield m.group(1)


def library(text, crates):
    for m in re.finditer(r"^\s*(?:ghost )?use ([^\s{]+?)\.\{([^}]*)\}", text, re.M):
        parts = re.split(r"[.·]", m.group(1))
        if not (parts[0] == "Rattle" and len(parts) > 1 and parts[1] in crates):
            yield from (x.strip().split(" as ")[0] for x in m.group(2).split(","))


def snake(n):
    n = n.replace("getD", "get_or")
    n = re.sub(r"(?<=[a-z0-9])([A-Z])", lambda m: "_" + m.group(1).lower(), n)
    return re.sub(r"(?<=\w)-(?=\w)", "_", n)


def table():
    crates = set(os.listdir("crates"))
    own, kit, laws = set(), set(), set()
    for p in antt():
        text = open(p, encoding="utf-8").read()
        kit.update(library(text, crates))
        if not p.endswith("/Proof.antt"):
            own.update(declared(text))
    own = {n for n in own if re.match(r"^[a-z]", n)}
    definitions = {snake(n) for n in own if "-" not in n}
    to = {}
    for n in sorted(own - kit):
        s = snake(n)
        if s == n:
            continue
        if "-" in n and (s in definitions or s in kit):
            s += "_lem"
        to[n] = s
    # laws and fields that port.py brought to the spelling that a definition gets here
    landed = set()
    for p in antt():
        landed.update(declared(git(p)))
    for s in sorted({snake(n) for n in own - kit if re.search("[A-Z]", n)}):
        if s in own and s.replace("_", "-") in landed and s not in landed:
            to[s] = s + "_lem"
    return to


def in_code(text, to):
    return NAME.sub(lambda m: to.get(m.group(0), m.group(0)), text)


def in_prose(text, to):
    camel = lambda s: re.sub(r"\b[a-z]+[a-z0-9]*[A-Z]\w*", lambda m: to.get(m.group(0), m.group(0)), s)
    parts = text.split("`")
    return "`".join(in_code(p, to) if i % 2 else camel(p) for i, p in enumerate(parts))


def respelled(path, text, to):
    mark = "--" if path.endswith(".antt") else "//"
    out = []
    for line in text.split("\n"):
        m = re.match(r"^(.*?)(?:(^|(?<=\s))" + mark + r"(?=\s|$))(.*)$", line)
        if m and '"' not in m.group(1):
            out.append(in_code(m.group(1), to) + mark + in_prose(m.group(3), to))
        elif path.endswith(".rt"):
            out.append('"'.join(p if i % 2 else in_code(p, to) for i, p in enumerate(line.split('"'))))
        else:
            out.append(in_code(line, to))
    return "\n".join(out)


def words(line):
    return re.findall(r"\s+|" + WORD + r"|.", line)


def follow(was, now, text, to):
    """The change that turned the line `was` into `now`, applied to the text of another line like it; names that `was` lacks as everywhere."""
    a, b = words(was), words(now)
    swap = {}
    for op, i, j, k, l in difflib.SequenceMatcher(None, a, b, autojunk=False).get_opcodes():
        if op == "replace" and j - i == l - k:
            swap.update((x, y) for x, y in zip(a[i:j], b[k:l]) if re.search(r"\w", x) and re.search(r"\w", y))
    return "".join(swap[w] if w in swap else w if w in b else to.get(w, w) for w in words(text))


def edits(to):
    for path in sorted(glob.glob("crates/*/must-fail/*.edit")):
        crate = path.split("/must-fail/")[0]
        lines = open(path, encoding="utf-8").read().split("\n")
        target = next(l[len("file: "):].strip() for l in lines if l.startswith("file: "))
        was = git(crate + "/" + target).split("\n")
        now = open(crate + "/" + target, encoding="utf-8").read().split("\n")
        near = dict()
        for op, i, j, k, l in difflib.SequenceMatcher(None, was, now, autojunk=False).get_opcodes():
            if op == "equal" or (op == "replace" and j - i == l - k):
                near.update(zip(range(i, j), range(k, l)))
        out, pair = [], None
        for line in lines:
            tag = line[:5]
            text = line[5:]
            if tag == "old: ":
                at = [i for i, x in enumerate(was) if text.strip() and text in x]
                pair = (was[at[0]], now[near[at[0]]]) if len(at) == 1 and at[0] in near else None
            if tag in ("old: ", "new: "):
                text = follow(*pair, text, to) if pair else respelled(target, text, to)
            out.append(tag + text)
        new = "\n".join(out)
        if new != "\n".join(lines):
            open(path, "w", encoding="utf-8").write(new)
        body = "\n".join(now)
        for l in out:
            if l.startswith("old: ") and body.count(l[5:]) != 1:
                print("left:", path, l)


def main():
    to = table()
    for path in antt() + sorted(glob.glob("crates/*/src/**/*.rt", recursive=True)):
        text = open(path, encoding="utf-8").read()
        seen = {}
        for w in set(NAME.findall(text)):
            seen.setdefault(to.get(w, w), set()).add(w)
        for new, olds in sorted(seen.items()):
            if len(olds) > 1:
                print("look:", path, new, sorted(olds))
        new = respelled(path, text, to)
        if new != text:
            open(path, "w", encoding="utf-8").write(new)
    edits(to)
    landed = set()
    for p in subprocess.run(["git", "ls-tree", "-r", "--name-only", "HEAD", "crates"], capture_output=True, text=True).stdout.split():
        if p.endswith(".antt") and not p.endswith("/Proof.antt"):
            landed.update(declared(git(p)))
    names = set(to.values()) | {snake(n) for n in landed}
    pages = {n: to.get(n) or snake(n) for n in landed if re.match(r"^[a-z]", n)}
    for path in ["README.md", "check/README.md", *sorted(glob.glob("docs/**/*.md", recursive=True))]:
        text = open(path, encoding="utf-8").read()
        new = "\n".join("`".join(in_code(p, pages) if i % 2 else p for i, p in enumerate(l.split("`"))) for l in text.split("\n"))
        if new != text:
            open(path, "w", encoding="utf-8").write(new)
    print(len(to), "names")


if __name__ == "__main__":
    sys.exit(main())
