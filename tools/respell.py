#!/usr/bin/env python3
"""Brings the repository's own definitions, fields and lemmas to the toolchain's spelling: words in snake case, types in camel case.

usage: python3 tools/respell.py        once, at the top of the repository, after the toolchain's own script and before any edit by hand

It takes what specs/ and proofs/ declare (not the goals that the toolchain names, nor what a file brings in from the library), and writes the new names wherever they
stand as names: in the proof files, and in the clauses of the sources. Functions, strings and comments stay as they are. It stops where two names would fall together.
"""
import os
import re
import sys

ROOT = "crates"
NAME = r"[^\s(){}.,;:\"«»λ∀]+"
DECLARED = re.compile(r"^(\s*)((?:pub |abbrev |unfoldable )*)(" + NAME + r"(?: " + NAME + r")*) : (.*)$")
HEADED = re.compile(r"^(\s*)(?:pub )?(data|record) (" + NAME + ")(.*)$")
WORDS = {"data", "record", "where", "pub", "abbrev", "unfoldable", "let", "in", "use", "as"}


def files(*endings):
    for folder, dirs, names in os.walk(ROOT):
        dirs[:] = sorted(d for d in dirs if d != "out")
        for n in sorted(names):
            if n.endswith(endings):
                yield os.path.join(folder, n)


def split(line):
    """The code of a line, and its comment."""
    at = re.search(r"(?:^|\s)--(?:\s|$)", line)
    return (line[: at.start()], line[at.start() :]) if at else (line, "")


def generated(path):
    return os.path.basename(path) in ("Answers.antt", "Invariants.antt", "Proof.antt")


def declared():
    types, others = set(), set()
    for p in files(".antt"):
        lines = [split(l)[0] for l in open(p, encoding="utf-8").read().split("\n")]
        for n, l in enumerate(lines):
            h = HEADED.match(l)
            if h:
                types.add(h[3])
                continue
            m = DECLARED.match(l)
            if not m or (generated(p) and re.match(r"(goal\.|Goals\.|Given\.)", m[4])):
                continue
            ty, k = m[4], n
            while k + 1 < len(lines) and lines[k + 1].strip() and len(lines[k + 1]) - len(lines[k + 1].lstrip()) > len(m[1]) and " = " not in lines[k + 1]:
                k += 1
                ty += " " + lines[k].strip()
            for name in m[3].split():
                if name not in WORDS:
                    (types if re.search(r"(^|→ )Type 0$", ty.strip()) else others).add(name)
    return types, others


def camel(name):
    return "".join(w[:1].upper() + w[1:] for w in name.split("-"))


def snake(name):
    """A lemma on a fact keeps the fact's capital; an operator in a name stays."""
    parts = []
    for w in name.split("-"):
        if re.match(r"[a-z]", w):
            w = re.sub(r"(?<=[a-z])([A-Z])", lambda m: "_" + m[1].lower(), w)
        parts.append(w)
    out = parts[0]
    for w in parts[1:]:
        out += ("_" if re.match(r"[\w']", w) else "-") + w
    return out


def library(text):
    """The names that a file brings in from the toolchain's library or from what the toolchain makes."""
    got = set()
    for m in re.finditer(r"use (Rattle\.std\.|borrow\.|denote\.|Prim\.|Rattle\.\w+\.(?:specs\.(?:declared|contracts)|proofs\.[\w+./]*?(?:Goals|Given))\b)[^\n{]*\.\{([^}]*)\}", text):
        for it in m[2].split(","):
            words = it.split()
            if words:
                got.add(words[-1])
                got.add(words[0])
    return got


def respell_antt(path, text, new):
    kept = library(text)
    out = []
    for line in text.split("\n"):
        code, note = split(line)
        if re.match(r"\s*use ", code) and "{" in code and library(code):
            out.append(line)
            continue
        res, last = [], 0
        for m in re.finditer(NAME, code):
            t = m[0]
            if t not in new or t in kept:
                continue
            if m.start() and code[m.start() - 1] == ".":
                before = re.search(r"(" + NAME + r")\.$", code[: m.start()])
                if before and before[1] in ("c", "w", "goal", "Goals", "Given", "new", "old"):
                    continue
            res.append(code[last : m.start()] + new[t])
            last = m.end()
        out.append("".join(res) + code[last:] + note)
    return "\n".join(out)


def respell_rt(text, new):
    out = []
    for line in text.split("\n"):
        at = line.find("//")
        code, note = (line[:at], line[at:]) if at >= 0 else (line, "")
        pieces = re.split(r'("(?:[^"\\]|\\.)*")', code)
        for i in range(0, len(pieces), 2):
            pieces[i] = re.sub(r"(?<![\w'.-])[\w']+(?:-[\w']+)*(?![\w'-])", lambda m: new.get(m[0], m[0]) if "-" in m[0] or re.match(r"[a-z]+[A-Z]", m[0]) else m[0], pieces[i])
            pieces[i] = re.sub(r"(?<=\.)[\w']+(?:-[\w']+)+", lambda m: new.get(m[0], m[0]), pieces[i])
        out.append("".join(pieces) + note)
    return "\n".join(out)


def main():
    types, others = declared()
    new = {}
    for n in sorted(types):
        if "-" in n:
            new[n] = camel(n)
    for n in sorted(others - types):
        to = snake(n)
        if to != n:
            new[n] = to
    everything = types | others
    seen = {}
    bad = 0
    for a, b in new.items():
        if b in everything and b not in new:
            print(f"falls together: {a} and {b}", file=sys.stderr)
            bad += 1
        if b in seen:
            print(f"falls together: {a} and {seen[b]}", file=sys.stderr)
            bad += 1
        seen[b] = a
    if bad and "--force" not in sys.argv:
        return 1
    for p in files(".antt", ".rt"):
        text = open(p, encoding="utf-8").read()
        to = respell_antt(p, text, new) if p.endswith(".antt") else respell_rt(text, new)
        if to != text:
            open(p, "w", encoding="utf-8").write(to)
    print(f"{len(new)} names respelled")
    return 0


if __name__ == "__main__":
    raise SystemExit(main())
