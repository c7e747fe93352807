#!/usr/bin/env python3
"""Lists the places in src/ that an older Rattle's habits leave, by the points of docs/DESIGN-PASS.md.

usage: tools/places.py [-c] [DIR]    DIR: a checkout (default: this folder); -c: counts alone

A line `POINT.KIND: COUNT` for each kind, and below it a line `FILE:LINE TEXT` for each place. The search goes by text: it finds candidates, and a reader
decides. Tests below #[cfg(test)] count like any other code.
"""
import glob
import os
import re
import sys
from collections import defaultdict

KEYWORDS = set("""as break const continue crate else enum ensures false fn for ghost if impl in let loop match mod move mut
pub ref requires return self Self static struct super trait true type use where while""".split())
KINDS = r"\b(VARIABLE|FIGURE|OBJECT|SELECT|UPDATE|CLONE|LET|METHOD)\b"


def sources(top):
    for path in sorted(glob.glob(os.path.join(top, "crates/*/src/**/*.rt"), recursive=True)):
        with open(path, encoding="utf-8") as f:
            yield os.path.relpath(path, top), f.read()


def code_of(line):
    return "" if line.lstrip().startswith("//") else line.split(" // ")[0]


def functions(text):
    """(first line, head, body) of each function with a body."""
    lines = text.split("\n")
    for at, line in enumerate(lines):
        m = re.match(r"^(\s*)(pub(\(crate\))? )?(extern \"C\" )?fn \w+", line)
        if not m:
            continue
        indent = m.group(1)
        rest = []
        for more in lines[at:]:
            rest.append(more)
            if more in (indent + "}", indent + "{}") or (more.endswith(("{}", "}")) and len(rest) == 1) or more.endswith(";") and "{" not in "".join(rest):
                break
        whole = "\n".join(rest)
        clause = re.search(r"\n\s*(requires|ensures)\b|\n\s*\{|\{", whole)
        head = whole[: clause.start()] if clause else whole
        cut = whole.find("\n" + indent + "{\n")
        body = whole[cut:] if cut >= 0 else whole[len(head):]
        yield at + 1, head, whole, body


def shape(body):
    words = re.findall(r"[A-Za-z_]\w*|\d[\w.]*|b?'[^']*'|\"[^\"]*\"|\S", re.sub(r"//.*", "", body))
    out = []
    for w in words:
        if w in KEYWORDS or not re.match(r"[\w'\"]", w):
            out.append(w)
        elif re.match(r"\d|b?'|\"", w):
            out.append("N")
        else:
            out.append("I")
    return " ".join(out)


def find(top):
    places = defaultdict(list)
    shapes, structs = defaultdict(list), defaultdict(list)
    clauses, groups = defaultdict(list), defaultdict(set)
    for path, text in sources(top):
        lines = text.split("\n")
        enum = None
        fields = []

        def note(kind, at, what):
            places[kind].append((path, at, what.strip()))

        for at, line in enumerate(lines, 1):
            code = code_of(line)
            if m := re.match(r"\s*(pub(\(crate\))? )?enum (\w+)", code):
                enum = m.group(3)
            elif enum and re.match(r"\s*\}\s*$", code):
                enum = None
            if enum and re.match(r"\s+(Refused|Astray|Outside|NoLabel|NotRunning|TrialRefused|Ended|Failed|Nothing|Unknown|Found)\b", code):
                note("1.enum with a case for failure or nothing", at, f"{enum}: {code}")
            if re.search(r"Err\((\w+)\) => (return )?Err\(\1\)|None => (return )?None\b|Err\(\w+\) => (\w+::)?(Answer|StoreAnswer)::\w*Refused|Some\((\w+)\) => Some\(\5\)", code):
                note("1.arm that hands a failure on", at, code)
            if re.search(r"\b\w+: \(?(bool|\[bool)|Result<bool|layers?: (u8|bool)|(letter|kind): u8\b", code) and not re.search(r"fn \w+.*-> bool", code.split("(")[0]):
                note("1.flag or code", at, code)
            if re.search(KINDS, code) and "use " not in code:
                note("1.number for a kind", at, code)
            if re.match(r"pub fn \w+\(\) -> u8", code):
                note("1.number that says nothing", at, code)
            if re.search(r"=> 0,$|=> 0$", code) and "Ok(())" in code:
                note("1.number for a refusal", at, code)
            if re.match(r"\s*(while|loop)\b", code):
                note("3.loop without for", at, code)
            if m := re.match(r"\s*for (\w+) in .*\.\.", code):
                v = m.group(1)
                if v != "_" and re.search(rf"\[[^\]]*\b{v}\b|entry_at\([^;]*\b{v}\b|\b{v} as usize", "\n".join(lines[at : at + 12])):
                    note("3.for over indices", at, code)
            if re.match(r"\s*for .*\.enumerate\(\)", code) or re.match(r"\s*for \w+ in ", code) and re.search(r"return (Some|true|false)", "\n".join(lines[at : at + 4])):
                note("3.search by hand", at, code)
            if re.search(r"impl .*Display for \w*Text\b", code):
                note("4.printing of a value by a type around it", at, code)
            if re.search(r"fn (number|named|\w+_named|text)\(", code):
                note("4.conversion by hand", at, code)
            if re.search(r"\w+: 0,?( \}|$)", code) and not re.search(r"\w+: 0,? \w", code):
                fields.append(at)
            if re.search(r"&'?\w* ?(mut )?\[\w+\],?$", code) and re.match(r"\s+(pub(\(crate\))? )?\w+: ", code):
                note("6.lent slice in a struct or a signature", at, code)
            if re.match(r"\s+(pub )?(parent|held|root|last|previous|env): u32", code):
                note("6.index", at, code)
            if re.search(r": \[\w+; \d+\]|= \[[\w:{} ,]+; \d+\]", code):
                note("6.fixed buffer", at, code)
            if re.search(r"match (letter|kind|layers|name)\b", code) or re.match(r"\s*if (layer|chain|blanks)\b", code):
                note("7.switch", at, code)
        runs = []
        for at in fields:
            if runs and at - runs[-1][-1] <= 1:
                runs[-1].append(at)
            else:
                runs.append([at])
        for run in runs:
            if len(run) > 1 or lines[run[0] - 1].count(": 0") > 1:
                note("4.blank value written out", run[0], lines[run[0] - 1])
        for at, head, whole, body in functions(text):
            s = shape(body)
            if len(s.split()) >= 24:
                shapes[s].append((path, at, head.split("\n")[0]))
            for clause in re.findall(r"requires (?:\w+ )?\{ (.*) \}", whole):
                clauses[re.sub(r"\.(old|now)\b", "", clause)].append((path, at, clause))
            params = re.findall(r"(\w+): (&?[^,()]+)", head.replace("\n", " "))
            params = sorted({p + ": " + re.sub(r"\s+", " ", t).strip() for p, t in params})
            for i in range(len(params)):
                for j in range(i + 1, len(params)):
                    groups[(path.split("/")[1], params[i], params[j])].add((path, at))
        for m in re.finditer(r"struct (\w+)(?:<[^>]*>)? \{\n((?:[^}]|\}\})*?)\n\}", text):
            names = tuple(re.findall(r"^\s+(?:pub(?:\(crate\))? )?(\w+): (?!\{)", m.group(2), re.M))
            if len(names) > 1:
                structs[names].append((path, text[: m.start()].count("\n") + 1, m.group(1)))
    for s, where in sorted(shapes.items(), key=lambda x: x[1]):
        if len(where) > 1:
            for w in where:
                places["2.function of the same shape as another"].append(w)
    for names, where in structs.items():
        if len(where) > 1:
            places["2.struct with the fields of another"] += where
    for clause, where in sorted(clauses.items()):
        if len(where) > 2:
            places["5.requires in three functions or more"].append((where[0][0], where[0][1], f"{len(where)} times: {clause}"))
    best = defaultdict(list)
    for (crate, a, b), where in groups.items():
        if len(where) > 2:
            best[(crate, frozenset(where))].append((a, b))
    for (crate, where), pairs in sorted(best.items(), key=lambda x: sorted(x[0][1])):
        names = sorted({n for p in pairs for n in p})
        first = min(where)
        places["5.parameters together in three functions or more"].append((first[0], first[1], f"{len(where)} functions: " + "; ".join(names)))
    return places


def main():
    args = [a for a in sys.argv[1:] if a != "-c"]
    places = find(args[0] if args else ".")
    for kind in sorted(places):
        print(f"{kind}: {len(places[kind])}")
        if "-c" not in sys.argv:
            for path, at, what in places[kind]:
                print(f"    {path}:{at} {what}")


if __name__ == "__main__":
    main()
