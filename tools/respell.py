#!/usr/bin/env python3
"""Respells this repository's own definitions and lemmas: words in snake case, types in upper camel case.

usage: python3 tools/respell.py [ROOT] [--list]     --list says what would change, and writes nothing

It was run once, after the toolchain's own upgrade script. Own names are those that crates/*/specs and crates/*/proofs declare, whatever
tree it is run on; names of libraries, names that the toolchain makes of the source, strings, comments and program texts stay.
"""

import collections
import os
import re
import sys

WORD = r"[^\W\d][\w']*(?:-[\w']+)*"
TOKEN = re.compile(r"(?<![\w'-])" + WORD)
DECLARED = re.compile(r"^\s*(?:(?:pub|abbrev|unfoldable|data|record|ruleset)\s+)*(" + WORD + r")\s*(?:[({].*)?:\s*(.*)$")
RULESET = re.compile(r"^\s*(?:pub\s+)?ruleset\s+(?:pub\s+)?(" + WORD + r")\b")
IMPORT = re.compile(r"^\s*(?:ghost )?use (Rattle|mathlib|lib|native|Prim|borrow|denote)\b([^{;]*)(?:\{(.*)\})?")


def files(root):
    for folder, dirs, names in os.walk(os.path.join(root, "crates")):
        dirs[:] = sorted(d for d in dirs if d not in ("out", "data"))
        for name in sorted(names):
            if name.endswith((".antt", ".rt", ".edit")):
                yield os.path.join(folder, name)


def code_parts(line, mark):
    """The line in parts: (is it code, text). Comments and strings are not."""
    parts, at, i, n = [], 0, 0, len(line)
    while i < n:
        if line.startswith(mark, i) and (mark == "//" or i == 0 or line[i - 1] in " \t"):
            parts += [(True, line[at:i]), (False, line[i:])]
            return parts
        if line[i] == '"':
            j = i + 1
            while j < n and line[j] != '"':
                j += 2 if line[j] == "\\" else 1
            parts += [(True, line[at:i]), (False, line[i : j + 1])]
            at = i = j + 1
            continue
        i += 1
    return parts + [(True, line[at:])]


def own_crates(root):
    return set(os.listdir(os.path.join(root, "crates")))


def is_kind(signature):
    return bool(re.search(r"(?:^|→|:)\s*Type(?:\s+\d+)?\s*(?:where)?\s*$", signature.strip()))


def collect(root):
    """Own names with a dash: name -> whether it is a type. Imported: names taken from libraries."""
    own, imported, where = {}, set(), collections.defaultdict(set)
    crates = own_crates(root)
    for path in files(root):
        if not path.endswith(".antt"):
            continue
        answers = os.path.basename(path) in ("Answers.antt", "Invariants.antt", "Proof.antt")
        with open(path, encoding="utf-8") as f:
            text = f.read()
        for line in text.split("\n"):
            code = "".join(t for is_code, t in code_parts(line, "--") if is_code)
            m = IMPORT.match(code)
            if m:
                parts = m[2].strip(".").split(".")
                if not (m[1] == "Rattle" and parts[0] in crates) and m[3]:
                    imported.update(re.findall(WORD, m[3]))
                continue
            m = RULESET.match(code)
            if m and "-" in m[1]:
                own.setdefault(m[1], False)
                where[m[1]].add(path)
                continue
            m = DECLARED.match(code)
            if not m or "-" not in m[1]:
                continue
            name, signature = m[1], m[2]
            if answers and re.match(r"(goal|need|given)\.", signature):
                continue
            kind = name[0].isupper() and (re.match(r"\s*(pub )?(data|record) ", code) is not None or is_kind(signature))
            own[name] = own.get(name, False) or kind
            where[name].add(path)
    return own, imported, where


def camel(name):
    return "".join(p[:1].upper() + p[1:] for p in re.split(r"[-_]", name))


def new_name(name, kind):
    if name[0].isupper():
        return camel(name) if kind else name
    return name.replace("-", "_")


def respell(text, names, mark):
    out = []
    for line in text.split("\n"):
        out.append("".join(TOKEN.sub(lambda m: names.get(m[0], m[0]), t) if is_code else t for is_code, t in code_parts(line, mark)))
    return "\n".join(out)


def main(argv):
    only_list = "--list" in argv
    roots = [a for a in argv if a != "--list"]
    root = roots[0] if roots else "."
    own, imported, where = collect(root)
    names, kept = {}, []
    for name, kind in sorted(own.items()):
        if name in imported:
            kept.append(name)
            continue
        new = new_name(name, kind)
        if new != name:
            names[name] = new
    tokens = set()
    for path in files(root):
        with open(path, encoding="utf-8") as f:
            for line in f:
                for is_code, t in code_parts(line, "//" if path.endswith(".rt") else "--"):
                    if is_code:
                        tokens.update(TOKEN.findall(t))
    back = collections.defaultdict(list)
    for name, new in names.items():
        back[new].append(name)
    for new, olds in sorted(back.items()):
        if len(olds) > 1 or new in tokens:
            print(f"falls together: {new}: {' '.join(olds)}{' (the name is there already)' if new in tokens else ''}")
    for name in kept:
        print(f"a library has it too, kept: {name}")
    if only_list:
        for name, new in names.items():
            print(f"{name} -> {new}")
        return 0
    for path in files(root):
        with open(path, encoding="utf-8") as f:
            text = f.read()
        new = respell(text, names, "//" if path.endswith(".rt") else "--" if path.endswith(".antt") else "\0")
        if new != text:
            with open(path, "w", encoding="utf-8") as f:
                f.write(new)
    print(f"{len(names)} names respelled")
    return 0


if __name__ == "__main__":
    raise SystemExit(main(sys.argv[1:]))
