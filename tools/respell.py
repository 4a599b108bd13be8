#!/usr/bin/env python3
"""Brings the names of the repository's own definitions, lemmas, fields and constructors to snake case: `nextRelease` and
`next-release` become `next_release`. Types, modules and what src/ declares keep their spelling, and so does every name that a file takes
from a library of the kit. Where two names of one file would fall together the script stops and writes nothing.

usage: tools/respell.py             rewrites crates/ (sources, specs, proofs and edits), README.md, docs/ and tests/names
       tools/respell.py --list      prints 'old new' for each name, and writes nothing
"""
import collections
import glob
import os
import re
import sys

os.chdir(os.path.join(os.path.dirname(os.path.realpath(__file__)), ".."))
# Names of lemmas that would fall together with a definition's or a function's: the lemma gets `_lem`.
LEMMAS = {
    n: n.replace("-", "_") + "_lem"
    for n in (
        "all-jobs begun-of chain-count chain-line chain-lines chain-one entry-judged goes_on judged-whole last-place late-greatest late-task level-runs "
        "line-end next-in next-job next-release no-chains rank-at task-at task-line task-lines too_long first-period gather-level hand-over "
        "is-quiet refused-at same-chain"
    ).split()
}
CRATES = {os.path.basename(c) for c in glob.glob("crates/*")}
WORD = re.compile(r"[^\s(){}\[\],;.:`\"|=]+")
DECLARED = re.compile(r"^\s*(?:(?:pub|abbrev|unfoldable|private|ruleset)\s+)*((?:[^\s:{}()=|]+\s+)*?[^\s:{}()=|]+)\s+:(?:\s|$)(.*)")
OWN_USE = re.compile(r"^(?:ghost )?use ([A-Za-z_]+(?:[.·][^\s{]+)?)(?:\.?\{([^}]*)\})?", re.M)


def snake(name):
    name = re.sub(r"(?<=[a-z0-9])([A-Z])", lambda m: "_" + m.group(1).lower(), name)
    return name.replace("-", "_")


def is_own(name):
    if not re.match(r"[a-z]", name) or name.startswith("Need-"):
        return False
    if re.search(r"[^A-Za-z0-9_'\-₀-₉⁰-⁹]", name):
        return False
    return ("-" in name or re.search(r"[a-z0-9][A-Z]", name)) and snake(name) != name


def files(*patterns):
    found = []
    for p in patterns:
        found += [f for f in glob.glob(p, recursive=True) if "/out/" not in f and os.path.isfile(f)]
    return sorted(set(found))


def from_the_kit(text):
    names = set()
    for m in OWN_USE.finditer(text):
        path = re.split(r"[.·]", m.group(1))
        own = path[0] == "Rattle" and len(path) > 1 and path[1] in CRATES
        if own or not m.group(2):
            continue
        for item in m.group(2).split(","):
            names.update(item.replace(" as ", " ").split())
    return names


def declared(antt):
    names = collections.defaultdict(set)
    for f in antt:
        with open(f, encoding="utf-8") as it:
            text = it.read()
        kit = from_the_kit(text)
        for line in text.splitlines():
            m = DECLARED.match(line)
            if not m or line.lstrip().startswith(("use ", "let ", "λ", "--", "(", "where")) or m.group(2).startswith("tie."):
                continue
            for n in m.group(1).split():
                if is_own(n) and n not in kit:
                    names[n].add(f)
    return names


def renamed(text, table, only_quoted=False):
    kit = from_the_kit(text)
    turn = lambda m: table[m.group(0)] if m.group(0) in table and m.group(0) not in kit else m.group(0)
    quoted = lambda t: re.sub(r"`[^`\n]*`", lambda q: WORD.sub(turn, q.group(0)), t)
    if only_quoted:
        return quoted(text)
    # In a comment a word with a dash may be English: there only what is quoted, in camel case or behind a dot is a name.
    told = lambda t: re.sub(r"(?<=[\w']\.)[a-z][\w'-]*", turn, re.sub(r"[a-z]+[A-Z][\w']*", turn, quoted(t)))
    lines = []
    for line in text.split("\n"):
        mark = re.search(r"(?:^|(?<=\s))(?:--(?=\s)|//)", line)
        code, comment = (line[: mark.start()], line[mark.start() :]) if mark else (line, "")
        parts = re.split(r'("(?:[^"\\]|\\.)*")', code)
        lines.append("".join(p if p.startswith('"') else WORD.sub(turn, p) for p in parts) + told(comment))
    return "\n".join(lines)


def steps(text, functions):
    """In a proof that walks the code the step of a call has the function's own name."""
    step = re.compile(r"\.([a-z0-9]+(?:-[a-z0-9]+)+?)(\d*)(?![\w-])")
    return step.sub(lambda m: "." + m.group(1).replace("-", "_") + m.group(2) if m.group(1).replace("-", "_") in functions else m.group(0), text)


def main():
    antt = files("crates/*/specs/**/*.antt", "crates/*/proofs/**/*.antt")
    names = declared(antt)
    table = {n: snake(n) for n in names} | LEMMAS
    if "--list" in sys.argv:
        print("\n".join(f"{a} {b}" for a, b in sorted(table.items())))
        return 0
    texts = antt + files("crates/*/src/**/*.rt", "crates/*/must-fail/*.edit", "crates/*/edits/*.edit")
    fallen = 0
    for f in texts:
        with open(f, encoding="utf-8") as it:
            text = it.read()
        words = set(WORD.findall(text))
        kit = from_the_kit(text)
        ends = collections.defaultdict(set)
        for w in words:
            ends[table.get(w, w) if w not in kit else w].add(w)
        for new, olds in ends.items():
            if len(olds) > 1:
                fallen += 1
                print(f"{f}: {' and '.join(sorted(olds))} fall together as {new}")
    if fallen and "--anyway" not in sys.argv:
        print(f"{fallen} names fall together: nothing was written")
        return 1
    functions = set()
    for f in files("crates/*/src/**/*.rt"):
        with open(f, encoding="utf-8") as it:
            functions.update(re.findall(r"\bfn ([a-z_0-9]+)", it.read()))
    changed = 0
    for f in texts + files("README.md", "docs/**/*.md", "tests/names"):
        with open(f, encoding="utf-8") as it:
            text = it.read()
        names = {a: b for a, b in table.items() if a not in functions} if f.endswith(".rt") else table
        new = renamed(steps(text, functions) if f.endswith("/Proof.antt") else text, names, f.endswith(".md"))
        if new != text:
            changed += 1
            with open(f, "w", encoding="utf-8") as it:
                it.write(new)
    print(f"{len(table)} names, {changed} files")
    return 0


sys.exit(main())
