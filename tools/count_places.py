#!/usr/bin/env python3
"""Counts the places that docs/DESIGN-PASS.md speaks of, in src/: count_places.py [--list] [CHECKOUT]."""
import pathlib
import re
import sys
from collections import defaultdict

# What a pattern finds, by point.
PATTERNS = {
    "1 a refusal handed on by an arm": r"\bErr\(\w+\) => (?:return )?Err\(|\bOk\((\w+)\) => (?:Ok\(\1\)|\1),",
    "1 a refusal after let-else": r"let (?:Some|Ok)\([^=]*\) = [^;{]*\belse \{\s*return Err\([^;]*;",
    "1 a number for a kind": r"^ +[A-Z]\w*::[\w:()_, ]+ => \d+,$",
    "1 an arm that cannot come": r"=> unreachable!?\(\)",
    "3 a loop that counts an index": r"^ *for (?!_)\w+ in \(?[\w.]*\.\.|^ *while (?!let)",
    "4 a type without Debug and equality": r"#\[derive\(Clone, Copy\)\]",
    "4 a comparison field by field": r"^ *&& \w+\.\w+ (?:as \w+ )?== ",
    "6 a list cut to a length beside it": r"\[(?:0)?\.\.[\w.]+(?:count|len\(\))\]",
    "7 a switch on which step to run": r"match (?:act|step)\b",
}


def functions(text):
    """The name, the number of parameters and the `requires` of each function."""
    for start in re.finditer(r"^ *(?:pub(?:\(crate\))? )?fn (\w+)(?:<[^(]*>)?\(", text, re.M):
        depth, end = 1, start.end()
        while depth:
            depth += {"(": 1, ")": -1}.get(text[end], 0)
            end += 1
        inside = re.sub(r"<[^<>]*>|\[[^\[\]]*\]|\([^()]*\)", "", text[start.end() : end - 1])
        clauses = re.split(r"\{\n|\n *\{\}|;\n", text[end:])[0]
        yield (
            start.group(1),
            len([p for p in inside.split(",") if p.strip()]),
            re.findall(r"^ *requires[^{]*\{(.*)\}$", clauses, re.M),
        )


def places(top):
    found, facts = defaultdict(list), defaultdict(set)
    for path in sorted(top.glob("crates/*/src/*.rt")):
        text, where = path.read_text(), f"{path.parts[-3]}/{path.name}"
        for name, pattern in PATTERNS.items():
            for hit in re.finditer(pattern, text, re.M):
                line = text.count("\n", 0, hit.start()) + 1
                found[name].append(f"{where}:{line}: {hit.group(0).strip().splitlines()[0]}")
        for name, parameters, clauses in functions(text):
            if parameters > 7:
                found["5 a function of more than seven parameters"].append(f"{where}: {name}: {parameters}")
            for clause in clauses:
                if " × " in clause:
                    found["5 several facts in one clause"].append(f"{where}: {name}")
                for fact in clause.split(" × "):
                    facts[re.sub(r"\b(now|old|new|entry)\b", "_", fact.strip(" ()"))].add(f"{where}: {name}")
    for fact, users in sorted(facts.items()):
        if len(users) > 2:
            found["5 a fact in three contracts or more"].append(f"{fact}: {len(users)}")
    return found


if __name__ == "__main__":
    folders = [word for word in sys.argv[1:] if word != "--list"]
    for name, hits in sorted(places(pathlib.Path(*folders)).items()):
        print(f"{len(hits):4}  {name}")
        if "--list" in sys.argv:
            print(*(f"        {hit}" for hit in hits), sep="\n")
