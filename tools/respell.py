#!/usr/bin/env python3
"""Brings the repository's own names of definitions and lemmas to snake case, and facts to upper camel case; run once, after port.py.

usage: python3 tools/respell.py [--list]     at the top of the repository
A name is the repository's own if a file of specs/ or proofs/ declares it. Words of code in src/ keep their names, as do strings,
and words with a dash in comments and pages, which may be prose. --list prints the renamings and changes nothing.
"""

import collections
import glob
import re
import sys

# Facts, which are types: the guidelines spell them in upper camel case.
FACTS = {
    "added": "IsAdded",
    "compared": "IsCompared",
    "counted": "IsCounted",
    "fieldIs": "FieldIs",
    "indexedAfter": "IndexedAfter",
    "itemIs": "ItemIs",
    "placed": "IsPlaced",
    "rowsCompared": "RowsCompared",
    "stepIs": "StepIs",
    "told": "IsTold",
    "walked": "IsWalked",
}
# Names that would fall together with others.
SPECIAL = {"getD-zeros": "get_or-zeros"}
# Names given at an import.
ALIASES = {"rulePortForm": "rule_port_form", "serveOf": "serve_of", "tablesAt": "tables_at"}
# Lemmas that stand already under the new name of a definition, where both are named in one file.
MOVED = {
    "crates/judge/proofs/": {"read_up": "read_up_lem"},
    "crates/log_theorems/proofs/Links.antt": {"has_room": "has_room_lem"},
    "crates/policy_written/proofs/": {"is_open": "is_open_lem"},
}
# Facts whose old names are also plain words: renamed only where they are declared or imported.
PLAIN = {n for n in FACTS if not re.search("[A-Z]", n)}
LIBRARY = {"length", "take", "drop", "set", "get_or", "replicate", "reverse", "map", "append", "flatten"}
TOKEN = re.compile(r"[^\W\d][\w'′]*(?:-[\w'′]+)*")
DECLARED = re.compile(
    r"^(?P<ind> *)(?:(?:abbrev|unfoldable|pub|data|record|private)\s+)*(?P<n>[^\s:(){}◌]+)\s*:\s", re.M
)


def antt_files():
    return sorted(glob.glob("crates/*/specs/**/*.antt", recursive=True) + glob.glob("crates/*/proofs/**/*.antt", recursive=True))


def code_of_antt(line):
    i = line.find("--")
    while i > 0 and not line[i - 1].isspace():
        i = line.find("--", i + 1)
    return (line, "") if i < 0 else (line[:i], line[i:])


def code_of_rt(line):
    i = line.find("//")
    return (line, "") if i < 0 else (line[:i], line[i:])


def snake(word):
    word = re.sub(r"([a-z0-9])([A-Z])", r"\1_\2", word)
    return word.lower()


def declared():
    names, specs = collections.Counter(), set()
    for p in antt_files():
        with open(p, encoding="utf-8") as f:
            text = f.read()
        for m in DECLARED.finditer(text):
            names[m["n"]] += 1
            if "/specs/" in p:
                specs.add(m["n"])
    return names, specs


def renamings():
    names, specs = declared()
    known = {snake(n) for n in specs} | LIBRARY
    to = {}
    for n in names:
        if n in FACTS:
            to[n] = FACTS[n]
        elif n in SPECIAL:
            to[n] = SPECIAL[n]
        elif n[0].isupper() and "-" not in n:
            continue
        elif "-" in n or re.search(r"[a-z0-9][A-Z]", n):
            parts = [p if p[:1].isupper() else snake(p) for p in n.split("-")]
            dash = all(p in known for p in parts) or parts[0][:1].isupper()
            to[n] = ("-" if dash else "_").join(p if dash else snake(p) for p in parts)
    # A lemma that would have the name of a definition gets `_lem`.
    olds = collections.defaultdict(list)
    for n, new in to.items():
        olds[new].append(n)
    for new, ns in olds.items():
        if len(ns) > 1 or (new in names and new in specs):
            for n in ns:
                if "-" in n:
                    to[n] = new + "_lem"
    return {a: b for a, b in to.items() if a != b}


def tokens(path):
    with open(path, encoding="utf-8") as f:
        return set(TOKEN.findall(f.read()))


def main():
    to = renamings() | ALIASES
    files = antt_files() + sorted(glob.glob("crates/*/src/**/*.rt", recursive=True))
    edits = sorted(glob.glob("crates/*/must-fail/*.edit") + glob.glob("tests/definitions/*.edit"))
    pages = sorted(glob.glob("docs/**/*.md", recursive=True)) + ["README.md"]
    there = {p: tokens(p) for p in files}
    everywhere = set().union(*there.values())
    back = collections.defaultdict(list)
    for a, b in to.items():
        back[b].append(a)
    for b, olds in sorted(back.items()):
        if len(olds) > 1:
            print("fall together:", b, olds)
        elif b in everywhere:
            print("stands already:", olds[0], "->", b, [p for p in files if b in there[p]][:4])
    if "--list" in sys.argv:
        for a, b in sorted(to.items()):
            print(a, "->", b)
        return

    functions = set()
    for p in glob.glob("crates/*/src/**/*.rt", recursive=True):
        with open(p, encoding="utf-8") as f:
            functions |= set(re.findall(r"\bfn (\w+)", f.read()))

    crates = {p.split("/")[1] for p in files}
    library = set()

    def turn(code, plain, steps=False):
        def one(m):
            w = m.group(0)
            if w in library:
                return w
            # In a proof of a function, what follows a point may be the step of a call.
            if steps and "-" in w and code[m.start() - 1 : m.start()] == "." and snake(w).replace("-", "_") in functions:
                return snake(w).replace("-", "_")
            if w in PLAIN and w not in plain:
                return w
            return to.get(w, w)

        return TOKEN.sub(one, code)

    def camel(text):
        return TOKEN.sub(lambda m: to.get(m.group(0), m.group(0)) if re.search("[a-z0-9][A-Z]", m.group(0)) else m.group(0), text)

    for p in files:
        with open(p, encoding="utf-8") as f:
            text = f.read()
        plain = set()
        for m in re.finditer(r"^(?:ghost )?use Rattle\.\w+\.specs\.(?:Chains|Order|Counts|Walks)\.\{(.*?)\}", text, re.M):
            plain |= PLAIN & set(TOKEN.findall(m.group(1)))
        if p.endswith(".antt"):
            plain |= {m["n"] for m in DECLARED.finditer(text)} & PLAIN if re.match(r"crates/sound_names_\w+/specs/", p) else set()
        # What a file takes from a library keeps its name.
        library.clear()
        for m in re.finditer(r"^(?:ghost |pub )*use ([^\s{]+?)\.\{([^}]*)\}", text, re.M):
            owner = re.match(r"Rattle\.(\w+)\.", m.group(1))
            if not owner or owner.group(1) not in crates:
                library |= {n.split(" as ")[0].strip() for n in m.group(2).split(",")}
        moved = next((m for start, m in MOVED.items() if p.startswith(start)), {})
        out, clause, inside = [], False, 0
        for line in text.split("\n"):
            if p.endswith(".rt"):
                code, note = code_of_rt(line)
                if re.match(r"\s*(ghost|requires|ensures)\b", code):
                    clause = True
                if clause:
                    code = turn(code, plain)
                if clause:
                    inside += code.count("{") - code.count("}")
                    if inside <= 0:
                        clause, inside = False, 0
            else:
                code, note = code_of_antt(line)
                code = TOKEN.sub(lambda m: moved.get(m.group(0), m.group(0)), code)
                code = turn(code, plain, p.endswith("/Proof.antt"))
            out.append(code + camel(note))
        new = "\n".join(out)
        if new != text:
            with open(p, "w", encoding="utf-8") as f:
                f.write(new)
    library.clear()
    for p in edits:
        with open(p, encoding="utf-8") as f:
            text = f.read()
        out = [turn(x, PLAIN if ".antt" in text and p.startswith("crates/sound_names") else set()) if re.match(r"(old|new):", x) else x for x in text.split("\n")]
        new = "\n".join(out)
        if new != text:
            with open(p, "w", encoding="utf-8") as f:
                f.write(new)
    for p in pages:
        with open(p, encoding="utf-8") as f:
            text = f.read()
        new = camel(text)
        if new != text:
            with open(p, "w", encoding="utf-8") as f:
                f.write(new)


main()
