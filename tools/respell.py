#!/usr/bin/env python3
"""Brings the repository's own definitions, fields and constructors to snake case: words of specs/ and proofs/ and of contracts that the repository
itself declares. A lemma's dash stays: it joins two names. Functions of src/, exported names, strings, inputs and outputs keep their names.

usage: python3 tools/respell.py          at the top of the repository: rewrites crates/, once, after the library's own names were turned
       python3 tools/respell.py --list   prints each old name with its new one, and writes nothing
"""
import glob
import re
import sys

WORD = re.compile(r"[^\s(){}\[\].,;:`\"|]+")
DECLARED = re.compile(r"^\s*(?:unfoldable\s+|abbrev\s+)?(?:pub\s+)?([^\s(){}\[\].,;:`\"|]+)((?:\s+\{[^}]*\})*)\s+:\s")
LOCAL = re.compile(r"\(([^(){}:→]+)\s:\s|\{([^(){}:→]+)\s:\s")
BOUND = re.compile(r"\blet\s+([^\s(){}\[\].,;:]+)\s*(?::|=)|λ\s+([^.]+)\.")
ALIAS = re.compile(r"\bas\s+([^\s(){}\[\].,;:]+)\s*;?$")


# Where two names would fall together: a constructor and the number or test that it speaks of, an array's length and its words.
APART = {
    "no-word": "no_word_there",
    "bad-length": "length_bad",
    "bad-entry": "entry_bad",
    "bad-flags": "flags_bad",
    "record-words": "record_word_count",
    "plain-words": "plain_word_count",
    "core-words": "core_word_count",
}
# A lemma of one file that the library's script gave the name that a definition gets here.
IN_FILE = {"crates/pipeline/proofs/Lists.antt": {"is_stop": "is-stop"}}


def snake(name, dashes):
    """camelCase, and dashes where asked, as snake_case; a name that begins with a capital is a type or a fact and keeps its form."""
    if name[:1].isupper():
        return name
    if "-" not in name:
        return re.sub(r"(?<=[a-z0-9₀-₉])([A-Z])", lambda m: "_" + m.group(1).lower(), name)
    return APART.get(name, re.sub(r"(?<=[\w'?])-(?=[\w])", "_", name)) if dashes else name


def files():
    lemmas = sorted(glob.glob("crates/*/specs/**/*.antt", recursive=True)) + sorted(glob.glob("crates/*/proofs/*.antt"))
    answers = sorted(set(glob.glob("crates/*/proofs/**/*.antt", recursive=True)) - set(lemmas))
    return lemmas, answers, sorted(glob.glob("crates/*/src/**/*.rt", recursive=True))


def text(path):
    with open(path, encoding="utf-8") as f:
        return f.read()


def own_crates():
    return set(p.split("/")[1] for p in glob.glob("crates/*/src"))


def imported(t, own):
    """The words that a text takes from the library, under the name that it uses them by."""
    got = set()
    for line in t.splitlines():
        m = re.match(r"\s*(?:ghost\s+|pub\s+)?use\s+([^\s{;]+?)\.\{(.*)\}", line)
        if not m:
            continue
        parts = m.group(1).split(".")
        if parts[0] == "Rattle" and parts[1] in own:
            continue
        for item in m.group(2).split(","):
            got.add(item.strip().split(" as ")[-1].strip())
    return got


def declared(t):
    names = set()
    for line in t.splitlines():
        if re.match(r"\s*(?:pub\s+)?use\s", line):
            m = ALIAS.search(line)
            if m:
                names.add(m.group(1))
            continue
        line = line.split("--", 1)[0] if line.lstrip().startswith("--") else line
        m = DECLARED.match(line)
        if m:
            names.add(m.group(1))
        m = re.match(r"^\s+pub\s+([^\s:]+)\s+:\s", line)
        if m:
            names.add(m.group(1))
        for m in LOCAL.finditer(line):
            names |= set((m.group(1) or m.group(2)).split())
        for m in BOUND.finditer(line):
            names |= set((m.group(1) or m.group(2)).split())
    return names


def table():
    lemmas, answers, sources = files()
    own, kit, names, defined = own_crates(), set(), set(), set()
    for p in lemmas + answers + sources:
        kit |= imported(text(p), own)
    for p in lemmas:
        names |= declared(text(p))
        if "/specs/" in p:
            defined |= declared(text(p))
    for p in answers + sources:
        for line in text(p).splitlines():
            m = re.match(r"\s*(?:ghost\s+)?use\s.*\bas\s+([^\s;]+)", line)
            if m:
                names.add(m.group(1))
    return {n: s for n in names if (s := snake(n, n in defined)) != n and n not in kit}, kit


def turned(t, path, names):
    used = {}
    whole = set(WORD.findall(t))

    def one(m):
        w = m.group(0)
        if w not in names:
            return w
        new = names[w]
        if new in whole and new != w:
            used.setdefault(new, set()).add(w)
        used.setdefault(new, set())
        return new

    return WORD.sub(one, t), {n: o for n, o in used.items() if o}


def clauses(t, names):
    """In a source file: `ghost use` lines and clauses, never the code."""
    camel = {o: n for o, n in names.items() if re.search(r"[a-z0-9][A-Z]", o) or "-" in o}
    out, inside = [], 0
    for line in t.split("\n"):
        clause = inside > 0 or re.match(r"\s*(requires|ensures|ghost)\b", line)
        if clause:
            line = WORD.sub(lambda m: camel.get(m.group(0), m.group(0)), line)
            inside = max(0, inside + line.count("{") - line.count("}")) if not line.lstrip().startswith("ghost use") else 0
        out.append(line)
    return "\n".join(out)


def main():
    names, kit = table()
    if "--list" in sys.argv:
        for o in sorted(names):
            print(o, names[o])
        return
    together = {}
    for o, n in names.items():
        together.setdefault(n, set()).add(o)
    for n, os in sorted(together.items()):
        if len(os) > 1 or n in kit:
            print("look: fall together:", n, sorted(os), "(a name of the library)" if n in kit else "")
    lemmas, answers, sources = files()
    for p in lemmas + answers:
        t = text(p)
        new = WORD.sub(lambda m: IN_FILE.get(p, {}).get(m.group(0), m.group(0)), t)
        new, met = turned(new, p, names)
        for n, o in met.items():
            print(f"look: {p}: {sorted(o)} meets {n}")
        if new != t:
            with open(p, "w", encoding="utf-8") as f:
                f.write(new)
    for p in sources:
        t = text(p)
        new = clauses(t, names)
        if new != t:
            with open(p, "w", encoding="utf-8") as f:
                f.write(new)


main()
