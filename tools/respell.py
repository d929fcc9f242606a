#!/usr/bin/env python3
"""Brings the definitions and lemmas of crates/ to one spelling: words in snake case.

usage: tools/respell.py [--dry]        at the top of the repository, once, after port.py

A name is respelled where a file declares it or imports it from a crate of this repository; a name of the library keeps its
spelling. Names of src/ stay. What falls together with another name is listed and gets the ending _lem where it is a lemma.
"""
import os
import re
import sys
from collections import defaultdict

TOP = os.path.dirname(os.path.dirname(os.path.abspath(__file__)))
CRATES = sorted(os.listdir(os.path.join(TOP, "crates")))
SEP = re.compile(r"([\s(){}\[\];,.\"`«»]+)")
WORD = re.compile(r"[a-z][A-Za-z0-9_'-]*\Z")
DECL = re.compile(r"^(\s*)((?:abbrev |unfoldable |pub |private )*)([^\s:{}()=]+(?: [^\s:{}()=]+)*)(?: \{[^}]*\})? : ")
USE = re.compile(r"^\s*(?:pub )?(?:ghost )?use (\S+?)(?:\.\{([^}]*)\})?(?: as (\S+?))?;?\s*$")


def walk(ending):
    for c in CRATES:
        for folder, dirs, files in os.walk(os.path.join(TOP, "crates", c)):
            dirs[:] = sorted(d for d in dirs if d != "out")
            for f in sorted(files):
                if f.endswith(ending):
                    yield os.path.join(folder, f)


def of_function(path):
    """Whether a file is in the folder of a function's proof, whose names are Rattle's."""
    return os.path.basename(path) in ("Proof.antt", "Answers.antt", "Invariants.antt")


def snake(name):
    name = name.replace("getD", "get_or")
    name = re.sub(r"([a-z0-9])([A-Z])", r"\1_\2", name)
    return re.sub(r"([A-Z]+)([A-Z][a-z])", r"\1_\2", name).lower()


def own_path(path):
    parts = path.split(".")
    return parts[0] == "crate" or (parts[0] == "Rattle" and len(parts) > 1 and parts[1] in CRATES)


def imports(text):
    own, library = set(), set()
    for line in text.split("\n"):
        m = USE.match(line)
        if not m or not m.group(2):
            continue
        into = own if own_path(m.group(1)) else library
        for it in m.group(2).split(","):
            words = it.split(" as ")
            into.add(words[0].strip())
            if len(words) > 1:
                into.add(words[-1].strip())
    return own, library


def declared(path, text):
    """The names that a file declares, and whether each is a definition."""
    out = {}
    for line in text.split("\n"):
        if line.lstrip().startswith("--"):
            continue
        m = DECL.match(line)
        if not m:
            continue
        marks = m.group(2)
        for w in m.group(3).split(" "):
            if w in ("abbrev", "unfoldable", "pub", "data", "record", "module", "where", "let", "use"):
                continue
            if WORD.match(w):
                out[w] = out.get(w, False) or "abbrev" in marks or "unfoldable" in marks or "/specs/" in path
    return out


def main(dry):
    texts = {p: open(p, encoding="utf-8").read() for p in list(walk(".antt")) + list(walk(".rt")) + list(walk(".edit"))}
    here, definitions, lemmas = {}, set(), set()
    for p, t in texts.items():
        if not p.endswith(".antt"):
            continue
        d = declared(p, t)
        if of_function(p):
            d = {w: False for w in d if not re.search(r"(?m)^\s*(abbrev )?(pub )?" + re.escape(w) + r" : (.*tie\.|goal\.|.*statement)", t)}
            d = {w: v for w, v in d.items() if not w.endswith("-spec")}
        here[p] = d
        for w, is_def in d.items():
            (definitions if is_def else lemmas).add(w)
    lemmas -= definitions
    new = {}
    for w in sorted(definitions):
        n = snake(w).replace("-", "_")
        if n != w:
            new[w] = n
    taken = defaultdict(set)
    for w in definitions:
        taken[new.get(w, w)].add(w)
    for w in sorted(lemmas):
        parts = [snake(x) for x in w.split("-")]
        n = parts[0]
        for b in parts[1:]:
            n += "_" + b
        if any(o in definitions for o in taken[n]):
            n += "_lem"
        if n != w:
            new[w] = n
        taken[n].add(w)
    together = {n: ws for n, ws in taken.items() if len(ws) > 1}
    for n, ws in sorted(together.items()):
        print("together:", n, sorted(ws))
    tokens_before = defaultdict(set)
    for p, t in texts.items():
        for tok in SEP.split(t):
            tokens_before[tok].add(p)
    for w, n in sorted(new.items()):
        if n in tokens_before and n not in definitions | lemmas:
            print("stood already:", w, "->", n, [os.path.relpath(x, TOP) for x in sorted(tokens_before[n])][:3])
    fields = set()
    for p, t in texts.items():
        if p.endswith(".antt"):
            for m in re.finditer(r"(?m)^  (?:pub )?([a-z][A-Za-z0-9_'-]*) : ", t):
                fields.add(m.group(1))
    changed = 0
    for p, t in texts.items():
        own, library = imports(t)
        if p.endswith(".edit"):
            m = re.search(r"(?m)^file: (\S+)", t)
            source = os.path.join(os.path.dirname(os.path.dirname(p)), m.group(1)) if m else None
            own, library = imports(texts.get(source, ""))
            own |= set(here.get(source, {}))
        own |= set(here.get(p, {}))
        pieces = SEP.split(t)
        out = []
        for i, tok in enumerate(pieces):
            if tok in new and (tok in own and tok not in library or tok in own and tok in here.get(p, {})):
                tok = new[tok]
            elif tok in new and i > 0 and pieces[i - 1].endswith(".") and tok not in library and not tok.startswith("loop-"):
                if tok in fields or (i > 1 and pieces[i - 2][:1].islower() and not of_function(p)) or pieces[i - 2][:1].isupper():
                    tok = new[tok]
            elif tok in new and tok in fields and tok not in library and re.match(r"\s+=", pieces[i + 1] + (pieces[i + 2] if i + 2 < len(pieces) else "") if i + 1 < len(pieces) else ""):
                tok = new[tok]
            out.append(tok)
        after = "".join(out)
        if after != t:
            changed += 1
            if not dry:
                with open(p, "w", encoding="utf-8") as f:
                    f.write(after)
    print(f"respell: {len(new)} names, {changed} files")
    if dry:
        for w, n in sorted(new.items()):
            print("  ", w, "->", n)


main("--dry" in sys.argv)
