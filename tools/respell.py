#!/usr/bin/env python3
"""Brings this repository's definitions and lemmas to the spelling of today's Rattle: words in snake case, types and modules in camel case, a dash only
between two names. Run once, at the top, after the toolchain's own port.py: tools/respell.py

It goes by the names that the .antt files declare, in them, in the clauses of the .rt files, in must-fail edits and, in backquotes, in README.md and docs/.
Functions of src/, exported names, strings, and single capital letters (E, P, S: the standards' own) stay. Where two names would fall together the
lemma takes '_lem'. It prints what it renamed."""
import re
import sys
from collections import defaultdict
from pathlib import Path

ROOT = Path(__file__).resolve().parent.parent
WORD = r"[A-Za-z_][\w'⁻-]*"
DECLARES = re.compile(rf"^( *)((?:(?:abbrev|unfoldable|record|data|opaque) +)*)(?:pub +)?((?:record|data) +)?({WORD})(?= :| \(| \{{)", re.M)
IMPORTS = re.compile(r"\buse ([\w.'·-]+?)\.\{([^}]*)\}")
# Tables of FIPS 46-3 that are printed in capitals.
TABLES = {"PC-1": "pc_1", "PC-2": "pc_2", "IP": "ip", "IP⁻¹": "ip⁻¹"}


def snake(name):
    name = re.sub(r"(?<=[a-z0-9])(?=[A-Z])", "_", name)
    name = re.sub(r"(?<=[A-Z])(?=[A-Z][a-z])", "_", name)
    return re.sub(r"__+", "_", name).lower()


def texts(end):
    return sorted(f for f in (ROOT / "crates").rglob("*" + end) if "out" not in f.parts)


def bare(text, comment):
    return re.sub(r'"(?:[^"\\\n]|\\.)*"', '""', re.sub(comment + r".*", "", text))


def renaming():
    files = {f: f.read_text() for f in texts(".antt")}
    definitions, lemmas, kit = set(), set(), defaultdict(set)
    for f, text in files.items():
        plain = bare(text, "--")
        for module, names in IMPORTS.findall(plain):
            if not module.startswith("Rattle.") or module.startswith("Rattle.std."):
                kit[f].update(n.split(" as ")[-1].strip() for n in names.split(","))
        for indent, kinds, data, name in DECLARES.findall(plain):
            if kinds or data:
                definitions.add(name)
            elif f.name != "Proof.antt" and (not indent or re.search(rf"(?m)^ +pub {re.escape(name)} :", plain)):
                lemmas.add(name)
    # what a dash may stand between: definitions, and the library's words
    names = {snake(n) if n[0].islower() else n for n in definitions} | {n for some in kit.values() for n in some if re.fullmatch(r"[a-z_]+", n)}
    to, taken = {}, {}
    own = sorted(definitions) + sorted(lemmas - definitions)
    # all camel-case words, of variables and of fields too
    camel = {w for f, t in files.items() for w in re.findall(rf"(?<![\w'·⁻-]){WORD}", bare(t, "--")) if re.fullmatch(r"[a-z_][\w']*", w) and re.search("[A-Z]", w)}
    for name in own + sorted(camel - set(own)):
        if name in TABLES:
            new = TABLES[name]
        elif name[0].isupper():
            if not re.search("-", name):
                continue
            new = name
        else:
            pieces = [snake(p) for p in name.split("-")]
            new = pieces[0]
            for a, b in zip(pieces, pieces[1:]):
                new += ("-" if a in names and b in names else "_") + b
        if new in taken and taken[new] != name and name in lemmas:
            new += "_lem"
        taken.setdefault(new, name)
        if new != name:
            to[name] = new
    return files, to, kit


def main():
    files, to, kit = renaming()
    token = re.compile(rf"(?<![\w'·⁻-]){WORD}")

    def turn(text, keep=(), only_camel=False, proof=False):
        def one(m):
            w = m.group(0)
            if w not in to or w in keep:
                return w
            camel = re.search("[a-z0-9].*[A-Z]", w) and "-" not in w
            after_dot = m.string[max(0, m.start() - 1):m.start()] == "."
            # a name in snake case is a function's too, and a module's; a dashed field is, in a proof, of a record that Rattle makes
            if not camel and (only_camel or (after_dot and ("-" not in w or proof))):
                return w
            return to[w]
        return token.sub(one, text)

    for f, text in files.items():
        f.write_text(turn(text, kit[f], proof=f.name == "Proof.antt"))
    for f in texts(".rt"):
        parts = re.split(r'("(?:[^"\\\n]|\\.)*")', f.read_text())
        f.write_text("".join(p if i % 2 else turn(p, only_camel=True) for i, p in enumerate(parts)))
    for f in texts(".edit"):
        text = f.read_text()
        f.write_text("\n".join(line if line.startswith("file:") else turn(line, only_camel="specs/" not in text) for line in text.split("\n")))
    for f in [ROOT / "README.md", *sorted((ROOT / "docs").rglob("*.md"))]:
        f.write_text(re.sub(r"`[^`\n]*`", lambda m: turn(m.group(0)) if re.search("[A-Z-]", m.group(0)) else m.group(0), f.read_text()))
    for name, new in sorted(to.items()):
        print(name, new)


sys.exit(main())
