#!/usr/bin/env python3
"""Respells the names that this repository declares as today's Rattle does: words in snake case, types and modules in camel case.

usage: tools/respell.py   at the top of the repository, once, after the kit's port.py

A definition, a lemma, a field or a constructor of specs/ and proofs/ with a dash or a capital inside gets underscores. A lemma that would have the name of
a definition gets _lem. A file specs/Contracts.antt, whose place a module of Rattle's own takes, becomes specs/Clauses.antt. Names that still fall together
in a file are printed, and then nothing is written.
"""
import collections
import re
import subprocess
import sys
from pathlib import Path

DECLARED = re.compile(r"^( *)((?:[^\s(){}.;,@\"«»:]+ )+):\s", re.M)
WORD = re.compile(r"[^\s(){}.;,@\"«»`\[\]]+")
CODE = re.compile(r'"(?:[^"\\\n]|\\.)*"|--[^\n]*|//[^\n]*')
HEAD = re.compile(r"(?<![^\s(){};,@])(?:c|w|l|g|goal|tie)[₀-₉0-9']*\.$")
MARKS = {"pub", "abbrev", "unfoldable", "opaque"}


def snake(name):
    words = re.sub(r"(?<=[a-z0-9])[A-Z]", lambda m: "_" + m[0].lower(), name)
    return words.replace("-", "_")


def is_function_proof(path):
    return "proofs" in path.parts and len(path.parts) > path.parts.index("proofs") + 2


def declared_in(text):
    """Each declared name with the number of blanks before it, and whether it is marked as one that unfolds."""
    for m in DECLARED.finditer(re.sub(r"--[^\n]*", "", text)):
        names = m[2].split()
        if {"=", "let", "in", "λ", "record", "data", "↦", "|"}.isdisjoint(names):
            for name in names:
                if name not in MARKS:
                    yield len(m[1]), name, bool({"abbrev", "unfoldable"} & set(names))


# Laws that the kit's script gave the name of a definition, or that meet one in a file that imports both.
MET = {"is_live", "live_at", "made_bytes", "most_bytes", "one_state", "shown_by", "record-again"}


def is_old(name):
    return "-" in name or bool(re.search("[a-z0-9][A-Z]", name)) and not name[0].isupper()


def table_of(files):
    definitions, laws, fields = set(), set(), set()
    for path in files:
        if is_function_proof(path) or path.suffix != ".antt":
            continue
        for indent, name, unfolds in declared_in(path.read_text(encoding="utf-8")):
            if "specs" in path.parts:
                (fields if indent and not unfolds else definitions).add(name)
            elif re.search("[a-z0-9][A-Z]", name) and "-" not in name:
                definitions.add(name)
            else:
                laws.add(name)
    table = {n: snake(n) for n in definitions | laws | fields if is_old(n)}
    taken = {snake(n) for n in definitions} | {"at_exit", "bit_or"}
    for name in laws - definitions - fields:
        if snake(name) in taken and (is_old(name) or name not in taken | {"in_range"}) or name in MET:
            table[name] = snake(name) + "_lem"
    return table


def clashes_in(path, text, table):
    met = collections.defaultdict(set)
    for indent, name, _ in declared_in(text):
        if indent == 0:
            met[table.get(name, name)].add(name)
    for m in re.finditer(r"^(?:ghost )?use \S+?\.\{([^}]*)\}", text, re.M):
        for name in re.split(r",\s*", m[1].strip()):
            name = name.split(" as ")[-1]
            met[table.get(name, name)].add(name)
    return [f"{path}: {', '.join(sorted(names))}" for names in met.values() if len(names) > 1]


def here(path, text, table):
    """The table without the words that are no old spelling, but for those that the file declares or imports as laws."""
    laws = {name for _, name, _ in declared_in(text)} if path.suffix == ".antt" and "specs" not in path.parts and not is_function_proof(path) else set()
    for m in re.finditer(r"^use \S+\.proofs\.\S+?\.\{([^}]*)\}", text, re.M):
        laws |= set(re.split(r",\s*", m[1]))
    return {old: new for old, new in table.items() if is_old(old) or old in laws}


def turned(path, text, table):
    keep = is_function_proof(path)

    def words(part):
        def one(m):
            if keep and "-" in m[0] and HEAD.search(part[: m.start()]):
                return m[0]
            return table.get(m[0], m[0])

        return WORD.sub(one, part)

    def comment(part):
        part = re.sub(r"\b[a-z0-9]+[A-Z]\w*", lambda m: table.get(m[0], m[0]), part)
        return re.sub(r"`[^`\n]*`", lambda m: words(m[0]), part)

    out, at = [], 0
    for m in CODE.finditer(text):
        out += [words(text[at : m.start()]), m[0] if m[0][0] == '"' else comment(m[0])]
        at = m.end()
    return "".join(out + [words(text[at:])])


def main():
    tracked = subprocess.run(["git", "ls-files", "crates"], capture_output=True, text=True, check=True).stdout.split("\n")
    files = [Path(p) for p in tracked if p.endswith((".rt", ".antt"))]
    table = table_of(files)
    texts = {p: p.read_text(encoding="utf-8") for p in files}
    tables = {p: here(p, texts[p], table) for p in files}
    clashes = [c for p in files for c in clashes_in(p, texts[p], tables[p])]
    if clashes:
        sys.exit("\n".join(clashes))
    for path, text in texts.items():
        new = turned(path, text, tables[path])
        new = re.sub(r"\.specs\.Contracts\b", ".specs.Clauses", new)
        if path.parts[-2:] == ("specs", "Lib.antt"):
            new = re.sub(r"(?m)^pub mod Contracts$", "pub mod Clauses", new).replace("`Contracts`", "`Clauses`")
        if new != text:
            path.write_text(new, encoding="utf-8")
        if path.parts[-2:] == ("specs", "Contracts.antt"):
            subprocess.run(["git", "mv", str(path), str(path.with_name("Clauses.antt"))], check=True)
    print(f"{len(table)} names")


if __name__ == "__main__":
    main()
