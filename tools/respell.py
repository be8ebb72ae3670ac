#!/usr/bin/env python3
"""Respells the repository's own definitions and lemmas: words in snake case, as today's Rattle has them.

usage: python3 tools/respell.py [--dry]     at the top, after the kit's port.py

It goes by text over crates/: .antt files whole, .rt files and must-fail edits too. Own names are those that
.antt files of crates/ declare: definitions, lemmas, rulesets, fields and constructors. Types and modules, and
names that the library has, stay. It stops, with nothing written, where two names of a file fall together.
"""

import os
import re
import sys

NAME = r"[A-Za-z_][\w'-]*"
EDGE = r"[\w'+*-]"
# Where two names of a file would fall together, the definition keeps the plain one, and the lemma on it gets this.
LAW = "_law"
# Lemmas that port.py has respelled already as a definition is to be spelled.
LEMMAS = ["index_in", "int_at", "int_test", "same_at", "to_end"]
# Names that the check itself makes or looks for keep their spelling.
MADE = re.compile(r"(invariant|decreases|ghost)-|returns-|.*-(preserved|requires|start|ends|returns)$")


def files(kinds):
    for folder, dirs, names in os.walk("crates"):
        dirs[:] = sorted(d for d in dirs if d != "out")
        for name in sorted(names):
            if name.endswith(kinds):
                yield os.path.join(folder, name)


def read(path):
    with open(path, encoding="utf-8") as f:
        return f.read()


def snake(name):
    """The name in snake case: sameBytes and same-bytes are same_bytes."""
    name = re.sub(r"(?<=[a-z0-9'])([A-Z])(?=[A-Z0-9_'-]|$)", r"_\1", name)
    name = re.sub(r"([A-Z]+)(?=[A-Z][a-z])", r"_\1", name)
    name = re.sub(r"(?<=[a-z0-9'])([A-Z])", r"_\1", name)
    return name.replace("-", "_").replace("__", "_").lower()


def uncommented(text):
    return re.sub(r"--[^\n]*", "", text)


def declared(text):
    """Names that a file of antt declares, types and modules aside."""
    found = set()
    for line in uncommented(text).splitlines():
        line = re.sub(r"^\s*", "", line)
        m = re.match(rf"(?:(?:abbrev|unfoldable|pub|ruleset) )*({NAME}(?: {NAME})*) (?::|=)(?: |$)", line)
        if m and not line.startswith(("use ", "unfolding ", "module ", "let ")):
            found |= set(m.group(1).split())
    return {n for n in found if n[0].islower() or n[0] == "_"}


def renames():
    own = set()
    for path in files(".antt"):
        own |= declared(read(path))
    table = {n: snake(n) for n in own if snake(n) != n and not MADE.match(n)}
    table |= {n: n + LAW for n in LEMMAS if n in own}
    for path in files(".antt"):
        there = set(re.findall(NAME, code(read(path))))
        plain = {table[n] for n in there if n in table and "-" not in n} | {n for n in there if n not in table}
        for n in there:
            if "-" in n and table.get(n) in plain:
                table[n] += LAW
    return table


def code(text):
    """A file of antt without comments and without the paths of other modules."""
    return re.sub(r"Rattle\.[\w.]+", "", uncommented(text))


def parts(path, text):
    """A file's text in pieces, and whether each is code; names with dashes are words in comments."""
    mark = "--" if path.endswith(".antt") else "//"
    for line in text.splitlines(keepends=True):
        if path.endswith(".edit") and not line.startswith(("old:", "new:")):
            yield line, False
        else:
            at = line.find(mark)
            at = len(line) if at < 0 else at
            yield line[:at], True
            yield line[at:], False


def turn(path, text, pattern, table):
    def one(piece, is_code):
        return pattern.sub(lambda m: m.group(0) if "-" in m.group(0) and not is_code else table[m.group(0)], piece)

    return "".join(one(piece, is_code) for piece, is_code in parts(path, text))


def main(argv):
    table = renames()
    words = sorted(table, key=len, reverse=True)
    pattern = re.compile(rf"(?<!{EDGE})(?<!\bc\.)(?<!\btie\.)(?<!\bgoal\.)(?:{'|'.join(map(re.escape, words))})(?!{EDGE})")
    fallen, out = [], {}
    for path in files((".antt", ".rt", ".edit")):
        text = read(path)
        there = set(re.findall(NAME, code(text))) - set(table)
        used = {m.group(0) for m in pattern.finditer(code(text) if path.endswith(".antt") else text)}
        if path.endswith(".antt"):
            for name in sorted(used):
                if table[name] in there:
                    fallen.append(f"{path}: {name} and {table[name]}")
        new = {}
        for name in sorted(used):
            new.setdefault(table[name], []).append(name)
        fallen += [f"{path}: {' and '.join(names)} are both {n}" for n, names in new.items() if len(names) > 1]
        turned = turn(path, text, pattern, table)
        if turned != text:
            out[path] = turned
    if fallen:
        print("\n".join(fallen))
        print(f"respell: {len(fallen)} names fall together; nothing was written")
        return 1
    print(f"respell: {len(table)} names in {len(out)} files")
    if "--dry" in argv:
        for n in sorted(table):
            print(f"{n} {table[n]}")
        return 0
    for path, text in out.items():
        with open(path, "w", encoding="utf-8") as f:
            f.write(text)
    return 0


if __name__ == "__main__":
    raise SystemExit(main(sys.argv[1:]))
