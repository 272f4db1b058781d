#!/usr/bin/env python3
"""Brings the names of the repository's own definitions, lemmas and fields from dashes to snake case, in every crate.

usage: python3 tools/snake_names.py            at the top of the repository, once, after port.py
       python3 tools/snake_names.py --list     prints the renamings and the names that would fall together

Renamed are the names with a dash that a file of specs/ or proofs/ declares (a signature at the head of a line, a field, a
helper; also in the laws beside a function's proof), in specs/, proofs/, the ghost text of src/ and the must-fail edits; in comments, README and docs/ only between
backquotes. Names that come from the toolchain's library or that the check generates keep their spelling.
"""
import os
import re
import sys

DECLARED = re.compile(r"^\s*(?:(?:abbrev|unfoldable|pub|axiom)\s+)*(?:record\s+|data\s+)?([^\s(){}:;.,]+)\s+(?::|\()")
IMPORT = re.compile(r"^\s*(?:pub\s+|ghost\s+)?use\s+(\S+?)\.\{([^}]*)\}")
# A part of a path or a term: what stands between blanks, brackets, dots and the like.
TOKEN = re.compile(r"[^\s(){}\[\];.,`\"]+")


def files(root, ends):
    for folder, dirs, names in os.walk(os.path.join(root, "crates")):
        dirs[:] = sorted(d for d in dirs if d not in ("out", "target"))
        for n in sorted(names):
            if n.endswith(ends):
                yield os.path.join(folder, n)


def declares(path, line):
    """Whether the line can declare a name of the repository's own: any in specs/ and in laws; of a function's proof, no answer."""
    if not re.search(r"/crates/[^/]+/(specs|proofs)/.*\.antt$", path) or line.lstrip().startswith("--"):
        return False
    return not (path.endswith("/Proof.antt") and re.search(r": (tie\.|\{M : Type 1\})", line))


def read(path):
    with open(path, encoding="utf-8") as f:
        return f.read()


def collect(root):
    crates = set(os.listdir(os.path.join(root, "crates")))
    declared, foreign = set(), set()
    for path in files(root, (".antt", ".rt")):
        for line in read(path).splitlines():
            m = IMPORT.match(line)
            if m:
                where = m.group(1).split(".")
                if not (where[0] == "Rattle" and len(where) > 1 and where[1] in crates):
                    foreign |= {x.strip().split(" as ")[0] for x in m.group(2).split(",")}
                continue
            m = DECLARED.match(line) if declares(path, line) else None
            if m and "-" in m.group(1):
                declared.add(m.group(1))
    return declared, foreign


def plain(name):
    return re.search(r"[A-Za-z0-9]", name) is not None and not name.startswith("-")


def snake(name):
    """A type keeps its capital, in camel case; `bit_or` is the library's own."""
    if name[0].isupper():
        return "".join(part[:1].upper() + part[1:] for part in name.split("-"))
    return {"bit-or": "or_with_bit"}.get(name, name.replace("-", "_"))


def renamings(root):
    declared, foreign = collect(root)
    return {n: snake(n) for n in declared if plain(n) and n not in foreign}


def turn_tokens(text, to):
    return TOKEN.sub(lambda m: to.get(m.group(0), m.group(0)), text)


def turn_quoted(text, to):
    return re.sub(r"`[^`\n]*`", lambda m: turn_tokens(m.group(0), to), text)


def turn_antt(text, to):
    out = []
    for line in text.split("\n"):
        at = 0 if line.lstrip().startswith("--") else line.find(" -- ")
        if at < 0:
            out.append(turn_tokens(line, to))
        else:
            out.append(turn_tokens(line[:at], to) + turn_quoted(line[at:], to))
    return "\n".join(out)


def turn_rt(text, to):
    """Ghost imports and clauses; comments between backquotes alone; code as it is (its names have no dashes)."""
    out = []
    for line in text.split("\n"):
        if line.lstrip().startswith("//"):
            out.append(turn_quoted(line, to))
        elif re.match(r"\s*(ghost|requires|ensures)\b", line) or "{ " in line:
            out.append(turn_tokens(line, to))
        else:
            out.append(line)
    return "\n".join(out)


def turn_edit(text, to):
    return "\n".join(turn_tokens(l, to) if re.match(r"(old|new):", l) else turn_quoted(l, to) for l in text.split("\n"))


def together(root, to):
    """New names that something else bears already: a name of the repository, an import, a parameter of a function."""
    seen = {}
    for path in files(root, (".antt", ".rt")):
        for m in TOKEN.finditer(read(path)):
            seen.setdefault(m.group(0), set()).add(os.path.relpath(path, root))
    return [(old, new, sorted(seen[new])[:4]) for old, new in sorted(to.items()) if new in seen]


def main(argv):
    root = os.getcwd()
    to = renamings(root)
    if "--list" in argv:
        for old, new in sorted(to.items()):
            print(old, new)
        for old, new, where in together(root, to):
            print("together:", old, new, *where)
        return 0
    n = 0
    for path in files(root, (".antt", ".rt", ".edit")):
        text = read(path)
        new = turn_antt(text, to) if path.endswith(".antt") else turn_rt(text, to) if path.endswith(".rt") else turn_edit(text, to)
        if new != text:
            with open(path, "w", encoding="utf-8") as f:
                f.write(new)
            n += 1
    for path in [os.path.join(root, "README.md")] + [os.path.join(root, "docs", f) for f in os.listdir(os.path.join(root, "docs")) if f.endswith(".md")]:
        text = read(path)
        new = turn_quoted(text, to)
        if new != text:
            with open(path, "w", encoding="utf-8") as f:
                f.write(new)
            n += 1
    print(f"{len(to)} names, {n} files")
    return 0


if __name__ == "__main__":
    raise SystemExit(main(sys.argv[1:]))
