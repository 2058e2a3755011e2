#!/usr/bin/env python3
"""Brings this repository's own definitions and lemmas to one spelling: words in snake case, types in upper camel case.

usage: python3 tools/respell.py [--list]     at the top of the repository

It reads which names specs/ and proofs/ define and imports give, leaves out those that the checker makes (an answer's, an invariant's, a
measure's), and rewrites each of the others wherever it stands: in specs/ and proofs/, in the clauses of src/, in edits, and
in the code spans of README and docs/. Functions of src/, strings, inputs and outputs have no such names and stay.
A name that would be a function's gets `_lem`. It says where two names would fall together in one file, and then writes
nothing. With --list it prints the renamings alone.
"""
import os
import re
import sys

DEFINED = re.compile(r"( *)(?:(?:abbrev|opaque|unfoldable|pub|instance)\s+)*(?:(?:record|data)\s+)?([^\s:(){},.=|\"]+)(?:\s+[^=]*?)?\s*:(?:\s|$)")
TOKEN = re.compile(r"(?<![\w'·-])[A-Za-z][\w'·]*(?:-[\w'·]+)*(?![\w'·-])")
ALIAS = re.compile(r"\bas ([a-z]\w*(?:-\w+)+)")
LIBRARY = re.compile(r"use Rattle\.(?:std|core)\S*\.\{([^}]*)\}|use borrow\S*\.\{([^}]*)\}")


def files(ends):
    for top in ("crates", "docs", "unfinished"):
        for folder, dirs, names in os.walk(top):
            dirs[:] = sorted(d for d in dirs if d not in ("out", "target"))
            for name in sorted(names):
                if name.endswith(ends):
                    yield os.path.join(folder, name)


def read(path):
    with open(path, encoding="utf-8") as f:
        return f.read()


def respelled(name):
    name = re.sub(r"(?<![^_-])(?:getD|get_d)(?![^_-])", "get_or", name)
    parts = name.split("-")
    if name[0].isupper():
        return "".join(p[:1].upper() + p[1:] for p in parts)
    return "_".join(re.sub(r"(?<=[a-z])[A-Z](?=[a-z])", lambda m: "_" + m[0].lower(), p) for p in parts)


def table():
    defined, made = {}, set()
    for path in files(".antt"):
        text = read(path)
        made |= set(re.findall(r"\bgoal\.(?:at\.)?([\w'·-]+)", text))
        for listed in re.findall(r"\.Goals\.\{([^}]*)\}|\.Given\.\{([^}]*)\}", text):
            made |= {w.split(" as ")[0].strip() for w in (listed[0] or listed[1]).split(",")}
        for line in text.split("\n"):
            it = DEFINED.match(line)
            if it and TOKEN.fullmatch(it[2]):
                defined.setdefault(it[2], set()).add(path)
    for path in files((".antt", ".rt")):
        for name in ALIAS.findall(read(path)):
            defined.setdefault(name, set()).add(path)
    functions = set()
    for path in files(".rt"):
        functions |= set(re.findall(r"\bfn (\w+)", read(path)))
    own = {n: respelled(n) for n in sorted(defined) if n not in made and respelled(n) != n}
    return {n: w + "_lem" if w in functions else w for n, w in own.items()}


def rewrite(text, names):
    return TOKEN.sub(lambda m: names.get(m[0], m[0]), text)


def in_source(text, names):
    out = []
    for line in text.split("\n"):
        code, mark, said = line.partition("//")
        out.append(rewrite(code, names) + mark + said)
    return "\n".join(out)


def in_page(text, names):
    parts = re.split(r"(```.*?```|`[^`\n]*`)", text, flags=re.S)
    return "".join(rewrite(p, names) if i % 2 else p for i, p in enumerate(parts))


def main(argv):
    names = table()
    if "--list" in argv:
        for a, b in names.items():
            print(a, b)
        return 0
    new, together = {}, 0
    for path in list(files((".antt", ".rt", ".edit", ".md"))) + ["README.md"]:
        text = read(path)
        turn = in_source if path.endswith(".rt") else in_page if path.endswith(".md") else rewrite
        mine = dict(names)
        for listed in LIBRARY.findall(text):
            for word in (listed[0] or listed[1]).split(","):
                mine.pop(word.split(" as ")[0].strip(), None)
        after = turn(text, mine)
        if path.endswith(".antt"):
            words = set(re.findall(r"[A-Za-z_][\w'·]*", re.sub(r"--.*", "", text)))
            for a in sorted(set(TOKEN.findall(text)) & set(mine)):
                if mine[a] in words:
                    together += 1
                    print(f"falls together: {a} -> {mine[a]} in {path}")
        if after != text:
            new[path] = after
    if together:
        return 1
    for path, text in new.items():
        with open(path, "w", encoding="utf-8") as f:
            f.write(text)
    print(f"{len(names)} names, {len(new)} files")
    return 0


if __name__ == "__main__":
    sys.exit(main(sys.argv[1:]))
