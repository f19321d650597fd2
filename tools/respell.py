#!/usr/bin/env python3
"""Brings the repository's own names to one spelling: words in snake case, types and modules in camel case.

usage: python3 tools/respell.py [--list]      at the top; --list prints the table and writes nothing

A name that specs/ or proofs/ declare outside a function's own folder is turned where it stands as a whole word: in code,
clauses, proofs, edits and pages. `countOf` becomes `count_of`. In a lemma's name a dash stays in front of a name, as in
`length-keep`, and becomes `_` in front of a plain word, as in `keep_fail`. Names of src/ stay. It is run once, on what
port.py wrote.
"""
import collections
import os
import re
import sys

WORD = re.compile(r"[^\s(){}.;,@\"«»`]+")
DECLARED = re.compile(
    r"^\s*((?:pub|unfoldable|abbrev|data|record|private)\s+)*([^\s(){}.;,@\"«»:=]+)\s*(?:[({][^=]*)?:\s"
)
HEADED = re.compile(r"^\s*(?:(?:pub|unfoldable)\s+)*(?:data|record|module)\s+([^\s(){}.;,:]+)")
# A lemma that would have the name of a word gets `_lem`: by its old name, and by its crate where it had the new spelling.
LEMMAS = (
    "answer-by in-para lines-hold page-by positions-in starts-in text-by word-in-block".split()
)
OWN = {n: n.replace("-", "_") + "_lem" for n in LEMMAS}
IN_CRATE = {
    "fulltext": ["all_hold"],
    "matcher": ["joined_at"],
    "plan": ["last_row"],
    "grammar": ["lines_rows"],
    "volume": ["read_answer"],
    "lister": ["rows_in"],
    "line": ["too_long", "too_many"],
}


def files(*endings):
    for top in ("crates", "docs", "README.md"):
        if os.path.isfile(top):
            yield top
        for folder, dirs, names in os.walk(top):
            dirs[:] = sorted(d for d in dirs if d not in ("out", "data"))
            for name in sorted(names):
                if name.endswith(endings):
                    yield os.path.join(folder, name)


def read(path):
    with open(path, encoding="utf-8") as f:
        return f.read()


def snake(part):
    part = part.replace("getD", "get_or")
    return re.sub(r"(?<=[a-z0-9])([A-Z])", lambda m: "_" + m[1].lower(), part)


def of_a_function(path):
    return path.endswith("/Proof.antt") or "/Proof/" in path


def declared():
    names, types = set(), set()
    for path in files(".antt"):
        if of_a_function(path):
            continue
        for line in read(path).split("\n"):
            line = re.sub(r"--.*", "", line)
            m = DECLARED.match(line)
            if m:
                (types if m[2][0].isupper() else names).add(m[2])
            m = HEADED.match(line)
            if m:
                types.add(m[1])
    return names, types


def cited():
    """The words that the files import, of the library and of the repository."""
    words = set()
    for path in files(".antt", ".rt"):
        for items in re.findall(r"(?:^|\s)use [^;\n{]*\{([^}]*)\}", read(path)):
            words |= {w.split(" as ")[0].strip() for w in items.split(",")}
    return words


def source_names():
    """Functions, modules, constants, fields and locals of src/."""
    names = set()
    for path in files(".rt"):
        text = re.sub(r"//[^\n]*", "", read(path))
        text = re.sub(r"ghost use [^;]*;", "", text)
        names |= set(re.findall(r"\b(?:fn|mod|struct|enum|const|static) (\w+)", text))
        names |= set(re.findall(r"\blet (?:mut )?(\w+)", text))
        names |= set(re.findall(r"\b([a-z]\w*): ", text))
    return names


def table():
    names, types = declared()
    known = {snake(n) for n in names | cited() if "-" not in n} | {n for n in types}
    source, rows = source_names(), {}
    for name in sorted(names):
        parts = name.split("-")
        new = snake(parts[0])
        for part in parts[1:]:
            part = snake(part)
            bare = part.rstrip("'")
            plain = bare not in known and re.fullmatch(r"[a-z_0-9]+", bare)
            new += ("_" if plain else "-") + part
        if new != name:
            rows[name] = OWN.get(name, new)
    return rows, names, types, source


def main(argv):
    rows, names, types, source = table()
    news = collections.Counter(rows.values())
    stay = (names - set(rows)) | types | cited()
    for old, new in rows.items():
        if news[new] > 1 or new in stay or new in source:
            print(f"clash: {old} -> {new}: {'twice ' if news[new] > 1 else ''}{'a name ' if new in stay else ''}{'of src' if new in source else ''}")
    if "--list" in argv:
        for old, new in rows.items():
            print(f"{old}\t{new}")
        return 0
    for path in files(".rt", ".antt", ".edit", ".md"):
        text = read(path)
        crate = path.split("/")[1] if path.startswith("crates/") and path.endswith(".antt") else ""
        turned = rows | {n: n + "_lem" for n in IN_CRATE.get(crate, [])}
        new = WORD.sub(lambda m: turned.get(m[0], m[0]), text)
        if new != text:
            with open(path, "w", encoding="utf-8") as f:
                f.write(new)
    return 0


if __name__ == "__main__":
    raise SystemExit(main(sys.argv[1:]))
