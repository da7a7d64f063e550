#!/usr/bin/env python3
"""Spells the repository's own definitions and lemmas in snake case: levelAt becomes level_at.

usage: python3 tools/snake_names.py        at the top of the repository, once, after port.py

A word is an identifier of antt, whose parts are joined by dashes; in each part that begins in lower case, an upper-case letter behind a lower-case one or a digit
becomes an underscore and the lower-case letter. In a word that specs/ writes, a field or a variable mostly, a dash becomes an underscore too; the dash of a lemma's
name stays, since it joins what the lemma speaks of. Types and modules, which begin in upper case, keep their spelling, and so do strings and comments of .rt files that
name no such word. A word is turned where crates/ defines or uses it: in .antt and .rt files, in must-fail edits, and in the pages and scripts of MORE.
"""
import os
import re

WORD = re.compile(r"(?<![A-Za-z0-9_'-])[A-Za-z_][A-Za-z0-9_'₀-₉-]*")
STRING = re.compile(r'b?"(?:\\.|[^"\\])*"')
# a word of the older library, whose name today's library gives to the same function
OLDER = {"getD": "get_or"}
# lemmas that would have the name of a definition that they speak of, with the files that have them
LEMMAS = {
    "crates/scripts/proofs/ScriptLaws.antt": ["left_back"],
    "crates/stages/proofs/LevelLaws.antt": ["lent_fits"],
    "crates/store/proofs/LineReads.antt": ["lists_at"],
    "crates/store/proofs/SheetReads.antt": ["list_read"],
    "crates/store/proofs/TellLaws.antt": ["list_read", "lists_at"],
    "crates/store/proofs/lists/read_list/Proof.antt": ["lists_at"],
    "crates/store/proofs/sheets/write_sheet/Proof.antt": ["lists_at"],
}
MORE = ["README.md", "docs", "compare", ".ci", "tools"]


def snake(word, specs=frozenset()):
    parts = []
    for part in word.split("-"):
        if re.match(r"[a-z_]", part):
            part = OLDER.get(part) or re.sub(r"(?<=[a-z0-9'])[A-Z]", lambda m: "_" + m.group(0).lower(), part)
        parts.append(part)
    return ("_" if word in specs else "-").join(parts)


def files(top, ends):
    for folder, dirs, names in os.walk(top):
        dirs[:] = sorted(d for d in dirs if d not in ("out", "target", ".git"))
        for name in sorted(names):
            if name.endswith(ends):
                yield os.path.join(folder, name)


def read(path):
    with open(path, encoding="utf-8") as f:
        return f.read()


def words_of_specs():
    """The words with a dash that specs/ writes: fields, definitions, variables."""
    found = set()
    for path in files("crates", (".antt",)):
        if "/specs/" in path:
            found |= {w for w in WORD.findall(re.sub(r"--.*|(?m:^\s*(?:pub )?use .*$)", "", read(path))) if re.fullmatch(r"[a-z][\w'-]*-[\w'-]*\w'*", w)}
    return found


def words_of_proofs():
    """Each word that crates/ writes in specs, proofs and clauses, with what it is to be."""
    turned, specs = {}, words_of_specs()
    for path in files("crates", (".antt", ".rt")):
        text = read(path)
        if path.endswith(".rt"):
            text = STRING.sub('""', text)
        for word in WORD.findall(text):
            to = snake(word, specs)
            if to != word:
                turned[word] = to
    return turned


def words_of_pages(paths):
    """Words of pages whose form in snake case is a word of crates/."""
    known = set()
    for path in files("crates", (".antt", ".rt")):
        known |= {snake(w) for w in WORD.findall(read(path))}
    found = {w: snake(w) for path in paths for w in WORD.findall(read(path))}
    return {w: to for w, to in found.items() if w != to and to in known}


def turn(text, turned, strings):
    def one(m):
        return turned.get(m.group(0), m.group(0))
    if strings:
        return WORD.sub(one, text)
    out, at = [], 0
    for m in STRING.finditer(text):
        out += [WORD.sub(one, text[at:m.start()]), m.group(0)]
        at = m.end()
    return "".join(out + [WORD.sub(one, text[at:])])


def main():
    turned = words_of_proofs()
    paths = list(files("crates", (".antt", ".rt", ".edit")))
    pages = []
    for more in MORE:
        pages += [more] if os.path.isfile(more) else [p for p in files(more, (".md", "cited", ".awk")) if "snake_names" not in p]
    turned |= words_of_pages(pages)
    paths += pages
    changed = 0
    for path in paths:
        text = read(path)
        new = turn(text, {w: w + "_lem" for w in LEMMAS.get(path, [])}, True)
        new = turn(new, turned, not path.endswith(".rt"))
        if new != text:
            with open(path, "w", encoding="utf-8") as f:
                f.write(new)
            changed += 1
    print(f"{len(turned)} words, {changed} files")


if __name__ == "__main__":
    main()
