#!/usr/bin/env python3
"""Brings the repository's own definitions and lemmas to Rattle's spelling: words in snake case, types in camel case.

Run once, at the top of the repository, right after the kit's port.py: python3 tools/respell.py
It renames what specs/ and proofs/ declare (Proof.antt files, whose names the check makes, declare nothing here), in every .antt file of crates/ and in
the clauses, imports and comments of every .rt file. Functions of src/, strings and exported names keep theirs. It prints each name, old and new,
crate by crate. A lemma whose new name is a definition's gets _lem; a field in that place gets the name in APART.
"""
import collections
import pathlib
import re

# Fields and lemmas whose name in snake case is a definition's, or a fact that is spelled as a type.
APART = {
    "zero_row": "row_zeroed",
    "row_words": "rows_lent",
    "link-words": "links_lent",
    "live-keys": "keys_reckoned",
    "live-rows": "rows_live",
    "handed-back": "row_handed_back",
    "sound-test": "sound_tests",
    "join-both": "join_both_even",
    "join-left": "join_left_linked",
    "join-right": "join_right_odd",
    "take_back": "take_back_linked",
    "take_last": "take_last_linked",
    "back-of": "back_of_run",
    "front_of": "front_of_run",
    "startsAt": "StartsAt",
}
TOKEN = re.compile(r"[^\s(){}\[\].,;\"«»]+")
HEAD = re.compile(r"(?:(?:abbrev|unfoldable|pub|data|record)\s+)+([^\s:(){}=]+)|([^\s:(){}=]+)\s*:\s")


def declared(text):
    """Each name that a file of specs/ or proofs/ declares, with whether it is a field."""
    data = False
    for line in text.split("\n"):
        if line.startswith(("--", "use ")) or not line.strip():
            continue
        if not line[0].isspace():
            data = bool(re.match(r"(pub )?data ", line))
            head = HEAD.match(line)
            if head:
                yield head[1] or head[2], False
        else:
            field = re.match(r"\s+pub\s+([^\s:]+)\s*:\s", line) or (data and re.match(r"\s+([^\s:]+)\s*:\s", line))
            inner = re.match(r"\s+([a-z][\w'-]*-[\w'-]+)\s*:\s", line)
            if field:
                yield field[1], True
            elif inner:
                yield inner[1], False


def snake(name):
    return re.sub(r"(?<=[a-z0-9])([A-Z])", lambda m: "_" + m[1].lower(), name).replace("-", "_")


def spelling(crates):
    """What each name becomes, and where it is declared."""
    where, fields = collections.defaultdict(set), set()
    for path in crates.rglob("*.antt"):
        if path.name == "Proof.antt" or "out" in path.relative_to(crates).parts:
            continue
        for name, field in declared(path.read_text(encoding="utf-8")):
            where[name].add(path.relative_to(crates).parts[0])
            if field:
                fields.add(name)
    camel = {snake(name) for name in where if re.match(r"[a-z]", name) and re.search(r"[A-Z]", name)}
    new = {}
    for name in where:
        if name in APART:
            new[name] = APART[name]
        elif re.match(r"[a-z]", name) and (re.search(r"[A-Z]", name) or "-" in name):
            new[name] = snake(name)
            if "-" in name and (new[name] in camel or new[name] in where):
                new[name] += "_lem"
        elif name in camel:
            new[name] = name + "_lem"
    after = collections.defaultdict(set)
    for name in where:
        after[new.get(name, name)].add(name)
    together = {name: olds for name, olds in after.items() if len(olds) > 1}
    if together:
        raise SystemExit(f"these names fall together: {together}")
    return new, where, fields


def respelled(text, new):
    return TOKEN.sub(lambda m: new.get(m[0], m[0]), text)


def walk(text, new, fields):
    """A Proof.antt: a name after a dot is a step that the check names, unless it is a field of the repository's own alone."""
    def word(m):
        after_dot = m.start() > 0 and text[m.start() - 1] == "."
        return m[0] if after_dot and m[0] not in fields else new.get(m[0], m[0])
    return TOKEN.sub(word, text)


def source(text, new):
    """A .rt file: its imports of ghosts, its clauses and its comments."""
    lines, clause = [], 0
    for line in text.split("\n"):
        ghost = re.match(r"\s*(ghost use|requires|ensures|ghost)\b", line)
        if ghost or clause or re.match(r"\s*//", line):
            if ghost or clause:
                clause += line.count("{") - line.count("}")
            line = respelled(line, new)
        lines.append(line)
    return "\n".join(lines)


def main():
    crates = pathlib.Path("crates")
    new, where, fields = spelling(crates)
    for path in sorted(crates.rglob("*")):
        if "out" in path.relative_to(crates).parts or not path.is_file():
            continue
        if path.suffix == ".antt":
            text = path.read_text(encoding="utf-8")
            to = walk(text, new, fields) if path.name == "Proof.antt" else respelled(text, new)
        elif path.suffix == ".rt":
            text = path.read_text(encoding="utf-8")
            to = source(text, new)
        else:
            continue
        if to != text:
            path.write_text(to, encoding="utf-8")
    for name in sorted(new, key=lambda n: (sorted(where[n]), n)):
        print(f"{' '.join(sorted(where[name]))}: {name} -> {new[name]}")


main()
