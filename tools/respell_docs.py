#!/usr/bin/env python3
"""Brings the pages to the names that tools/respell.py gave: in README.md and docs/, but for docs/LANDINGS.md, which tells what was.

Run once, at the top of the repository, with what tools/respell.py printed: python3 tools/respell_docs.py LIST
A name is rewritten where it is a whole word inside backticks or in a block of code. One that the list does not have, and that the kit's port.py had
respelled before it, goes to its snake case where the crates declare that; an operator `_+_` is `◌+◌`. A name that was in snake case already stands
for other things on the pages too, so it is left. It prints what it rewrote, page by page, and what it could not. Run again, it changes nothing.
"""
import collections
import pathlib
import re
import sys

NAME = re.compile(r"(?<![\w'*-])(?:\*-)?[a-z][\w']*(?:-[\w']+)*(?![\w-])|(?<![^`(])_[^\s\w`]+_(?![^`)])")
HEAD = re.compile(r"(?:(?:abbrev|unfoldable|pub|data|record)\s+)*([^\s:(){}=]+)\s*:\s")
CODE = re.compile(r"^```.*?^```$|`[^`]+`|(?<=\n\n) {4}\S.*(?:\n(?: {4}.*)?)*", re.M | re.S)


def snake(name):
    return re.sub(r"(?<=[a-z0-9])([A-Z])", lambda m: "_" + m[1].lower(), name).replace("-", "_")


def listed(path):
    """What each name became, but for those that were in snake case; such a one, written with dashes, became the same."""
    new = dict(re.findall(r"^[^:]+: (\S+) -> (\S+)$", pathlib.Path(path).read_text(encoding="utf-8"), re.M))
    dashed = {old.replace("_", "-"): name for old, name in new.items() if snake(old) == old}
    return {**dashed, **{old: name for old, name in new.items() if snake(old) != old}}


def declared():
    """The names that specs/ and proofs/ declare now."""
    texts = (path.read_text(encoding="utf-8") for part in ("specs", "proofs") for path in pathlib.Path("crates").glob(f"*/{part}/**/*.antt"))
    return {found[1] for text in texts for line in text.split("\n") if (found := HEAD.match(line.strip()))}


def main():
    new, now = listed(sys.argv[1]), declared()
    for path in [pathlib.Path("README.md"), *sorted(pathlib.Path("docs").glob("*.md"))]:
        if path.name == "LANDINGS.md":
            continue
        told = collections.Counter()

        def word(found):
            old = found[0]
            to = new.get(old) or (snake(old) if snake(old) in now or old.startswith("*-") else old)
            to = old.replace("_", "◌") if old[0] == "_" else to
            if to != old or snake(old) != old:
                told[f"{old} -> {to}" if to != old else f"left as it is: {old}"] += 1
            return to

        text = path.read_text(encoding="utf-8")
        path.write_text(CODE.sub(lambda code: NAME.sub(word, code[0]), text), encoding="utf-8")
        for said, times in sorted(told.items()):
            print(f"{path}: {said}" + (f" ({times} times)" if times > 1 else ""))


main()
