"""A pair: one mistake, made in a rule and in the code together. It is a text of lines:

    # what it gets wrong
    # differs at: where that shows
    prove: CRATE              (where the code's own crate is not the one whose proof is to be asked)
    code alone: WHY           (where no rule is bent, since no contract can say what the changed code does otherwise)
    file: crates/..           holds for the places after it
    old: ..                   stands in the file once
    more: ..                  one more line of the old or the new text
    new: ..                   what stands there instead; nothing: the line goes
The proof of an own law of the rules that names the bent place may be mended with it, so that what stands above can be asked. Of code alone the
proof of its own crate may be: what is asked is whether the prover lets that code pass, not whether it knows it.
"""
import dataclasses
import pathlib

FOLDER = pathlib.Path("audit/pairs")
KNOWN = FOLDER / "known"


class Bad(Exception):
    """A pair that cannot be tried."""


@dataclasses.dataclass
class Pair:
    name: str
    text: str
    wrong: str = ""
    differs: str = ""
    prove: str = ""
    alone: str = ""
    edits: list = dataclasses.field(default_factory=list)  # of [file, old, new]

    def crates(self):
        """The crates whose proof is asked: those of the changed code."""
        if self.prove:
            return self.prove.split()
        return sorted({file.split("/")[1] for file, _, _ in self.edits if "/src/" in file})


def read(path):
    pair = Pair(path.stem, path.read_text(encoding="utf-8"))
    file, last = "", None
    for line in pair.text.splitlines():
        word, _, rest = line.partition(": ")
        word = word.rstrip(":")
        if word == "# differs at":
            pair.differs = rest
        elif line.startswith("# "):
            pair.wrong = pair.wrong or line[2:]
        elif word == "prove":
            pair.prove = rest
        elif word == "code alone":
            pair.alone = rest
        elif word == "file":
            file = rest
        elif word == "old":
            pair.edits.append([file, rest, ""])
            last = 1
        elif word == "new":
            pair.edits[-1][2] = rest
            last = 2
        elif word == "more":
            pair.edits[-1][last] += "\n" + rest
        elif line:
            raise Bad(f"{path.name}: what is '{line}'?")
    _look(pair)
    return pair


def _look(pair):
    files = [file for file, _, _ in pair.edits]
    fault = _alone_fault(files) if pair.alone else _both_fault(files)
    if fault:
        raise Bad(f"{pair.name}: {fault}")
    if not pair.wrong or not pair.differs:
        raise Bad(f"{pair.name}: it does not say what is wrong, or where that shows")


def _both_fault(files):
    rules = [file for file in files if file.startswith("crates/rules/specs/")]
    code = [file for file in files if file.startswith("crates/") and "/src/" in file]
    laws = [file for file in files if file.startswith("crates/rules/proofs/")]
    if not rules or not code or len(rules) + len(code) + len(laws) < len(files):
        return "it changes rules and code, both, and nothing else but proofs of the rules' own laws"
    return ""


def _alone_fault(files):
    """One crate, not the rules; its code, and nothing else of it but proofs."""
    parts = {tuple(file.split("/")[:3]) for file in files}
    crates = {crate for _, crate, _ in parts}
    kinds = {kind for _, _, kind in parts}
    if len(crates) != 1 or crates == {"rules"} or "src" not in kinds or kinds - {"src", "proofs"}:
        return "code alone is that of one crate, not the rules, and nothing else of it but its proofs"
    return ""


def apply(pair, root):
    for file, old, new in pair.edits:
        path = root / file
        text = path.read_text(encoding="utf-8")
        if text.count(old) != 1:
            raise Bad(f"{pair.name}: in {file} this stands {text.count(old)} times: {old}")
        at = text.index(old)
        end = at + len(old)
        if not new and text[:at].rpartition("\n")[2].strip() == "" and text[end] == "\n":
            at, end = text[:at].rfind("\n") + 1, end + 1
        path.write_text(text[:at] + new + text[end:], encoding="utf-8")


def known():
    """The pairs that nothing can notice, each with the reason."""
    lines = KNOWN.read_text(encoding="utf-8").splitlines() if KNOWN.exists() else []
    return dict(line.split(": ", 1) for line in lines if line and not line.startswith("#"))
