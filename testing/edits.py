"""The must-fail edits: where they are, what their comments name, and what the gate said of each."""
import dataclasses
import pathlib
import re

import sources
from tally import text

GATE = pathlib.Path("target/gate.log")  # what the last run of ./test heard of rt ci


@dataclasses.dataclass(frozen=True)
class Edit:
    crate: str
    path: pathlib.Path

    @property
    def name(self):
        return f"{self.crate}/{self.path.stem}"

    def named(self, word):
        """What its comment names on a line '# WORD: .., ..'."""
        return [name for line in re.findall(rf"^# {word}: (.*)$", text(self.path), re.M) for name in line.split(", ")]


def of(crate):
    """Every edit of a crate."""
    return [Edit(crate, path) for path in sorted(pathlib.Path("crates", crate, "must-fail").glob("*.edit"))]


def told():
    """What the gate said of each edit, by its name."""
    log = text(GATE) if GATE.is_file() else ""
    return {f"{crate}/{stem}": said for crate, stem, said in re.findall(r"^rt: must-fail (\w+)/(\S+)\.edit: (.*)$", log, re.M)}


def crates():
    return sources.crates()
