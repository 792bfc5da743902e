"""The laws of the rules' own crate: who names them, and the failing ones taken out of the copy."""
import re

from pairing import scratch
from pairing.pairs import Bad

FOLDER = "crates/rules/proofs"


def named(crate):
    """The laws of the rules that the crate's proofs name, and the attributes of its code."""
    folder = scratch.ROOM / "crates" / crate
    texts = [path.read_text(encoding="utf-8") for part in ("proofs/**/*.antt", "src/**/*.rt") for path in folder.glob(part)]
    return {law for text in texts for law in re.findall(r"\brules(?:\.|::)proofs(?:\.|::)(\w+)", text)}


def take_out():
    """Takes out those that fail, until the rest is proved; their names."""
    taken = set()
    while True:
        status, said = scratch.check("rules")
        if status == 0:
            return taken
        names = {file.rpartition("/")[2].removesuffix(".antt") for file in scratch.refused_in(said)}
        if status != 1 or not names or names & taken:
            raise Bad("the rules cannot be built:\n" + said[:1500])
        taken |= names
        folder = scratch.ROOM / FOLDER
        listed = (folder / "Lib.antt").read_text(encoding="utf-8")
        for name in names:
            listed = re.sub(rf"^(pub )?mod {name}\n", "", listed, flags=re.M)
            (folder / f"{name}.antt").unlink()
        (folder / "Lib.antt").write_text(listed, encoding="utf-8")
