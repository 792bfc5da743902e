"""Who notices a pair: each question leaves answers, in words; an empty one is 'not noticed'."""
import pathlib

from pairing import laws, scratch
from pairing.pairs import Bad

BENCH = "rules/proofs/Bench.antt"
VECTORS = "beside/vectors.txt"


def of_rules(_answers):
    """The bench, and apart from it the laws that the rules' own crate has."""
    status, said = scratch.check("rules")
    files = scratch.refused_in(said)
    if status not in (0, 1) or any("/specs/" in file or "/src/" in file for file in files) or (status == 1 and not files):
        raise Bad("the bent rules cannot be read:\n" + said[:1500])
    return {"bench": "Bench" if BENCH in files else "", "own": short([file for file in files if file != BENCH])}


def of_laws(answers):
    """The laws of runs, and where they stand those of histories. Where own laws of the rules fail, and nobody else has noticed, it is asked past
    them: they are taken out, if runs does not stand on them."""
    taken = set()
    if answers["own"] and any(answers[name] for name in ("bench", "list", "vectors")):
        return {"laws": "", "unasked": answers["own"]}
    if answers["own"]:
        taken = laws.take_out()
    for crate in ("runs", "history"):
        if taken & laws.named(crate):
            return {"laws": "", "unasked": answers["own"]}
        status, said = scratch.check(crate)
        if status == 0:
            continue
        files = scratch.refused_in(said)
        if status != 1 or not files:
            raise Bad(f"{crate} could not be asked:\n" + said[-1500:])
        return {"laws": short(files), "unasked": ""}
    return {"laws": "", "unasked": ""}


def of_list(_answers):
    """The fixed list, played: by its first difference, and past that its hand-written part alone."""
    by_hand = pathlib.Path(VECTORS).read_text(encoding="utf-8")
    whole = (scratch.REPLAY / "stdout").read_text(encoding="utf-8")
    if not whole.endswith(by_hand):
        raise Bad("the list does not end in " + VECTORS)
    first = played(whole)
    if first is None:
        return {"list": "", "vectors": ""}
    boundary = whole[: len(whole) - len(by_hand)].count("\n")
    if first >= boundary:
        return {"list": "", "vectors": line_of(whole, first)}
    second = played(by_hand)
    return {"list": line_of(whole, first), "vectors": "" if second is None else line_of(by_hand, second)}


def played(text):
    """Which line of the text the program answers otherwise, from 0; None: it answers all of it. It is compiled with checks and run with no proof."""
    asked = "".join(line.partition(" => ")[0] + "\n" for line in text.splitlines())
    (scratch.REPLAY / "stdin").write_text(asked, encoding="utf-8")
    with open(scratch.REPLAY / "stdin", "rb") as given:
        _, wrote, said = scratch.rt("replay", "try", "--seconds", "300", given=given)
    if "\nrun=" not in "\n" + said or "\nrun=none" in "\n" + said:
        raise Bad("the bent program was not built, or did not end:\n" + said[-1500:])
    wanted = text.encode()
    if wrote == wanted:
        return None
    at = next((at for at, (one, other) in enumerate(zip(wrote, wanted)) if one != other), min(len(wrote), len(wanted) - 1))
    return wanted[:at].count(b"\n")


def line_of(text, number):
    """A line, with the comment that it stands under."""
    lines = text.splitlines()
    above = [line for line in lines[: number + 1] if line.startswith("#")]
    return f"{lines[number]}  ({above[-1].lstrip('# -=') if above else ''})"


def short(files):
    names = [scratch.shown(file).removeprefix("rules/") for file in files]
    if len(names) < 2:
        return "".join(names)
    return f"{names[0]} and {len(names) - 1} more"


EVERY = (of_rules, of_list, of_laws)
