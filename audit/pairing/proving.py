"""Whether the changed code is proved to be the bent rule, its proof as it stands in the tree. It is asked apart from the laws: the bench, and every
law of the rules that fails, is taken out first. Pairs are bent together where their places are apart and their crates' proofs lean on the same
laws; what is refused in a group is asked again in smaller ones, and alone in the end."""
import re
import time

from pairing import laws, records, scratch
from pairing.pairs import Bad, apply


def ask_all(pairs, again):
    """Asks what is not kept. A pair whose code makes other calls comes late and alone: the proof as it stands names each call."""
    scratch.fresh()
    wanting = [pair for pair in pairs if again or records.kept(pair, "of_code") is None]
    rest = [pair for pair in wanting if same_calls(pair)]
    for kind in sorted({leans(pair) for pair in rest}):
        ask_groups([pair for pair in rest if leans(pair) == kind])
    for pair in wanting:
        if not same_calls(pair):
            ask([pair])


def same_calls(pair):
    """Its code makes the same calls, sums and differences in the same order: each is named in a proof."""
    return all(re.findall(r"\w+\(|[+-]", old) == re.findall(r"\w+\(|[+-]", new) for file, old, new in pair.edits if "/src/" in file)


def leans(pair):
    """The laws of the rules that the proofs of its crates name."""
    return tuple(sorted({law for crate in pair.crates() for law in laws.named(crate)}))


def ask_groups(pairs):
    while pairs:
        group = fitting(pairs)
        ask(group)
        pairs = [pair for pair in pairs if pair not in group]


def fitting(pairs):
    """Those that can be bent at once, the first of them among them."""
    scratch.fresh()
    group = []
    for pair in pairs:
        files = {file: (scratch.ROOM / file).read_text(encoding="utf-8") for file, _, _ in pair.edits}
        try:
            apply(pair, scratch.ROOM)
            group.append(pair)
        except Bad:
            for file, text in files.items():
                (scratch.ROOM / file).write_text(text, encoding="utf-8")
    return group


def ask(group):
    began = time.monotonic()
    try:
        proved, answer = answers_of(group)
    except Bad:
        proved, answer = set(), "not asked"
    good = [pair for pair in group if set(pair.crates()) <= proved]
    rest = [pair for pair in group if pair not in good]
    took = time.monotonic() - began
    tell(good, "proved", took / len(group))
    if len(group) == 1:
        tell(rest, answer, took)
        return
    half = len(rest) // 2 if rest == group or len(rest) > 3 else 0
    for part in (rest[:half], rest[half:]):
        if part:
            ask(part)


def tell(pairs, answer, seconds):
    for pair in pairs:
        records.keep(pair, "of_code", {"code": answer}, seconds)
        print(f"code = rule: {answer}: {pair.name} [{round(seconds)} s]", flush=True)


def answers_of(group):
    """The crates that are proved; and what else is to be said, of a single pair: reading (F): the proof of F as it stands does not fit;
    law L, runs: not asked, since it stands on L or on runs, which fails."""
    scratch.fresh()
    for pair in group:
        apply(pair, scratch.ROOM)
    scratch.without_bench()
    taken = laws.take_out()
    crates = {crate for pair in group for crate in pair.crates()}
    blocked = {crate: sorted(taken & {law for one in scratch.needed(crate) for law in laws.named(one)}) for crate in crates}
    free = sorted(crate for crate in crates if not blocked[crate])
    if not free:
        return set(), f"law {min(blocked.values())[0]}"
    said = {crate: scratch.check(crate) for crate in free}
    proved = {crate for crate, (status, _) in said.items() if status == 0}
    first = ([file for _, told in said.values() for file in scratch.refused_in(told)] or ["no file named"])[0]
    name = scratch.shown(first)
    return proved, "runs" if name.startswith("runs/") else f"reading ({name})"
