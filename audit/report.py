"""What a run of audit/code says in the end."""
import collections

import prover
import verdict
from choice import FEWEST

KINDS = [verdict.FACT, verdict.UNFIT, prover.SURVIVES]


def known(root):
    """The survivors that are explained: 'crate/function | the line as the mutant has it | why'."""
    path = root / "audit/known.txt"
    lines = path.read_text(encoding="utf-8").split("\n") if path.is_file() else []
    parts = [[part.strip() for part in line.split(" | ")] for line in lines if line and not line.startswith("#")]
    return {(label, line): why for label, line, why in parts}


def table(sources, calls, tried, partial):
    """One row a public call, but in a partial run only those that it touched. A mutant counts for every call that reaches its function; the
    second figure is that of the call's own crate."""
    rows = [["call", "tried", "in its own crate", *KINDS]]
    for call in calls:
        reached = set(sources.reached(call))
        mine = [(mutant, result) for mutant, result in tried if mutant.label in reached]
        own = [mutant for mutant, _ in mine if mutant.label.split("/")[0] == call.split("/")[0]]
        counts = collections.Counter(result for _, result in mine)
        if mine or not partial:
            rows.append([call.split("/")[1], len(mine), len(own), *(counts[kind] for kind in KINDS)])
    counts = collections.Counter(result for _, result in tried)
    rows.append(["all, each once", len(tried), "", *(counts[kind] for kind in KINDS)])
    return rows


def show(rows):
    for row in rows:
        print("| " + " | ".join(str(cell) for cell in row) + " |")
        if row is rows[0]:
            print("|---" * len(row) + "|")


def survivors(sources, results, explained):
    """Prints what survives, and what is called known and does not; how many of these are faults."""
    faults = 0
    for mutant, result in results:
        line = mutant.changed_line(sources.texts[mutant.path])
        why = explained.get((mutant.label, line))
        if result in (prover.SURVIVES, prover.UNDECIDED):
            faults += result == prover.UNDECIDED or not why
            print(f"{result}: {mutant.path}:{mutant.line}: {mutant.old}→{mutant.new}: {line}" + (f"\n    known: {why}" if why else ""))
        elif why and result in KINDS:
            faults += 1
            print(f"audit/known.txt names {mutant.name}, which does not survive")
    return faults


def tell(root, sources, calls, lists, results, partial, seconds):
    """The table, the survivors and the totals; 0 where nothing survives that is not explained, and every call has its six."""
    tried = [(mutant, result) for mutant, result in results if result in KINDS]
    rows = table(sources, calls, tried, partial)
    show(rows)
    explained = known(root)
    faults = survivors(sources, results, explained)
    if not partial:
        there = {(mutant.label, mutant.changed_line(sources.texts[mutant.path])) for found in lists.values() for mutant in found}
        lost = [f"audit/known.txt names no mutant: {label}: {line}" for label, line in explained if (label, line) not in there]
        lost += [f"{row[0]}: fewer than {FEWEST} mutants were tried" for row in rows[1:-1] if row[1] < FEWEST]
        faults += len(lost)
        print("".join(one + "\n" for one in lost), end="")
    none = sum(result == prover.NO_PROGRAM for _, result in results)
    print(f"{len(tried)} mutants tried in {seconds:.0f} s; passed over as no program: {none}")
    return 1 if faults or not tried else 0
