"""What is said of a refused program: the judgement of tests/reasons and of audit/code."""
import re

FACT, UNFIT, NOTHING = "by a fact", "does not fit", "no reason"
# what shows only that the proof was written for other code
MARKS = ("that can be named from here", "is not in scope", "has no field", "has no `", "error[", "Parse", "broke off")
# what rt says of an edit that was refused, before the first line of the prover that shows it
REFUSED = "refused, as it must be: "


def names_alone(error):
    """Whether an error says only that the proof names what the code no longer has: today a goal has the names of the code in its own."""
    return any(mark in "error" + error for mark in MARKS)


def shown(note):
    """Whether a goal that was not proved is shown false: values are known at which it fails. rt may cut the line short."""
    return bool(re.search(r"`\); the facts?\b", note))


def told(log):
    """The errors of a log, without what follows from an earlier refusal, and the facts that are refused: errors, and what no proof was found for. Beside
    an error of names alone a goal without a proof is no fact by itself: its proof may stand under another name. There it must be shown false."""
    errors = [error for error in re.findall(r": error(.*)$", log, re.M) if "was not admitted" not in error]
    unproved = re.findall(r"^note: \S+: it is not proved that .*$", log, re.M) + re.findall(r"^fn .*no proof: .*did not prove", log, re.M)
    if any(names_alone(error) for error in errors):
        unproved = [note for note in unproved if shown(note)]
    return errors, [error for error in errors if not names_alone(error)] + unproved


def reason(log):
    """Why the prover refused: FACT where each error is a fact that does not hold, UNFIT with the first error that only says that the proof no
    longer fits the code, NOTHING where no fact is named."""
    errors, facts = told(log)
    for error in errors:
        if names_alone(error):
            return UNFIT, error[:200]
    return (FACT, "") if facts else (NOTHING, "")


def of_edit(said):
    """The same of what the gate says of an edit: that it is refused, and the first line of the prover that shows it. Where every error only names
    what the edit took away, or where the prover met a limit of its own, rt says so in place of that line."""
    if said.startswith(REFUSED):
        return reason(said.removeprefix(REFUSED))
    return (UNFIT, said[:200]) if "a proof file names what the edit took away" in said else (NOTHING, said[:200])
