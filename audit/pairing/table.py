"""What is printed: a line while it runs, the table at the end, the survivors."""

COUNTS = ("bench", "laws", "list", "vectors")
HEAD = ("pair", "code = rule", *COUNTS, "own laws")


def noticed(answers):
    return [name for name in COUNTS if answers.get(name)]


def line(pair, answers):
    """One pair as it is answered."""
    words = [f"{name} ({answers[name]})" for name in COUNTS if answers.get(name)] or ["NOBODY"]
    if answers.get("own"):
        words.append(f"does not count: the rules' own laws ({answers['own']})")
    return f"{pair.name}: noticed by {', '.join(words)} [{answers['seconds']} s]"


def cells(pair, answers):
    marks = {name: "yes" if answers.get(name) else "-" for name in COUNTS}
    if answers.get("unasked"):
        marks["laws"] = "?"
    return (pair.name, answers["code"], *marks.values(), answers.get("own", "").partition(" ")[0] or "-")


def tell(told, bad, known, *, whole):
    """The table, the sums and the survivors; the exit status."""
    print()
    for row in (HEAD, ("---",) * len(HEAD), *(cells(pair, answers) for pair, answers in told)):
        print(f"| {' | '.join(row)} |")
    print()
    sums(told)
    silent = {pair.name for pair, answers in told if not noticed(answers)}
    names = {pair.name for pair, _ in told}
    survivors = sorted(silent - set(known))
    stale = sorted((set(known) & names) - silent) + (sorted(set(known) - names - set(bad)) if whole else [])
    for name in sorted(silent & set(known)):
        print(f"not noticed, and known: {name}: {known[name]}")
    for name in survivors:
        print(f"SURVIVED: {name}")
    for name in stale:
        print(f"known as not noticed, but it is noticed or there is no such pair: {name}")
    for name in bad:
        print(f"BAD: {name}")
    print(f"{len(told)} pairs, {len(told) - len(silent)} noticed, {len(silent & set(known))} known, {len(survivors)} survived")
    return int(bool(survivors or stale or bad or not told))


def sums(told):
    """How many each noticed, and how many nobody else did; how the code's proof was answered."""
    for name in COUNTS:
        all_of = [noticed(answers) for _, answers in told]
        print(f"{name}: noticed {sum(name in one for one in all_of)}, {sum(one == [name] for one in all_of)} of them alone")
    for kind in ("proved", "reading", "law", "runs", "not asked"):
        print(f"code = rule, {kind}: {sum(answers['code'].startswith(kind) for _, answers in told)}")
