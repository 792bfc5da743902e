"""How many mutants of each function are tried."""
FEWEST = 6  # for a public call


def quotas(sources, calls, lists, each):
    """As many as wanted of each function, and at least six of those that a public call reaches: in its own crate first, then nearest first."""
    quota = {label: min(each, len(found)) for label, found in lists.items()}
    for call in calls:
        reached = [label for label in sources.reached(call) if label in lists]
        own = [label for label in reached if label.split("/")[0] == call.split("/")[0]]
        fill(quota, lists, own)
        fill(quota, lists, reached)
    return quota


def fill(quota, lists, labels):
    """One more of each in turn, until there are six or no mutant is left."""
    while sum(quota[label] for label in labels) < FEWEST:
        open_ones = [label for label in labels if quota[label] < len(lists[label])]
        if not open_ones:
            return
        least = min(open_ones, key=lambda label: quota[label] / len(lists[label]))
        quota[least] += 1
