"""What the parts under tests/ share: what passed and what failed, each counted; the last line of a part is the sum."""
import pathlib
import sys

passed = failed = 0


def judged(ok, label, said=""):
    """Counts one thing, and says what is wrong with it."""
    global passed, failed
    if ok:
        passed += 1
    else:
        failed += 1
        print(f"{label}: {said}")


def same(what, who, code, header):
    """Two mappings, somebody's and the header file's, are one: a pass for each name."""
    for name in sorted(code.keys() | header.keys()):
        ok = code.get(name) == header.get(name)
        judged(ok, f"{what} {name}", f"the {who} has {code.get(name, 'none')}, the header file {header.get(name, 'none')}")


def ended():
    """Prints the sum and leaves."""
    print(f"{passed} passed, {failed} failed")
    sys.exit(failed > 0)


def text(path):
    return pathlib.Path(path).read_text(encoding="utf-8")
