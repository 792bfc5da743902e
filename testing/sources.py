"""What the Rattle sources say, as rt fmt lays them out."""
import re

from tally import text


def crates():
    """The crates that crates.txt lists, in its order."""
    return [re.match(r"\w+", line)[0] for line in text("crates.txt").split("\n") if ":" in line and not line.startswith("#")]


def handed_on(source):
    """The path of each thing that a file hands on by `pub use`, in its order; of several in braces each by itself."""
    found = []
    for way, names in re.findall(r"^pub use ([^;{]*)(?:\{([^;]*)\})?;", source, re.M):
        found += [way + name for name in re.split(r",\s*", names.strip().rstrip(","))] if names else [way]
    return found


def calls_of(source):
    """Those that are functions: the face's, `CRATE::NAME`."""
    return [path for path in handed_on(source) if re.fullmatch(r"(?:\w+::)+[a-z_]\w*", path)]


def head_of(lines):
    """The lines of a function up to where its body's brace opens: a clause of a contract has lines of its own, and ends with its braces."""
    head, depth = [], 0
    for line in lines:
        head.append(line)
        if depth or re.match(r"\s*(requires|ensures)\b", line):
            depth += line.count("{") - line.count("}")
        elif line.rstrip().endswith(("{", "}")):
            break
    return head


def clauses(head):
    """The clauses of a head, each as its kind, its name or nothing, and what stands in its braces."""
    found = re.findall(r"^\s*(requires|ensures)\b\*?\s*(\w*)\s*\{ ?(.*?) ?\}$(?=\n\s*(?:requires|ensures)\b|\n\{|\Z)", "\n".join(head), re.M | re.S)
    return [(kind, name, " ".join(said.split())) for kind, name, said in found]


def brought(source):
    """The module that each name comes from which a file brings in; two where two lines bring it in."""
    found = {}
    for module, names in re.findall(r"^(?:ghost )?use ([^\s{}]+)\.\{([^}]*)\};?$", source, re.M):
        for name in re.findall(r"[^\s,]+", names):
            found[name] = f"{found[name]} and {module}" if name in found else module
    return found


def upper(name):
    """The name of a constant for that of a variant: `NOT_LIVE` for `NotLive`."""
    return re.sub(r"(?<=[a-z])(?=[A-Z])", "_", name).upper()


def numbered(source):
    """The variants of an enum that are given a number, by the names of constants."""
    return {upper(name): number for name, number in re.findall(r"^    (\w+) = (\d+),$", source, re.M)}
