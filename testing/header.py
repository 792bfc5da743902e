"""What include/hop.h declares."""
import re

from tally import text

WHOLE = text("include/hop.h")
DECLARED = re.sub(r"/\*.*?\*/", "", WHOLE, flags=re.S)


def constants():
    """The numbers by their names, without HOP_."""
    return dict(re.findall(r"^#define HOP_(\w+) (\d+)u\s*$", DECLARED, re.M))


def structs():
    """The fields of each struct in their order, as (type, name)."""
    found = {}
    for name, body in re.findall(r"^struct hop_(\w+) \{\n(.*?)^\};", DECLARED, re.M | re.S):
        fields = re.findall(r"^    ([\w ]+) (\w+)(\[\w+\])?;", body, re.M)
        found[name] = [(kind + length, field) for kind, field, length in fields]
    return found


def prototypes():
    """What each function answers, and its parameters."""
    found = {}
    for answered, name, parameters in re.findall(r"^([\w ]+) (\w+)\(([^()]*)\);", DECLARED, re.M):
        found[name] = [answered] + [" ".join(parameter.split()) for parameter in parameters.split(",")]
    return found
