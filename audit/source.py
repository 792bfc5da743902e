"""The .rt sources as the audit sees them: functions with their bodies, constants, structs, and who calls whom.

It reads the layout that rt fmt writes: an item starts at the left margin, and a body that follows a contract stands between a line '{' and a
line '}'. Contracts are never read, nor are methods: below the face the rules alone have some.
"""
import dataclasses
import pathlib
import re

TOKEN = re.compile(r"\s+|//[^\n]*|[A-Za-z_]\w*|\d\w*|::|->|=>|[-+*/%]=|==|!=|<=|>=|&&|\|\||\.\.|.", re.S)
HEAD = re.compile(r"^(?:pub )?fn (\w+)", re.M)
METHOD = re.compile(r"^ +(?:pub )?fn (\w+)", re.M)
CONSTANT = re.compile(r"^(?:pub )?const (\w+): (\w+) = (\w+);$", re.M)
STRUCT = re.compile(r"^(?:pub )?struct (\w+)(?:<(\w+)>)? \{\n(.*?)^\}", re.M | re.S)
ENUM = re.compile(r"^(?:pub )?enum (\w+) \{\n(.*?)^\}", re.M | re.S)
INTEGERS = ("u8", "u32", "usize")


@dataclasses.dataclass
class Token:
    text: str
    at: int


@dataclasses.dataclass
class Item:
    """A function, or a constant, whose body is its value."""
    crate: str
    path: str
    name: str
    params: dict
    gives: str
    body: list
    lends: str = ""  # what it hands to the closure that it takes
    calls: set = dataclasses.field(default_factory=set)

    @property
    def label(self):
        return f"{self.crate}/{self.name}"


class Sources:
    """Every item of the named crates, with the types that they are written in."""

    def __init__(self, root, crates):
        self.root, self.crates = pathlib.Path(root), crates
        self.texts, self.items = {}, {}
        self.structs, self.enums, self.aliases, self.constants, self.uses = {"Range": ("T", {"start": "T", "end": "T"})}, {}, {}, {}, {}
        for crate in ["rules", *crates]:
            for path in sorted(self.root.glob(f"crates/{crate}/src/**/*.rt")):
                self.read(crate, str(path.relative_to(self.root)))
        for item in self.items.values():
            words = [token.text for token in item.body]
            named = [word for word, after in zip(words, [*words[1:], ""]) if after == "(" or word.isupper()]
            item.calls = {label for label in (self.called(item, word) for word in named) if label in self.items}

    def read(self, crate, path):
        text = (self.root / path).read_text(encoding="utf-8")
        self.texts[path] = text
        self.uses[path] = dict(found[::-1] for found in brought_in(text))
        self.aliases.update(re.findall(r"^pub type (\w+) = (.+);$", text, re.M))
        for name, given, fields in STRUCT.findall(text):
            self.structs[name] = (given, dict(re.findall(r"(\w+): (.+),$", fields, re.M)))
        for name, variants in ENUM.findall(text):
            self.enums[name] = re.findall(r"^    (\w+)(?: = \d+)?,$", variants, re.M)
        for found in CONSTANT.finditer(text):
            self.constants[(crate, path, found.group(1))] = found.group(2)
            if crate in self.crates:
                self.add(Item(crate, path, found.group(1), {}, found.group(2), [Token(found.group(3), found.start(3))]))
        if crate in self.crates:
            for found in HEAD.finditer(text):
                self.add(self.function(crate, path, found))
            for name in METHOD.findall(text):
                raise SystemExit(f"{path}: {name} is a method, and those are not read")

    def add(self, item):
        if item.label in self.items:
            raise SystemExit(f"{item.path}: {item.label} is there twice")
        self.items[item.label] = item

    def function(self, crate, path, head):
        text = self.texts[path]
        bounds = text[head.end():past_bounds(text, head.end())]
        opens = head.end() + len(bounds)
        closes = closing(text, opens)
        params = {}
        for param in split(text[opens + 1:closes]):
            name, kind = param.split(":", 1)
            params[name.replace("mut ", "").strip()] = self.plain(kind)
        gives = re.match(r"\) -> ([^\n{]+)", text[closes:])
        starts = text.index("\n{\n", closes) + 3
        ends = text.index("\n}\n", closes) + 1
        if ends < starts:
            raise SystemExit(f"{path}: the body of {head.group(1)} does not stand between '{{' and '}}'")
        lends = re.search(r"\bFn(?:Mut|Once)?\((\w+)\)", bounds)
        return Item(crate, path, head.group(1), params, self.plain(gives.group(1)) if gives else "", tokens(text, starts, ends), lends.group(1) if lends else "")

    def plain(self, kind):
        """A type without lifetime and aliases; a slice lent to write is one lent to read as well."""
        kind = re.sub(r"'\w+ ", "", kind).replace("&mut ", "&").strip()
        return self.aliases.get(kind, kind)

    def fields(self, kind):
        """The fields of a struct with their types, those of a generic one as it is given."""
        name, _, given = (kind or "").removesuffix(">").partition("<")
        word, fields = self.structs.get(name, ("", {}))
        if word and not given:
            return {field: kind for field, kind in fields.items() if not re.search(rf"\b{word}\b", kind)}
        return {field: self.plain(re.sub(rf"\b{word}\b", given, kind) if word else kind) for field, kind in fields.items()}

    def called(self, item, name):
        """The label of what a name in an item leads to, where that is an item."""
        way = self.uses[item.path].get(name)
        if way is None:
            return f"{item.crate}/{name}"
        first = way.split("::")[0]
        return f"{first if first in self.crates else item.crate}/{name}"

    def reached(self, label):
        """What a call runs, itself first."""
        found, todo = [], [label]
        while todo:
            at = todo.pop(0)
            if at not in found:
                found.append(at)
                todo += sorted(self.items[at].calls)
        return found


def brought_in(text):
    """The names that a file of code brings in, each with the path before it; of several in braces each by itself."""
    found = []
    for way, names, name in re.findall(r"^(?:pub )?use ((?:\w+::)+)(?:\{([^{}]*)\}|(\w+));", text, re.M):
        found += [(way, one) for one in re.findall(r"\w+", names or name)]
    return found


def tokens(text, starts, ends):
    found, at = [], starts
    while at < ends:
        word = TOKEN.match(text, at).group()
        if not word.isspace() and not word.startswith("//"):
            found.append(Token(word, at))
        at += len(word)
    return found


def closing(text, opens):
    depth = 0
    for at in range(opens, len(text)):
        depth += {"(": 1, ")": -1}.get(text[at], 0)
        if depth == 0:
            return at
    raise SystemExit("a bracket is not closed")


def past_bounds(text, at):
    """Past the type parameters that stand here, if any do."""
    depth = 0
    while depth or text[at] != "(":
        depth += (text[at] == "<") - (text[at] == ">" and text[at - 1] != "-")
        at += 1
    return at


def split(text):
    """The parts between commas, but for those in brackets."""
    parts = re.findall(r"(?:[^,<(]|<[^>]*>|\([^)]*\))+", text)
    return [part for part in (p.strip() for p in parts) if part]


def public_calls(root, sources):
    """The functions that the face hands on."""
    face = (pathlib.Path(root) / "crates/hop/src/lib.rt").read_text(encoding="utf-8")
    labels = [f"{way.removesuffix('::')}/{name}" for way, name in brought_in(face)]
    return [label for label in labels if label in sources.items and label.split("/")[1].islower()]
