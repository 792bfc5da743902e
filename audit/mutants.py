"""Single-operand mutants: one token of a body becomes another of its type, and nothing else changes. A field that is written as its value's name
alone is written out for that: 'Key { index, .. }' becomes 'Key { index: v, .. }'."""
import dataclasses
import re

from scope import Walk


@dataclasses.dataclass(frozen=True)
class Mutant:
    label: str
    path: str
    line: int
    column: int
    at: int
    old: str
    new: str

    @property
    def name(self):
        return f"{self.label}/{self.line}:{self.column}/{self.old}→{self.new}"

    def apply(self, text):
        assert text[self.at:self.at + len(self.old)] == self.old
        return text[:self.at] + self.new + text[self.at + len(self.old):]

    def changed_line(self, text):
        """The line as the mutant has it."""
        return self.apply(text).split("\n")[self.line - 1].strip()


def numbers(word):
    """A number becomes one more, and one less where it is not 0."""
    digits, suffix = re.fullmatch(r"(\d+)(\w*)", word).groups()
    value = int(digits)
    return [f"{other}{suffix}" for other in (value + 1, value - 1) if other >= 0]


def constants(sources, item, word):
    """A constant becomes the next of its type in its file; one that has none there, the first of the rules."""
    home = next(((c, p) for c, p, n in sources.constants if n == word and p == item.path), None)
    home = home or next((c, p) for c, p, n in sources.constants if n == word)
    kind = sources.constants[(*home, word)]
    family = [n for (c, p, n), k in sources.constants.items() if (c, p) == home and k == kind]
    if len(family) == 1:
        home, family = ("rules", ""), [word] + [n for (c, _, n), k in sources.constants.items() if c == "rules" and k == kind]
    other = family[(family.index(word) + 1) % len(family)]
    near = home[1] == item.path or other in sources.uses[item.path]
    return [other if near else f"{home[0]}::{other}"]


def variants(family, word):
    """A variant that has no values becomes the next such of its enum."""
    return [family[(family.index(word) + 1) % len(family)]] if word in family and len(family) > 1 else []


def others(sources, walk, at):
    """What the token may become."""
    word, scope = walk.words[at], walk.scopes[at]
    if walk.words[at - 1:at] == ["."]:
        if walk.words[at + 1:at + 2] == ["("]:
            return []
        fields = sources.fields(walk.owner(at))
        return [name for name, kind in fields.items() if name != word and kind == fields.get(word)]
    if walk.words[at - 1:at] == ["::"]:
        return [] if at in walk.patterns else variants(sources.enums.get(walk.words[at - 2], []), word)
    if not walk.is_operand(at):
        return []
    if word[0].isdigit():
        return numbers(word)
    if word in ("true", "false"):
        return ["false" if word == "true" else "true"]
    if word in scope:
        kind, label = scope[word], f"{word}: " if walk.is_short(at) else ""
        return [label + name for name, other in scope.items() if kind and other == kind and name != word]
    if any(name == word for _, _, name in sources.constants):
        return constants(sources, walk.item, word)
    return []


def mutants_of(sources, item):
    """Every mutant of an item, in the order of its text."""
    walk, text, found = Walk(sources, item), sources.texts[item.path], []
    for at, token in enumerate(item.body):
        line = text.count("\n", 0, token.at) + 1
        column = token.at - (text.rfind("\n", 0, token.at) + 1) + 1
        for new in others(sources, walk, at):
            found.append(Mutant(item.label, item.path, line, column, token.at, token.text, new))
    return found


def spread(found):
    """The same mutants in an order whose every beginning lies evenly over the whole: by the bits of the place, read backwards."""
    bits = max(1, (len(found) - 1).bit_length())
    order = sorted(range(len(found)), key=lambda at: int(f"{at:0{bits}b}"[::-1], 2))
    return [found[at] for at in order]
