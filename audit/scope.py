"""What stands where in a body: the names in scope at each token, their types, and which tokens are operands."""
import re

from source import INTEGERS, split

COMPARE = {"==", "!=", "<", ">", "<=", ">=", "&&", "||"}
OPEN, CLOSE = {"(", "[", "{"}, {")", "]", "}"}
# what a method gives, where that is not the type of what it is called on
METHODS = {"len": "usize", "is_empty": "bool"}


class Walk:
    """Goes once over a body. For each token: the names in scope with their types, whether its brace belongs to a struct literal, and whether it
    stands in a pattern."""

    def __init__(self, sources, item):
        self.sources, self.item = sources, item
        self.words = [token.text for token in item.body]
        self.scopes, self.literal, self.patterns = [], [], set()
        # the names of each block, where each bracket opened, and what is declared once a token is passed
        blocks, opened, waiting = [dict(item.params)], [], []
        for at, word in enumerate(self.words):
            names = {name: kind for block in blocks for name, kind in block.items()}
            self.scopes.append(names)
            self.literal.append(bool(opened) and self.is_literal(opened[-1]))
            if word == "let":
                waiting.append((self.ends(at), self.declared(at, names)))
            elif word == "for":
                waiting.append((self.find("{", at), self.counted(at, names)))
            elif word == "=>":
                blocks[-1].update(self.matched(at, opened[-1], names))
            elif word == "|" and self.words[at - 1] in ("(", ","):
                blocks[-1].update(self.taken(at, opened[-1]))
            elif word in OPEN:
                opened.append(at)
                blocks.append({})
            elif word in CLOSE:
                opened.pop()
                blocks.pop()
            while waiting and waiting[-1][0] == at:
                blocks[-1].update(waiting.pop()[1])

    def is_literal(self, at):
        """Whether the bracket here opens a struct literal."""
        return self.words[at] == "{" and at > 0 and self.words[at - 1] in self.sources.structs

    def find(self, wanted, at):
        """The next such token, past what stands in brackets."""
        depth = 0
        while depth or self.words[at] != wanted:
            depth += (self.words[at] in OPEN) - (self.words[at] in CLOSE)
            at += 1
        return at

    def ends(self, at):
        """The token past which holds what the 'let' here declares: the ';' of its statement, or the '{' after its condition."""
        equals = self.find("=", at)
        return self.find("{" if self.words[at - 1:at] in (["if"], ["while"]) else ";", equals)

    def declared(self, at, names):
        """What a 'let' declares, with its types."""
        equals = self.find("=", at)
        value = self.words[equals + 1:self.ends(at)]
        bound = self.bound(at + 1, equals, self.type_of(value, names))
        for name, kind in bound.items():
            if kind is None and len(value) == 1 and value[0].isdigit():
                bound[name] = self.compared(name, names) or "u32"
        return bound

    def counted(self, at, names):
        """What a 'for' goes by; over a range, of the type that its end has."""
        middle = self.find("in", at)
        over = self.words[middle + 1:self.find("{", middle)]
        return self.bound(at + 1, middle, self.type_of(over[over.index("..") + 1:], names) if ".." in over else None)

    def matched(self, at, opens, names):
        """What the pattern of a match's arm declares, before its '=>'."""
        start, depth = at, 0
        while depth or self.words[start - 1] not in (",", "{", "}"):
            start -= 1
            depth += (self.words[start] in CLOSE) - (self.words[start] in OPEN)
        match = max(place for place in range(opens) if self.words[place] == "match")
        return self.bound(start, at, self.type_of(self.words[match + 1:opens], names))

    def taken(self, at, opens):
        """What a closure takes, of the type that the function it is handed to says."""
        called = self.sources.items.get(self.sources.called(self.item, self.words[opens - 1]))
        return self.bound(at + 1, self.find("|", at + 1), called.lends if called else None)

    def bound(self, start, end, kind):
        """The names of a pattern with their types, where the whole is of this type: one name, a struct's fields, or what a variant has."""
        self.patterns.update(range(start, end))
        words = [word for word in self.words[start:end] if word != "mut"]
        if ":" in words and "{" not in words:
            words, kind = words[:1], self.sources.plain("".join(words[2:]))
        if len(words) == 1:
            return {words[0]: kind}
        if words[1:2] == ["{"]:
            fields = self.sources.fields(kind or words[0])
            return {word: fields.get(word) for word in words if word in fields}
        given = re.fullmatch(r"\w+<(.+)>", kind or "")
        parts = split(given.group(1)) if given else [None]
        return {word: parts[-1 if words[0] == "Err" else 0] for word in words if word[0].islower()}

    def compared(self, name, names):
        """The type of a bare number, by what the name is compared with later."""
        for at in range(len(self.words) - 2):
            if self.words[at:at + 2] == [name, "<"]:
                return self.type_of(self.words[at + 2:self.words.index("{", at)], names)
        return None

    def type_of(self, value, names):
        """The type of an expression, or None."""
        depth, last_as = 0, None
        for at, word in enumerate(value):
            depth += (word in OPEN) - (word in CLOSE)
            if depth == 0 and word in COMPARE and value[0] != "if":
                return "bool"
            if depth == 0 and word == "as":
                last_as = value[at + 1]
        if last_as:
            return last_as
        return self.first_type(value, names)

    def first_type(self, value, names):
        """The type of the operand that an expression begins with."""
        first, second = value[0], value[1] if len(value) > 1 else ""
        if first in ("!", "true", "false"):
            return "bool"
        if first == "if":
            return self.type_of(value[value.index("{") + 1:], names)
        if first == "[":
            return " ".join(value)
        if second == "::":
            return first if first in INTEGERS or first in self.sources.enums or first in self.sources.structs else None
        if second == "(":
            called = self.sources.items.get(self.sources.called(self.item, first))
            return called.gives if called else None
        if second == "{" and first in self.sources.structs:
            return first
        if second == ".":
            return self.chain_type(value, names)
        return names.get(first) or self.constant_type(first)

    def chain_type(self, value, names):
        kind, at = names.get(value[0]), 1
        while at + 1 < len(value) and value[at] == ".":
            if value[at + 2:at + 3] == ["("]:
                return METHODS.get(value[at + 1]) or (kind if kind in INTEGERS else None)
            kind = self.sources.fields(kind).get(value[at + 1])
            at += 2
        return kind

    def constant_type(self, name):
        return next((kind for (_, _, n), kind in self.sources.constants.items() if n == name), None)

    def owner(self, at):
        """The struct whose field stands at this token, after a '.'."""
        start = at
        while start >= 2 and self.words[start - 1] == ".":
            start -= 2
        return self.chain_type(self.words[start:at - 1], self.scopes[at])

    def is_short(self, at):
        """A field of a struct literal that is written as its value's name alone."""
        return self.literal[at] and self.words[at - 1] in ("{", ",") and self.words[at + 1] in (",", "}")

    def is_operand(self, at):
        """A name or number that is read here: no label, no pattern, nothing that is declared, called, assigned or lent by '&mut'."""
        before = self.words[at - 1] if at else ""
        after = self.words[at + 1] if at + 1 < len(self.words) else ""
        if at in self.patterns or before in ("::", "mut", "as") or after in ("(", "::"):
            return False
        if self.literal[at] and before in ("{", ",") and after == ":":
            return False
        if after in ("=", "+=", "-=") and before in (";", "{", "}", ""):
            return False
        return before != ";" or after != "]"
