"""Rattle code as tokens, and what it declares, as far as the mutation run needs it.

It is no parser of Rattle: it knows the forms that this project's code has. What it gets wrong makes
a program that the kit's compiler refuses, and such a change is not counted as one that was tried.
"""
import re
from bisect import bisect_right
from collections import namedtuple

Token = namedtuple("Token", "kind text start end")
Function = namedtuple("Function", "name path owner parameters result first last")  # its body is tokens[first:last]; a method is of an owner
Fields = namedtuple("Fields", "name types")  # a struct's, or those of an enum's case: a type for each name or place

TOKEN = re.compile(
    r"""
      (?P<gap>\s+|//[^\n]*)
    | (?P<text>b?"(?:\\.|[^"\\])*"|b?'(?:\\.|[^'\\])')
    | (?P<lifetime>'[A-Za-z_]\w*)
    | (?P<number>[0-9]+(?:\.[0-9]+)?(?:[ui](?:8|16|32|64|size))?)
    | (?P<name>[A-Za-z_]\w*(?:::[A-Za-z_]\w*)*)
    | (?P<sign>\.\.=?|->|=>|==|!=|<=|>=|&&|\|\||\+=|-=|<<|[-+*/%<>=!&|.,:;(){}\[\]\#?@])
    """,
    re.VERBOSE,
)
PROOF_ONLY = re.compile(r"^[ \t]*(?:ghost use\b[^;]*;|(?:ghost|requires|ensures)\b[^{};]*\{[^{}]*\}[,;]?)", re.MULTILINE)
WORDS = {
    "return", "if", "else", "while", "loop", "for", "in", "match", "as", "let", "mut", "break", "continue", "true", "false",
}
OPENING, CLOSING = "([{", ")]}"


def tokens_of(source):
    """The tokens of the code, without those of comments and of what is there for the prover alone."""
    code = PROOF_ONLY.sub(lambda part: " " * len(part.group()), source)
    tokens, at = [], 0
    while at < len(code):
        found = TOKEN.match(code, at)
        if found is None:
            raise ValueError(f"no token of Rattle: {code[at:at + 40]!r}")
        if found.lastgroup != "gap":
            tokens.append(Token(found.lastgroup, found.group(), found.start(), found.end()))
        at = found.end()
    return tokens


def partners_of(tokens):
    """For each bracket the place of the one that it belongs to. `<` and `>` are brackets where no gap is before them."""
    partners, opened = {}, []
    for place, token in enumerate(tokens):
        is_close = place > 0 and tokens[place - 1].end == token.start
        if token.text in OPENING or token.text == "<" and is_close:
            opened.append(place)
        elif token.text in CLOSING or token.text == ">" and is_close:
            partner = opened.pop()
            partners[partner], partners[place] = place, partner
    return partners


def plain_type(tokens):
    """A type without what a loan adds: `&mut [i32]` is `[i32]`, and `Table<'_>` is `Table`."""
    kept = (token.text for token in tokens if token.text not in ("&", "&&", "mut") and token.kind != "lifetime")
    return "".join(kept).replace("<>", "")


class File:
    """A file of code: its tokens, and the functions and types that it declares."""

    def __init__(self, path, source):
        self.path, self.source = path, source
        self.tokens = tokens_of(source)
        self.partners = partners_of(self.tokens)
        self.lines = [0] + [found.end() for found in re.finditer("\n", source)]
        self.owners = list(self.declared("impl", self.owner))
        self.functions = list(self.declared("fn", self.function))
        self.structs = list(self.declared("struct", self.struct))
        self.enums = list(self.declared("enum", self.enum))
        self.constants = list(self.declared("const", self.constant))

    def declared(self, word, read):
        for place, token in enumerate(self.tokens):
            if token.text == word and token.kind == "name":
                yield read(place + 1)

    def texts(self, first, last):
        return [token.text for token in self.tokens[first:last]]

    def past(self, place):
        """The place after a token, or after the bracket that it opens."""
        return max(place, self.partners.get(place, place)) + 1

    def find(self, text, place):
        """The next place that has this text, outside of any bracket that opens on the way."""
        while self.tokens[place].text != text:
            place = self.past(place)
        return place

    def parts(self, first, last):
        """What commas separate, from one place up to another: the places of each part."""
        begin = place = first
        while place < last:
            if self.tokens[place].text == ",":
                yield begin, place
                begin = place + 1
            place = self.past(place)
        if begin < last:
            yield begin, last

    def typed(self, first, last):
        """`name: type` of each part that is so, and not `self`, as a dictionary."""
        found = {}
        for begin, end in self.parts(first, last):
            if ":" in self.texts(begin, end):
                colon = self.find(":", begin)
                found[self.tokens[colon - 1].text] = plain_type(self.tokens[colon + 1 : end])
        return found

    def owner(self, place):
        """The type whose methods an impl has, and the places of these."""
        opened = self.find("{", place)
        if "for" in self.texts(place, opened):
            name = self.find("for", place) + 1
        else:
            name = self.past(place) if self.tokens[place].text == "<" else place
        return self.tokens[name].text, opened, self.partners[opened]

    def function(self, place):
        opened = self.find("(", place)
        closed = self.partners[opened]
        body = self.find("{", closed + 1)
        owner = next((name for name, first, last in self.owners if first < place < last), None)
        result = plain_type(self.tokens[closed + 2 : body])
        parameters = self.typed(opened + 1, closed)
        return Function(self.tokens[place].text, self.path, owner, parameters, result, body + 1, self.partners[body])

    def struct(self, place):
        opened = self.find("{", place)
        return Fields(self.tokens[place].text, self.typed(opened + 1, self.partners[opened]))

    def enum(self, place):
        """An enum's name, and for each case the types that it carries."""
        cases = {}
        for begin, end in self.parts(place + 2, self.partners[place + 1]):
            cases[self.tokens[begin].text] = self.carried(begin + 1, end)
        return Fields(self.tokens[place].text, cases)

    def carried(self, begin, end):
        if begin == end:
            return {}
        if self.tokens[begin].text == "{":
            return self.typed(begin + 1, end - 1)
        return {at: plain_type(self.tokens[a:b]) for at, (a, b) in enumerate(self.parts(begin + 1, end - 1))}

    def constant(self, place):
        """A constant's name and type, and the places of its value."""
        equals, end = self.find("=", place), self.find(";", place)
        return self.tokens[place].text, plain_type(self.tokens[place + 2 : equals]), equals + 1, end

    def line_of(self, offset):
        return bisect_right(self.lines, offset)

    def function_at(self, place):
        """The function around a place, or None: then it is a constant's."""
        return next((f for f in self.functions if f.first <= place < f.last), None)
