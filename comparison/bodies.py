"""What the files of Rattle code declare together, and the bodies whose code runs: of functions and of constants."""
import re

from rattle import File, WORDS, plain_type

GIVEN = re.compile(r"(?:Option|Result)<(.*?)(?:,\w+)?>")  # what a call gives, where it gives something


class Project:
    """What all the files declare together, by name."""

    def __init__(self, files):
        self.files = files
        self.functions = [f for file in files for f in file.functions]
        self.structs = {s.name: s.types for file in files for s in file.structs}
        self.enums = [(crate_of(file.path), e) for file in files for e in file.enums]

    def called(self, name, path, count):
        """The function that a call in a file means, or None for one of the kit."""
        *prefix, last = name.split("::")
        found = [f for f in self.functions if f.name == last and len(f.parameters) == count]
        if prefix:
            found = [f for f in found if prefix[-1] in (crate_of(f.path), module_of(f.path), f.owner)]
        found.sort(key=lambda f: (f.path != path, crate_of(f.path) != crate_of(path)))
        return found[0] if found else None

    def cases_of(self, name, path):
        """The cases of the enum of this name that a file means, with what each carries; None where there is none."""
        found = sorted((crate != crate_of(path), at) for at, (crate, enum) in enumerate(self.enums) if enum.name == name)
        return self.enums[found[0][1]][1].types if found else None

    def fields_of(self, name, path):
        """The types of the fields of a struct, or of an enum's case, by its path; None for any other."""
        *prefix, last = name.split("::")
        cases = self.cases_of(prefix[-1], path) if prefix else None
        return self.structs.get(last) if cases is None else cases.get(last)

    def siblings_of_field(self, field, owner):
        """The fields of the same type in the struct that has this one, or in each, where it is not known which has."""
        found = {}
        for name, types in self.structs.items():
            if field in types and owner in (name, None):
                found.update({other: 0 for other in types if other != field and types[other] == types[field]})
        return list(found)


def crate_of(path):
    return path.split("/")[1]


def module_of(path):
    return path.split("/")[-1].removesuffix(".rt")


class Body:
    """A body whose code is changed, with the types of its variables as far as they are seen."""

    def __init__(self, project, file, first, last, function=None):
        self.project, self.file, self.first, self.last, self.function = project, file, first, last, function
        self.tokens = file.tokens
        self.types = {"self": function.owner, **function.parameters} if function else {}
        self.scopes = dict.fromkeys(self.types, self.places())  # where each variable is there
        self.find_variables()

    def places(self):
        return range(self.first, self.last)

    def text(self, place):
        return self.tokens[place].text

    def source(self, first, last):
        return self.file.source[self.tokens[first].start : self.tokens[last - 1].end]

    def replace(self, first, last, new):
        return self.tokens[first].start, self.tokens[last - 1].end, new

    def is_operand(self, place):
        token = self.tokens[place]
        return token.kind != "sign" and token.text not in WORDS or token.text in (")", "]")

    def is_called(self, place):
        return self.tokens[place].kind == "name" and self.text(place) not in WORDS and self.text(place + 1) == "("

    def is_case(self, place):
        """Whether an enum's case stands there."""
        prefix, _, _ = self.text(place).rpartition("::")
        return self.project.cases_of(prefix.split("::")[-1], self.file.path) is not None

    def fields_at(self, place):
        """The types of the fields of the struct, or of the case, that is named there; None where none is."""
        return self.project.fields_of(self.text(place), self.file.path)

    def is_pattern(self, place):
        """Whether the struct or case that is named there is taken apart, and not made."""
        after = self.file.past(place + 1) if self.text(place + 1) in ("(", "{") else place + 1
        while self.text(after) == ")":
            after += 1
        return self.text(after) in ("=>", "=", "in") or self.text(after) == "|" and self.text(after - 1) == ")"

    def is_variable(self, place):
        """Whether a variable is used there: not declared, nor a field's name, nor a function's."""
        if self.text(place) not in self.types or self.text(place - 1) in (".", "let", "mut", "for"):
            return False
        if self.text(place - 1) == "|" and self.text(place + 1) == "|":
            return False
        return self.text(place + 1) not in ("(", ":", "=", "+=", "-=", "=>", "@") and not self.is_in_pattern(place)

    def is_in_pattern(self, place):
        """Whether a pattern of one level binds the name there."""
        while self.text(place) not in ("(", "{", ";", "}", ")") and place > self.first:
            place -= 1
        return self.text(place) in ("(", "{") and self.is_pattern(place - 1)

    def arguments(self, place):
        """The places of each argument of the call of the function named there."""
        return list(self.file.parts(place + 2, self.file.partners[place + 1]))

    def find_variables(self):
        for place in self.places():
            if self.text(place) == "let":
                self.see_let(place + 1, "{" if self.text(place - 1) in ("if", "while") else ";")
            if self.text(place) == "for":
                self.see_for(place + 1)
            if self.is_case(place) and self.text(place + 1) in ("(", "{") and self.is_pattern(place):
                self.see_pattern(place, None, place)

    def see_let(self, place, ending):
        equals = self.file.find("=", place)
        end = self.file.find(ending, equals)
        if self.text(place + 1) == ":" or self.text(place + 2) == ":":
            kind = plain_type(self.tokens[self.file.find(":", place) + 1 : equals])
        else:
            kind = self.type_of(equals + 1, end)
        self.see_pattern(place, kind, end)

    def see_for(self, place):
        first = self.file.find("in", place) + 1
        end = self.file.find("{", first)
        if self.text(place) != "(":
            self.see_pattern(place, (self.type_of(first, end) or "").strip("[]"), end)

    def see_pattern(self, place, kind, since):
        """Sees the variables of a pattern, for what has this type. They are there from a place on."""
        if self.text(place) == "mut":
            place += 1
        if self.text(place) == "Some":
            self.see_pattern(place + 2, given(kind), since)
        elif self.text(place) == "(":
            parts = self.file.parts(place + 1, self.file.partners[place])
            for (begin, _), one in zip(parts, (kind or "").strip("()").split(",")):
                self.see_pattern(begin, one, since)
        elif self.text(place + 1) in ("(", "{"):
            types = self.fields_at(place) or {}
            for (begin, end), one in zip(self.arguments(place), types.values()):
                self.see_pattern(end - 1, types.get(self.text(begin), one), since)
        elif self.text(place)[0].islower():
            self.types[self.text(place)] = kind
            self.scopes[self.text(place)] = range(since, self.end_of_block(since))

    def end_of_block(self, place):
        """Where the block ends that begins at a place, or that a statement there stands in."""
        if self.text(place) == "{":
            return self.file.partners[place]
        while place < self.last and self.text(place) != "}":
            place = self.file.past(place)
        return place

    def type_of(self, first, last):
        """The type of an expression, from the first thing in it whose type is known; None if there is none."""
        if self.text(last - 1) == "?":
            return given(self.type_of(first, last - 1))
        if last - first > 2 and self.text(last - 2) == "as":
            return self.text(last - 1)
        if self.text(first) == "(" and self.file.partners[first] == last - 1:
            return f"({','.join(self.type_of(*part) or '' for part in self.file.parts(first + 1, last - 1))})"
        if self.text(first) in self.project.structs:
            return self.text(first)
        if self.is_called(first):
            callee = self.project.called(self.text(first), self.file.path, len(self.arguments(first)))
            return callee.result if callee else self.text(first).removesuffix("::from")
        for place in range(first, last):
            if self.text(place) == "len" and self.text(place - 1) == ".":
                return "usize"
        for place in range(first, last):
            if self.text(place) in self.types and self.text(place - 1) != ".":
                return self.type_at(place)
        return "usize" if self.text(first) in ("0", "1") and last == first + 1 else None

    def type_at(self, place):
        """The type of a variable, of a field of it, or of an entry of it."""
        kind = self.types[self.text(place)] or ""
        while self.text(place + 1) == ".":
            kind = self.project.structs.get(kind, {}).get(self.text(place + 2), "")
            place += 2
        if self.text(place + 1) == "[" and ".." not in self.file.texts(place, self.file.past(place + 1)):
            kind = kind.strip("[]")
        return kind

    def start_of(self, place):
        """The place of `a` for a place in `a.b.c`."""
        while self.text(place - 1) == "." and place - 1 > self.first:
            place = self.file.partners.get(place - 2, place - 2)
        return place

    def owner_of(self, place):
        """The struct whose field is used there; None where it is not known."""
        start = self.start_of(place)
        kind = self.types.get(self.text(start))
        for at in range(start + 2, place, 2):
            kind = self.project.structs.get(kind, {}).get(self.text(at))
        return kind if kind in self.project.structs else None


def given(kind):
    """What is inside of an option or a result of this type, where it has something."""
    found = GIVEN.fullmatch(kind or "")
    return found[1] if found else None


def bodies_of(project, file):
    for function in file.functions:
        yield Body(project, file, function.first, function.last, function)
    for _, _, first, last in file.constants:
        if file.function_at(first) is None:
            yield Body(project, file, first, last)


def read_project(root):
    """All the code but the exports: C calls them, and the programs that are run here reach only three, by `calls`."""
    paths = sorted(path.relative_to(root).as_posix() for path in root.glob("crates/*/src/*.rt"))
    return Project([File(path, (root / path).read_text()) for path in paths if crate_of(path) not in ("exports", "exports_c")])
