"""The mutants: programs that differ from the right one in one place of the code that runs.

Each kind of change is a function that goes through one body, of a function or of a constant, and
yields changes. A change is a list of edits, and an edit is (start, end, new text).
"""
import re
from collections import namedtuple
from itertools import combinations, permutations

from bodies import bodies_of, crate_of

Mutant = namedtuple("Mutant", "path line key source")  # a changed file, where it is changed, and how that is named
Key = namedtuple("Key", "path function before after turn")

COMPARISONS = {
    "<": ("<=", ">="),
    "<=": ("<", ">"),
    ">": (">=", "<="),
    ">=": (">", "<"),
    "==": ("!=", "<=", ">="),
    "!=": ("==", "<", ">"),
}
ARITHMETIC = {
    "+": ("-",),
    "-": ("+",),
    "*": ("+",),
    "/": ("*",),
    "%": ("/",),
    "<<": (">>",),
    "+=": ("-=",),
    "-=": ("+=",),
}
METHODS = {"min": ("max",), "max": ("min",), "all": ("any",)}
LOGIC = {"&&": ("||",), "||": ("&&",), "true": ("false",), "false": ("true",)}
WHOLE_TYPES = ("usize", "u64", "u32", "i64", "i32")
NEVER_DROPPED = ("let", "return", "break", "continue", "if", "while", "for", "match", "loop", "else")


# ---- operators, numbers and names


def exchanged(body, table, is_meant):
    for place in body.places():
        if is_meant(place):
            for new in table.get(body.text(place), ()):
                yield [body.replace(place, place + 1, new)]


def comparisons(body):
    yield from exchanged(body, COMPARISONS, lambda place: place not in body.file.partners)


def arithmetic(body):
    yield from exchanged(body, ARITHMETIC, lambda place: body.is_operand(place - 1))


def logic(body):
    yield from exchanged(body, LOGIC, lambda place: True)


def methods(body):
    """The larger of two is the smaller, and what has to hold for all has to hold for one."""
    yield from exchanged(body, METHODS, lambda place: body.text(place - 1) == ".")


def signs(body):
    """A minus or a `!` before an operand is dropped."""
    for place in body.places():
        if body.text(place) in ("!", "-") and not body.is_operand(place - 1):
            yield [body.replace(place, place + 1, "")]


def numbers(body):
    for place in body.places():
        token = body.tokens[place]
        if token.kind == "number":
            for new in beside(token.text):
                yield [body.replace(place, place + 1, new)]
        if token.text == "u64::MAX":
            yield [body.replace(place, place + 1, "(u64::MAX - 1)")]


def beside(number):
    """The numbers above and below one. For a float that has no such neighbours, its double and its half."""
    size, tail = re.fullmatch(r"([0-9]+)(.*)", number).groups()
    if tail == ".0" and int(size) > 2**53:
        return f"{2 * int(size)}.0", f"{int(size) // 2}.0"
    return f"{int(size) + 1}{tail}", f"{int(size) - 1}{tail}"


def texts(body):
    """A byte is another, and of a text the last one."""
    for place in body.places():
        token = body.tokens[place]
        if token.kind == "text":
            kept = 2 if "\\" in token.text else max(2, len(token.text) - 2)
            yield [body.replace(place, place + 1, token.text[:kept] + "~" + token.text[-1])]


def constants(body):
    """Each use of a constant is one of those declared before and behind it, of the same type."""
    for place in body.places():
        for constant in constants_beside(body, place):
            prefix, colons, _ = body.text(place).rpartition("::")
            yield [body.replace(place, place + 1, prefix + colons + constant)]


def constants_beside(body, place):
    """Those of the file that declares the constant which is used there; none where there is no constant."""
    *prefix, last = body.text(place).split("::")
    for file in body.project.files:
        of_file = [(name, kind) for name, kind, _, _ in file.constants]
        kinds = dict(of_file)
        if last in kinds and (prefix[-1:] == [crate_of(file.path)] if prefix else file is body.file):
            return both_sides([name for name, kind in of_file if kind == kinds[last]], last)
    return []


def names(body):
    """Each use of a variable is the next of the same type, the first being next to the last."""
    for place in body.places():
        if body.is_variable(place) and body.types[body.text(place)]:
            kind = body.types[body.text(place)]
            alike = [name for name in body.types if body.types[name] == kind and place in body.scopes[name]]
            if len(alike) > 1 and body.text(place) in alike:
                other = alike[(alike.index(body.text(place)) + 1) % len(alike)]
                yield [body.replace(place, place + 1, as_field(body, place) + other)]


def both_sides(things, one):
    """The things before and behind one, the last being before the first."""
    at = things.index(one)
    return sorted({things[at - 1], things[(at + 1) % len(things)]} - {one})


def as_field(body, place):
    """What a variable that is a field's value by having its name needs before it, once it is another."""
    opened = place
    while opened > body.first and body.text(opened) not in ("{", "(", "[", ";", "=>"):
        opened = body.file.partners[opened] - 1 if body.text(opened) in (")", "]", "}") else opened - 1
    is_alone = body.text(place - 1) in (",", "{") and body.text(place + 1) in (",", "}")
    is_literal = body.text(opened) == "{" and body.fields_at(opened - 1) is not None
    return f"{body.text(place)}: " if is_alone and is_literal else ""


def fields(body):
    """Each use of a field is another field of the same type."""
    for place in body.places():
        if body.text(place - 1) == "." and body.text(place + 1) != "(":
            for other in body.project.siblings_of_field(body.text(place), body.owner_of(place)):
                yield [body.replace(place, place + 1, other)]


# ---- bounds and places


def one_more_or_less(body, first, last):
    for new in (f"{body.source(first, last)} + 1", f"{body.source(first, last)} - 1"):
        yield [body.replace(first, last, new)]


def lengths(body):
    """Each length is one more or less."""
    for place in body.places():
        if body.text(place) == "len" and body.text(place + 1) == "(":
            start = body.start_of(place)
            whole = body.source(start, place + 3)
            for new in (f"({whole} + 1)", f"({whole} - 1)"):
                yield [body.replace(start, place + 3, new)]


def entries(body):
    """Each index, and each end of a range, is one more or less."""
    for place in body.places():
        ends = ()
        if body.text(place) == "[" and body.is_operand(place - 1):
            whole = place + 1, body.file.partners[place]
            ends = () if ".." in body.file.texts(*whole) else (whole,)
        elif body.text(place) in ("..", "..=") and body.text(place - 1) != "@":
            ends = (before(body, place), place), (place + 1, behind(body, place + 1))
        for begin, end in ends:
            if begin < end and body.tokens[begin].kind == "name":
                yield from one_more_or_less(body, begin, end)


def before(body, place):
    """Where the expression begins that ends before a place."""
    while body.text(place - 1) not in ("(", "[", "{", ",", "in"):
        place = body.file.partners[place - 1] if body.text(place - 1) in (")", "]") else place - 1
    return place


def behind(body, place):
    """Where the expression ends that begins at a place."""
    while body.text(place) not in (")", "]", "{", ","):
        place = body.file.past(place)
    return place


def whole_names(body):
    """Each whole number that is returned, given to a function or a loop's start is one more or less."""
    for place in body.places():
        if body.is_variable(place) and body.types[body.text(place)] in WHOLE_TYPES and stands_alone(body, place):
            yield from one_more_or_less(body, place, place + 1)


def stands_alone(body, place):
    before, after = body.text(place - 1), body.text(place + 1)
    is_argument = before in ("(", ",") and after in (",", ")") and not as_field(body, place)
    is_result = before in ("return", "break", "=") and after == ";"
    return is_argument or is_result or before in (";", "}") and place + 1 == body.last


# ---- calls, cases, literals


def arguments(body):
    """Two arguments of one type change places. Of a function that is not known, any two."""
    for place in body.places():
        if body.is_called(place) and not (body.is_case(place) and body.is_pattern(place)):
            given = body.arguments(place)
            kinds = argument_types(body, place, len(given))
            for (i, one), (j, other) in combinations(enumerate(given), 2):
                if kinds[i] == kinds[j] and body.source(*one) != body.source(*other):
                    yield [body.replace(*one, body.source(*other)), body.replace(*other, body.source(*one))]


def argument_types(body, place, count):
    callee = body.project.called(body.text(place), body.file.path, count)
    if callee:
        return list(callee.parameters.values())
    carried = body.fields_at(place)
    return list(carried.values()) if carried else [None] * count


def repeated(body):
    """An argument is given in place of its neighbour too, where that has the same type."""
    for place in body.places():
        if body.is_called(place) and not body.is_case(place):
            given = body.arguments(place)
            kinds = argument_types(body, place, len(given))
            for (i, one), (j, other) in permutations(enumerate(given), 2):
                if abs(i - j) == 1 and kinds[i] == kinds[j] and kinds[i] and body.source(*one) != body.source(*other):
                    yield [body.replace(*one, body.source(*other))]


def siblings(body):
    """Another function of the same crate is called, that takes and gives the same types."""
    for place in body.places():
        if body.is_called(place):
            callee = body.project.called(body.text(place), body.file.path, len(body.arguments(place)))
            for other in alike(body.project, callee):
                prefix, colons, _ = body.text(place).rpartition("::")
                yield [body.replace(place, place + 1, prefix + colons + other.name)]


def alike(project, callee):
    for other in project.functions if callee else ():
        same = list(other.parameters.values()) == list(callee.parameters.values()) and other.result == callee.result
        if same and other.name != callee.name and crate_of(other.path) == crate_of(callee.path):
            yield other


def cases(body):
    """Each case of an enum that is made, or asked for by a `let`, is one of those beside it that carry the same types."""
    for place in body.places():
        if body.is_case(place) and (not body.is_pattern(place) or body.text(place - 1) == "let"):
            prefix, _, case = body.text(place).rpartition("::")
            carried = body.project.cases_of(prefix.split("::")[-1], body.file.path)
            alike = [other for other in carried if list(carried[other].values()) == list(carried.get(case, {}).values())]
            for other in both_sides(alike, case) if case in alike else ():
                yield [body.replace(place, place + 1, f"{prefix}::{other}")]


def results(body):
    """What is given is nothing, and what is refused is done."""
    for place in body.places():
        if body.is_called(place) and not body.is_pattern(place):
            if body.text(place) == "Some":
                yield [body.replace(place, body.file.past(place + 1), "None")]
            if body.text(place) == "Err" and body.function.result.startswith("Result<(),"):
                yield [body.replace(place, body.file.past(place + 1), "Ok(())")]


def literals(body):
    """Two fields of one type, in what makes a struct, get each other's value."""
    for place in body.places():
        types = body.fields_at(place)
        if types and body.tokens[place].kind == "name" and body.text(place + 1) == "{" and not body.is_pattern(place):
            parts = body.arguments(place)
            for one, other in combinations(parts, 2):
                if types[body.text(one[0])] == types[body.text(other[0])]:
                    if value_of(body, one) != value_of(body, other):
                        yield [given(body, one, other), given(body, other, one)]


def value_of(body, part):
    first, last = part
    return body.source(first, last) if last == first + 1 else body.source(first + 2, last)


def given(body, part, other):
    return body.replace(*part, f"{body.text(part[0])}: {value_of(body, other)}")


# ---- statements


def conditions(body):
    """Each condition always holds, or never does: then a guard is as good as dropped."""
    for place in body.places():
        if body.text(place) in ("if", "while") and (body.text(place + 1) != "let" or body.text(place + 3) == "="):
            for new in ("true", "false") if body.text(place) == "if" else ("false",):
                yield [body.replace(place + 1, body.file.find("{", place), new)]


def arms(body):
    """Two neighbouring arms of a match do each other's work."""
    for place in body.places():
        if body.text(place) == "match":
            opened = body.file.find("{", place)
            works = list(arms_of(body, opened + 1, body.file.partners[opened]))
            for one, other in zip(works, works[1:]):
                if body.source(*one) != body.source(*other):
                    yield [body.replace(*one, body.source(*other)), body.replace(*other, body.source(*one))]


def arms_of(body, place, last):
    while place < last:
        begin = body.file.find("=>", place) + 1
        end = begin
        while end < last and body.text(end) != ",":
            end = body.file.past(end)
            if body.text(begin) == "{":
                break
        yield begin, end
        place = end + 1 if body.text(end) == "," else end


def dropped(body):
    """A statement that is there for what it does is dropped."""
    for place in body.places():
        if body.text(place - 1) in (";", "{", "}") and body.tokens[place].text not in NEVER_DROPPED:
            end = place
            while end < body.last and body.text(end) not in (";", ",", "}", "=>", ":"):
                end = body.file.past(end)
            if body.text(end) == ";" and (body.tokens[place].kind == "name" or body.text(place) == "*"):
                yield [body.replace(place, end + 1, "")]


KINDS = (
    comparisons, arithmetic, logic, methods, signs, numbers, texts, constants, names, fields, lengths, entries, whole_names,
    arguments, repeated, siblings, cases, results, literals, conditions, arms, dropped,
)


# ---- all of them


def edited(source, edits):
    for start, end, new in sorted(edits, reverse=True):
        source = source[:start] + new + source[end:]
    return source


def on_one_line(text):
    return " ".join(text.split()) or "(nothing)"


def touched(file, edits):
    """The lines that are changed, before and after, and the number of the first."""
    start, end = min(edit[0] for edit in edits), max(edit[1] for edit in edits)
    first, last = file.line_of(start), file.line_of(end - 1)
    begin = file.lines[first - 1]
    stop = file.lines[last] if last < len(file.lines) else len(file.source)
    moved = [(a - begin, b - begin, new) for a, b, new in edits]
    before = file.source[begin:stop]
    return on_one_line(before), on_one_line(edited(before, moved)), first


def mutants_of(project, file):
    """All the changes of a file, each once."""
    seen, turns = {file.source}, {}
    for body in bodies_of(project, file):
        name = body.function.name if body.function else "-"
        for kind in KINDS:
            for edits in kind(body):
                source = edited(file.source, edits)
                if source in seen:
                    continue
                seen.add(source)
                before, after, line = touched(file, edits)
                named = (file.path, name, before, after)
                turns[named] = turns.get(named, 0) + 1
                yield Mutant(file.path, line, Key(*named, turns[named]), source)
