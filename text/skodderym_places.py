"""Places of a file in words: the way from the outer field to a place."""

import itertools

from skodderym_faults import SHAPES
from skodderym_fields import (
    ASSIGNMENTS, BLOCK, BLOCKING, BLOCKING_BIT, CASE, CELLS, CHOSEN_BIT,
    CONSTANT, DECLARATIONS, DRIVE, EQUAL, EXPRESSIONS, FIXED_BIT, Field, IF,
    ITEM, MODULE, NETLIST, NONBLOCKING_BIT, Operand, PARITY, PROCESS,
    REGISTER, Raw, VARIABLE, WORDS, cell_parts, is_declaration, read_file)
from skodderym_to_text import (
    CELL_WORDS, Names, expression_text, is_cell, name_text)

LONGEST_QUOTE = 60


def quoted(text):
    """A piece of text in quotes, not too long."""
    if len(text) > LONGEST_QUOTE:
        text = text[:LONGEST_QUOTE - 3] + "..."
    return f"`{text}`"


def name_words(name):
    """A declared name as it reads, without the quotes of the text form."""
    text = name_text(name)
    return text[1:-1] if text.startswith('"') else text


def path_to(part, place):
    """The parts from one down to the one that starts at a place."""
    if part.at == place:
        return [part]
    if isinstance(part, Raw):
        return None
    for inner in part.parts:
        found = path_to(inner, place)
        if found:
            return [part] + found
    return None


def walk(part):
    """A part and all that it holds, by start."""
    yield part
    if isinstance(part, Field):
        for inner in part.parts:
            yield from walk(inner)


def rank(parent, part, tags):
    """Which of its kind a part is within its parent, from 1."""
    same = [inner for inner in parent.parts
            if isinstance(inner, Field) and inner.tag in tags]
    return 1 + next(index for index, inner in enumerate(same)
                    if inner is part)


def role(parent, part):
    """What a part is to the field that holds it."""
    index = next(number for number, inner in enumerate(parent.parts)
                 if inner is part)
    if parent.tag in SHAPES:
        shape = SHAPES[parent.tag]
        return shape[index][0] if index < len(shape) else "a left-over part"
    if parent.tag == CASE and index == 0:
        return "selector"
    return role_in_list(parent, part, index)


def role_in_list(parent, part, index):
    """What a part is in a list of fields."""
    tag = part.tag if isinstance(part, Field) else None
    known = {MODULE: [(DECLARATIONS, "declaration"), ((PROCESS,), "process")],
             NETLIST: [(DECLARATIONS, "declaration"), ((DRIVE,), "drive")],
             CASE: [((ITEM,), "item")]}
    for tags, word in known.get(parent.tag, ()):
        if tag in tags:
            return f"{word} {rank(parent, part, tags)}"
    if parent.tag == NETLIST and tag in CELLS:
        return f"cell c{rank(parent, part, CELLS) - 1}"
    if parent.tag == CASE and tag == BLOCK:
        return "default"
    word = "statement" if parent.tag in (PROCESS, BLOCK) else "part"
    return f"{word} {index + 1}"


def repeated(roles):
    """Roles in order; one that stands many times in a row is said once."""
    for word, group in itertools.groupby(roles):
        count = len(list(group))
        if count > 2:
            yield f"{word} ({count} times)"
        else:
            yield from [word] * count


class File:
    """A file with its names and places, for the sentences."""

    def __init__(self, data):
        self.data = data
        self.outer = read_file(data)
        self.names = Names(self.outer)
        self.variables = self.names.variables
        self.is_netlist = isinstance(self.outer, Field) and (
            self.outer.tag == NETLIST)

    def path(self, place):
        """The parts from the outer field down to a place."""
        return path_to(self.outer, place)

    def where(self, path):
        """The roles along a path, from the outside in."""
        if len(path) == 1:
            return "the file as a whole"
        return ", ".join(repeated(role(parent, part)
                                  for parent, part in zip(path, path[1:])))

    def where_at(self, place):
        """A place with its path, as `57 (process 1, statement 4)`."""
        return f"{place} ({self.where(self.path(place))})"

    def name(self, number):
        """A variable's name in quotes."""
        if number < len(self.variables):
            return quoted(name_words(self.variables[number].name))
        return quoted(self.names.variable(number))

    def processes(self):
        """The processes of a module."""
        return [part for part in self.outer.parts
                if isinstance(part, Field) and part.tag == PROCESS]

    def assignments(self):
        """All assignments as (process, field), by start."""
        return [(process, field) for process in self.processes()
                for field in walk(process)
                if isinstance(field, Field) and field.tag in ASSIGNMENTS
                and field.front]

    def width(self, part):
        """The width of an expression, or None if it is not known."""
        if not isinstance(part, Field) or part.tag not in EXPRESSIONS:
            return None
        if part.tag == CONSTANT:
            return part.payload[0] if part.payload else None
        if part.tag == VARIABLE:
            return self.variable_width(part.payload)
        if part.tag in (FIXED_BIT, CHOSEN_BIT, EQUAL, PARITY):
            return 1
        return self.width(part.parts[0]) if part.parts else None

    def variable_width(self, front):
        """The width of the variable that the first byte names."""
        return self.names.width_of_variable(front[0]) if front else None

    def what(self, part):
        """A part in words."""
        if isinstance(part, Raw):
            return "bytes that form no field"
        word = WORDS.get(part.tag, f"a field with the unknown tag "
                                   f"{part.tag:02X}")
        if part.tag in DECLARATIONS and is_declaration(part):
            name = part.payload[5 if part.tag == REGISTER else 1:]
            return (f"{word} {quoted(name_words(name))}" if name
                    else f"{word} without a name")
        if part.tag in ASSIGNMENTS and part.front:
            return self.what_assignment(part)
        if part.tag == VARIABLE and part.payload:
            return f"read of {self.name(part.payload[0])}"
        if part.tag in EXPRESSIONS:
            return self.with_text(word, expression_text(part, self.names))
        if part.tag in (IF, CASE, ITEM) and part.parts:
            head = expression_text(part.parts[0], self.names)
            return self.with_text(word, head)
        if part.tag in CELLS and is_cell(part):
            return self.what_cell(part)
        if part.tag == DRIVE and part.payload:
            return f"drive of {self.name(part.payload[0])}"
        return word

    def with_text(self, word, text):
        """A word with a piece of the text form, if there is one."""
        return f"{word} {quoted(text)}" if text else word

    def what_assignment(self, field):
        """An assignment by its kind and target."""
        kind = "blocking" if field.tag in (
            BLOCKING, BLOCKING_BIT) else "non-blocking"
        target = self.name(field.front[0])
        if field.tag in (BLOCKING_BIT, NONBLOCKING_BIT):
            target = f"bit {field.front[1]} of {target}"
        return f"{kind} assignment to {target}"

    def what_cell(self, field):
        """A cell as in the text form."""
        words = [self.names.operand(part) if isinstance(part, Operand)
                 else str(part) for part in cell_parts(field)]
        return quoted(" ".join([CELL_WORDS[field.tag]] + words))
