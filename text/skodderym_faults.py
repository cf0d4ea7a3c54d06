"""Why a file is refused 2: the first fault met in reading, in words."""

from skodderym_fields import (
    CASE, CELLS, CONSTANT, DECLARATIONS, DRIVE, EXPRESSIONS, FRONT, Field,
    ITEM, MODULE, NETLIST, PROCESS, STATEMENTS, WORDS, cell_parts,
    drive_operand, is_declaration, kinds_known)

DEEPEST = 32

# The inner fields of a field of fixed shape, as (role, what may stand there).
EXPRESSION = (EXPRESSIONS, "an expression (20 to 2A)")
BLOCK = ((0x17,), "a block (17)")
SHAPES = {
    0x10: [("value", EXPRESSION)], 0x11: [("value", EXPRESSION)],
    0x12: [("value", EXPRESSION)], 0x13: [("value", EXPRESSION)],
    0x14: [("condition", EXPRESSION), ("first block", BLOCK),
           ("else block", BLOCK)],
    0x16: [("constant", ((CONSTANT,), "a constant (20)")), ("block", BLOCK)],
    0x23: [("index", EXPRESSION)], 0x24: [("operand", EXPRESSION)],
    0x2A: [("operand", EXPRESSION)],
}
for _tag in range(0x25, 0x2A):
    SHAPES[_tag] = [("first operand", EXPRESSION),
                    ("second operand", EXPRESSION)]

LEAF_SIZES = {0x20: 5, 0x21: 1, 0x22: 2}


WRONG_TAG = "in each place only certain tags may stand"
INSIDE = "a field lies wholly inside the field round it"
DEPTH = "fields lie at most 32 deep, the outer one at depth 1"
PARTS = "a field holds exactly its parts, no fewer and no more"
KIND = "an operand's kind is 0 (constant), 1 (variable) or 2 (cell)"


class Fault(Exception):
    """A fault of the form: its place, what is wrong there, and the rule."""

    def __init__(self, place, reason, rule):
        super().__init__(reason)
        self.place = place
        self.reason = reason
        self.rule = rule


def some_bytes(count):
    """A count of bytes in words."""
    return "1 byte" if count == 1 else f"{count} bytes"


def tag_words(tag):
    """A tag with the word for it."""
    return f"tag {tag:02X} ({WORDS.get(tag, 'unknown')})"


def first_fault(outer):
    """The first fault of a file whose length is in order, or None."""
    try:
        read_outer(outer)
    except Fault as fault:
        return fault
    return None


def read_outer(outer):
    """Read a module or netlist from left to right."""
    if outer.tag not in (MODULE, NETLIST):
        raise Fault(0, f"it begins with {tag_words(outer.tag)}, and a file "
                       f"begins with 01 (module) or 81 (netlist)", WRONG_TAG)
    parts = outer.parts
    at = read_front_list(parts, 0, DECLARATIONS, "a declaration")
    if outer.tag == MODULE:
        for part in parts[at:]:
            open_part(part, (PROCESS,), "a process (04): declarations come "
                                        "first, then processes only")
            read_field(part)
        return
    at = read_front_list(parts, at, CELLS, "a cell")
    for part in parts[at:]:
        open_part(part, (DRIVE,), "a drive (40): declarations come first, "
                                  "then cells, then drives only")
        read_field(part)


def read_front_list(parts, at, tags, wanted):
    """Read the fields at the front that have certain tags."""
    while at < len(parts) and first_byte(parts[at]) in tags:
        open_part(parts[at], tags, wanted)
        read_field(parts[at])
        at += 1
    return at


def first_byte(part):
    """The byte that stands first in a part."""
    return part.tag if isinstance(part, Field) else part.data[0]


def open_part(part, tags, wanted):
    """The header of a part: cut, too long, too deep or of a wrong tag."""
    if not isinstance(part, Field):
        raise Fault(part.at, raw_reason(part.data), INSIDE)
    if part.depth > DEEPEST:
        raise Fault(part.at, f"it lies at depth {part.depth}, and the "
                             f"deepest allowed is {DEEPEST}", DEPTH)
    if part.tag not in tags:
        raise Fault(part.at, f"{tag_words(part.tag)} may not stand here, "
                             f"only {wanted}", WRONG_TAG)


def raw_reason(data):
    """Why bytes form no field."""
    if len(data) < 3:
        return (f"only {some_bytes(len(data))} left here, and the header of "
                f"a field takes 3")
    stated = int.from_bytes(data[1:3], "big")
    return (f"{tag_words(data[0])} states a length of {stated}, and the field "
            f"round it has only {some_bytes(len(data) - 3)} left after this "
            f"header")


def read_field(field):
    """The payload of a field whose header is in order."""
    if field.tag in DECLARATIONS:
        read_declaration(field)
    elif field.tag in CELLS or field.tag == DRIVE:
        read_cell_or_drive(field)
    elif field.tag in LEAF_SIZES:
        read_leaf(field)
    elif field.tag in SHAPES:
        read_shape(field)
    elif field.tag == CASE:
        read_case(field)
    else:
        for part in field.parts:
            open_part(part, STATEMENTS, "a statement (10 to 15)")
            read_field(part)


def read_declaration(field):
    """A declaration needs its width, a register its initial value too."""
    if not is_declaration(field):
        missing = "width byte" if not field.payload else "initial value"
        raise Fault(field.at, f"its {missing} is missing or cut off",
                    PARTS)


def read_cell_or_drive(field):
    """A cell or drive has one size, and operands of kind 0, 1 or 2."""
    if field.tag == DRIVE:
        operand = drive_operand(field)
        parts = None if operand is None else [operand]
    else:
        parts = cell_parts(field)
    if parts is None:
        raise Fault(field.at, f"its payload of {len(field.payload)} bytes has "
                              f"not the size of this kind of field", PARTS)
    if not kinds_known(parts):
        raise Fault(field.at, "an operand has a kind over 2", KIND)


def read_leaf(field):
    """A constant, a variable or a fixed bit has fixed bytes only."""
    size, found = LEAF_SIZES[field.tag], len(field.payload)
    if found < size:
        raise Fault(field.at, f"it has {some_bytes(found)} of payload and "
                              f"needs {size}", PARTS)
    if found > size:
        raise Fault(field.at, f"{some_bytes(found - size)} left over: its "
                              f"payload takes {size}", PARTS)


def read_shape(field):
    """A field with a fixed list of inner fields."""
    if len(field.payload) < FRONT[field.tag]:
        raise Fault(field.at, "its variable byte or bit number is missing",
                    PARTS)
    shape = SHAPES[field.tag]
    for index, (role, (tags, wanted)) in enumerate(shape):
        if index == len(field.parts):
            raise Fault(field.at, f"its {role} is missing", PARTS)
        open_part(field.parts[index], tags, wanted)
        read_field(field.parts[index])
    nothing_left(field, field.parts[len(shape):])


def read_case(field):
    """A case: selector, items, default, and nothing after it."""
    parts = field.parts
    if not parts:
        raise Fault(field.at, "its selector is missing", PARTS)
    open_part(parts[0], *EXPRESSION)
    read_field(parts[0])
    at = read_front_list(parts, 1, (ITEM,), "an item (16)")
    if at == len(parts):
        raise Fault(field.at, "its default block is missing", PARTS)
    open_part(parts[at], (0x17,), "an item (16) or the default block (17)")
    read_field(parts[at])
    nothing_left(field, parts[at + 1:])


def nothing_left(field, parts):
    """A field of fixed shape ends with its last part."""
    if parts:
        count = field.at + 3 + len(field.payload) - parts[0].at
        raise Fault(field.at, f"{some_bytes(count)} left over after its last "
                              f"part, from {parts[0].at} on", PARTS)
