"""The tagged form as a tree of fields, with the place of each.

The reader is tolerant. It takes every byte string apart as far as that goes
and keeps what it cannot take apart as raw bytes, so that a tree always holds
all bytes of its file, in order. It judges nothing; that is the work of the
proved program.
"""

MODULE, INPUT, REGISTER, PROCESS = 0x01, 0x02, 0x03, 0x04
BLOCKING, NONBLOCKING, BLOCKING_BIT, NONBLOCKING_BIT = 0x10, 0x11, 0x12, 0x13
IF, CASE, ITEM, BLOCK = 0x14, 0x15, 0x16, 0x17
CONSTANT, VARIABLE, FIXED_BIT, CHOSEN_BIT = 0x20, 0x21, 0x22, 0x23
NOT, EQUAL, PARITY = 0x24, 0x29, 0x2A
DRIVE, NETLIST = 0x40, 0x81

DECLARATIONS = (INPUT, REGISTER)
ASSIGNMENTS = range(0x10, 0x14)
STATEMENTS = range(0x10, 0x16)
EXPRESSIONS = range(0x20, 0x2B)
READS = (VARIABLE, FIXED_BIT, CHOSEN_BIT)
CELLS = range(0x30, 0x3B)

WORDS = {
    0x01: "module", 0x02: "input", 0x03: "register", 0x04: "process",
    0x10: "blocking assignment", 0x11: "non-blocking assignment",
    0x12: "blocking assignment of one bit",
    0x13: "non-blocking assignment of one bit",
    0x14: "if", 0x15: "case", 0x16: "item", 0x17: "block",
    0x20: "constant", 0x21: "variable", 0x22: "fixed bit",
    0x23: "chosen bit", 0x24: "not", 0x25: "and", 0x26: "or", 0x27: "xor",
    0x28: "add", 0x29: "equal", 0x2A: "parity",
    0x30: "cell not", 0x31: "cell and", 0x32: "cell or", 0x33: "cell xor",
    0x34: "cell add", 0x35: "cell equal", 0x36: "cell mux", 0x37: "cell put",
    0x38: "cell fixed bit", 0x39: "cell chosen bit", 0x3A: "cell parity",
    0x40: "drive", 0x81: "netlist",
}

# How many bytes stand at the front of a payload, before its inner fields.
FRONT = {0x01: 0, 0x04: 0, 0x10: 1, 0x11: 1, 0x12: 2, 0x13: 2, 0x14: 0,
         0x15: 0, 0x16: 0, 0x17: 0, 0x23: 1, 0x24: 0, 0x25: 0, 0x26: 0,
         0x27: 0, 0x28: 0, 0x29: 0, 0x2A: 0, 0x81: 0}

# What a cell holds after its width byte: "o" an operand, "n" a bit number.
CELL_SHAPES = {0x30: "o", 0x31: "oo", 0x32: "oo", 0x33: "oo", 0x34: "oo",
               0x35: "oo", 0x36: "ooo", 0x37: "ono", 0x38: "on", 0x39: "oo",
               0x3A: "o"}

# Fields that lie deeper than this are not taken apart; rule 2 allows 32.
DEEPEST_SHOWN = 64


class Raw:
    """Bytes of a file that form no field."""

    def __init__(self, at, data):
        self.at = at
        self.data = data


class Field:
    """One field: tag, place, depth, the length it states, and its payload.

    A field that can hold fields also has `front`, the bytes before them, and
    `parts`, the fields and raw bytes after that.
    """

    def __init__(self, tag, at, depth, stated, payload):
        self.tag = tag
        self.at = at
        self.depth = depth
        self.stated = stated
        self.payload = payload
        self.front = b""
        self.parts = []
        if tag in FRONT:
            self._take_apart()

    def _take_apart(self):
        """Divide the payload into front bytes and parts."""
        count = FRONT[self.tag]
        start = self.at + 3
        if len(self.payload) < count or self.depth >= DEEPEST_SHOWN:
            self.parts = raw_parts(self.payload, start)
            return
        self.front = self.payload[:count]
        self.parts = read_parts(self.payload[count:], start + count,
                                self.depth + 1)

    @property
    def holds_fields(self):
        """Whether fields of this tag hold fields."""
        return self.tag in FRONT

    @property
    def all_fields(self):
        """Whether no raw bytes stand among the parts."""
        return all(isinstance(part, Field) for part in self.parts)


def raw_parts(data, at):
    """The bytes as one raw part, or no part if there are none."""
    return [Raw(at, data)] if data else []


def read_parts(data, at, depth):
    """The fields that stand one after the other, then what is left."""
    parts = []
    start = 0
    while len(data) - start >= 3:
        stated = int.from_bytes(data[start + 1:start + 3], "big")
        end = start + 3 + stated
        if end > len(data):
            break
        parts.append(Field(data[start], at + start, depth, stated,
                           data[start + 3:end]))
        start = end
    return parts + raw_parts(data[start:], at + start)


def read_file(data):
    """The outer field of a file; raw bytes if there is no whole header.

    The outer field takes the whole rest of the file, whatever length it
    states.
    """
    if len(data) < 3:
        return Raw(0, data)
    stated = int.from_bytes(data[1:3], "big")
    return Field(data[0], 0, 1, stated, data[3:])


class Variable:
    """One declaration: its number, name (bytes), width and field."""

    def __init__(self, number, field):
        self.number = number
        self.field = field
        self.width = field.payload[0]
        self.is_register = field.tag == REGISTER
        self.name = field.payload[5 if self.is_register else 1:]
        self.initial = int.from_bytes(field.payload[1:5], "big")


def is_declaration(part):
    """Whether a part is a declaration with all its fixed bytes."""
    if not isinstance(part, Field) or part.tag not in DECLARATIONS:
        return False
    return len(part.payload) >= (5 if part.tag == REGISTER else 1)


def variables_of(outer):
    """The variables of a module or netlist, in the order of their numbers."""
    if not isinstance(outer, Field) or outer.tag not in (MODULE, NETLIST):
        return []
    found = [part for part in outer.parts if is_declaration(part)]
    return [Variable(number, field) for number, field in enumerate(found)]


class Operand:
    """An operand of a cell or drive: kind, width and number."""

    def __init__(self, data):
        self.kind = data[0]
        self.width = data[1]
        self.number = int.from_bytes(data[2:6], "big")


def cell_parts(field):
    """What a cell holds after its width: operands and bit numbers.

    Gives None if the payload has not the size of the cell's shape.
    """
    found = []
    at = 1
    for sort in CELL_SHAPES[field.tag]:
        size = 6 if sort == "o" else 1
        piece = field.payload[at:at + size]
        if len(piece) < size:
            return None
        found.append(Operand(piece) if sort == "o" else piece[0])
        at += size
    return found if at == len(field.payload) else None


def drive_operand(field):
    """The operand of a drive, or None if the payload has another size."""
    return Operand(field.payload[1:]) if len(field.payload) == 7 else None


def kinds_known(parts):
    """Whether every operand is a constant, a variable or a cell."""
    return all(part.kind <= 2 for part in parts if isinstance(part, Operand))


def cells_of(outer):
    """The cell fields of a netlist, in the order of their numbers."""
    if not isinstance(outer, Field) or outer.tag != NETLIST:
        return []
    return [part for part in outer.parts
            if isinstance(part, Field) and part.tag in CELLS]
