"""From bytes to text: the disassembler.

Every byte string has a text. Where the form of a field is not whole, the text
falls back to `field` and `bytes` lines, so that nothing is lost.
"""

import re

from skodderym_fields import (
    ASSIGNMENTS, BLOCK, BLOCKING_BIT, CASE, CELLS, CHOSEN_BIT, CONSTANT,
    DRIVE, EXPRESSIONS, FIXED_BIT, Field, IF, INPUT, ITEM, MODULE, NETLIST,
    NONBLOCKING_BIT, NOT, Operand, PROCESS, REGISTER, Raw, VARIABLE, WORDS,
    cell_parts, cells_of, drive_operand, is_declaration, kinds_known,
    read_file, variables_of)

LINE_WORDS = {"module", "netlist", "input", "register", "process", "if",
              "else", "case", "item", "default", "block", "expression",
              "cell", "drive", "field", "bytes"}
SIGNS = {0x25: "&", 0x26: "|", 0x27: "^", 0x28: "+", 0x29: "=="}
CELL_WORDS = {0x30: "not", 0x31: "and", 0x32: "or", 0x33: "xor", 0x34: "add",
              0x35: "equal", 0x36: "mux", 0x37: "put", 0x38: "bit",
              0x39: "choose", 0x3A: "parity"}
ARROWS = {0x10: "=", 0x11: "<=", 0x12: "=", 0x13: "<="}

PLAIN_NAME = re.compile(r"[A-Za-z_][A-Za-z0-9_$]*\Z")
CELL_NAME = re.compile(r"c(0|[1-9][0-9]*)\Z")
BYTES_A_LINE = 16


class Names:
    """How the variables and cells of one file are written in text."""

    def __init__(self, outer):
        self.variables = variables_of(outer)
        self.cells = cells_of(outer)
        self.cell_numbers = {cell.at: number
                             for number, cell in enumerate(self.cells)}
        self.is_netlist = isinstance(outer, Field) and outer.tag == NETLIST
        self.first = {}
        for variable in self.variables:
            self.first.setdefault(variable.name, variable.number)

    def variable(self, number):
        """The name of a variable, or # and its number."""
        if number < len(self.variables):
            name = self.variables[number].name
            if self.first[name] == number and self._usable(name):
                return name.decode("ascii")
        return f"#{number}"

    def _usable(self, name):
        """Whether a name, by itself, can mean nothing but a variable."""
        text = name.decode("latin-1")
        if not PLAIN_NAME.match(text) or text in LINE_WORDS:
            return False
        return not (self.is_netlist and CELL_NAME.match(text))

    def width_of_variable(self, number):
        """The declared width, or None if there is no such variable."""
        if number < len(self.variables):
            return self.variables[number].width
        return None

    def width_of_cell(self, number):
        """The width byte of a whole cell, or None."""
        if number < len(self.cells) and is_cell(self.cells[number]):
            return self.cells[number].payload[0]
        return None

    def operand(self, operand):
        """An operand of a netlist."""
        if operand.kind == 0:
            return f"{operand.width}'d{operand.number}"
        if operand.kind == 1:
            name = self.variable(operand.number)
            width = self.width_of_variable(operand.number)
        else:
            name = f"c{operand.number}"
            width = self.width_of_cell(operand.number)
        return name if width == operand.width else f"{name}:{operand.width}"


def is_cell(field):
    """Whether a field is a cell that the text can write in words."""
    parts = cell_parts(field)
    return parts is not None and kinds_known(parts)


def name_text(name):
    """A declared name: as it is if it is a plain one, else in quotes."""
    text = name.decode("latin-1")
    if PLAIN_NAME.match(text):
        return text
    return '"' + "".join(character_text(byte) for byte in name) + '"'


def character_text(byte):
    """One byte of a name in quotes."""
    if byte in b'"\\':
        return "\\" + chr(byte)
    return chr(byte) if 0x20 <= byte <= 0x7E else f"\\x{byte:02X}"


def hex_text(data):
    """Bytes in hexadecimal, with blanks between."""
    return " ".join(f"{byte:02X}" for byte in data)


def expression_text(field, names):
    """An expression on one line, or None if its form is not whole."""
    if not isinstance(field, Field) or field.tag not in EXPRESSIONS:
        return None
    if field.tag in (CONSTANT, VARIABLE, FIXED_BIT):
        return leaf_text(field, names)
    inner = [expression_text(part, names) for part in field.parts]
    if None in inner or len(inner) != (2 if field.tag in SIGNS else 1):
        return None
    if field.tag == CHOSEN_BIT:
        return chosen_text(field, inner[0], names)
    if field.tag in SIGNS:
        left, right = (bracketed(text, part, (NOT,))
                       for text, part in zip(inner, field.parts))
        return f"{left} {SIGNS[field.tag]} {right}"
    sign = "~" if field.tag == NOT else "^"
    return sign + bracketed(inner[0], field.parts[0], ())


def leaf_text(field, names):
    """A constant, a variable or a fixed bit, if it has its bytes."""
    data = field.payload
    if field.tag == CONSTANT and len(data) == 5:
        return f"{data[0]}'d{int.from_bytes(data[1:], 'big')}"
    if field.tag == VARIABLE and len(data) == 1:
        return names.variable(data[0])
    if field.tag == FIXED_BIT and len(data) == 2:
        return f"{names.variable(data[0])}[{data[1]}]"
    return None


def chosen_text(field, index, names):
    """A chosen bit with its index, if it has its variable byte."""
    if not field.front:
        return None
    return f"{names.variable(field.front[0])}[{index}]"


def bracketed(text, field, also_bare):
    """Brackets round every operand that is itself an operator."""
    bare = (CONSTANT, VARIABLE, FIXED_BIT, CHOSEN_BIT) + also_bare
    return text if field.tag in bare else f"({text})"


class Disassembler:
    """Writes the lines of one file."""

    def __init__(self, data, places=False):
        self.outer = read_file(data)
        self.names = Names(self.outer)
        self.places = places
        self.lines = []

    def text(self):
        """The whole text."""
        if isinstance(self.outer, Raw):
            self._raw(self.outer, 0)
        elif self.outer.stated != len(self.outer.payload):
            self._outer_with_length()
        else:
            self._field(self.outer, 0, None)
        return "".join(line + "\n" for line in self.lines)

    def _put(self, level, text, at, comment=None):
        """Add a line."""
        notes = [comment] if comment else []
        if self.places:
            notes.append(f"at {at}")
        tail = "  // " + ", ".join(notes) if notes else ""
        self.lines.append("  " * level + text + tail)

    def _raw(self, raw, level):
        """Raw bytes, some to a line."""
        if not raw.data:
            self._put(level, "bytes", raw.at, "none")
        for start in range(0, len(raw.data), BYTES_A_LINE):
            piece = raw.data[start:start + BYTES_A_LINE]
            self._put(level, "bytes " + hex_text(piece), raw.at + start)

    def _outer_with_length(self):
        """The outer field where its stated length is not the rest."""
        outer = self.outer
        if outer.tag in (MODULE, NETLIST):
            self._put(0, f"{WORDS[outer.tag]} length {outer.stated}", 0)
            self._parts(outer.parts, 1, outer)
        else:
            self._plain(outer, 0, f" length {outer.stated}")

    def _parts(self, parts, level, parent):
        """All parts of a field, each on lines of its own."""
        for part in parts:
            if isinstance(part, Raw):
                self._raw(part, level)
            else:
                self._field(part, level, parent)

    def _field(self, field, level, parent):
        """One field, in words where its form is whole."""
        if not self._in_words(field, level, parent):
            self._plain(field, level, "")

    def _plain(self, field, level, length):
        """A field as its tag and whatever stands in it."""
        word = WORDS.get(field.tag)
        self._put(level, f"field {field.tag:02X}{length}", field.at, word)
        if not field.holds_fields:
            if field.payload:
                self._raw(Raw(field.at + 3, field.payload), level + 1)
            return
        if field.front:
            self._raw(Raw(field.at + 3, field.front), level + 1)
        self._parts(field.parts, level + 1, None)

    def _in_words(self, field, level, parent):
        """Write a field in words; False if its form is not whole."""
        tag = field.tag
        if tag in (MODULE, NETLIST, PROCESS, BLOCK):
            return self._list(field, level, parent)
        if tag in (INPUT, REGISTER):
            return self._declaration(field, level)
        if tag in ASSIGNMENTS:
            return self._assignment(field, level)
        if tag in EXPRESSIONS:
            text = expression_text(field, self.names)
            return self._one_line(text and "expression " + text, field, level)
        if tag in (IF, CASE, ITEM):
            return self._with_head(field, level)
        if parent is self.outer and parent.tag == NETLIST:
            return self._of_netlist(field, level)
        return False

    def _one_line(self, text, field, level):
        """A field that is one line, unless there is no text for it."""
        if text is None:
            return False
        self._put(level, text, field.at)
        return True

    def _list(self, field, level, parent):
        """A module, netlist, process or block: a word, then its parts."""
        word = WORDS[field.tag]
        if field.tag == BLOCK and parent is not None and parent.tag == CASE:
            word = "default"
        self._put(level, word, field.at)
        self._parts(field.parts, level + 1, field)
        return True

    def _declaration(self, field, level):
        """An input or a register."""
        if not is_declaration(field):
            return False
        width = field.payload[0]
        if field.tag == INPUT:
            text = f"input {name_text(field.payload[1:])} {width}"
        else:
            value = int.from_bytes(field.payload[1:5], "big")
            text = f"register {name_text(field.payload[5:])} {width} = {value}"
        return self._one_line(text, field, level)

    def _assignment(self, field, level):
        """An assignment with its value."""
        if not field.front or len(field.parts) != 1:
            return False
        value = expression_text(field.parts[0], self.names)
        if value is None:
            return False
        target = self.names.variable(field.front[0])
        if field.tag in (BLOCKING_BIT, NONBLOCKING_BIT):
            target += f"[{field.front[1]}]"
        return self._one_line(f"{target} {ARROWS[field.tag]} {value}",
                              field, level)

    def _with_head(self, field, level):
        """An if, case or item: its expression, then its blocks."""
        parts = field.parts
        head = parts and expression_text(parts[0], self.names)
        if not head:
            return False
        if field.tag == CASE:
            self._put(level, f"case {head}", field.at)
            self._parts(parts[1:], level + 1, field)
            return True
        most = 3 if field.tag == IF else 2
        if not 2 <= len(parts) <= most or not all_blocks(parts[1:]):
            return False
        self._put(level, f"{WORDS[field.tag]} {head}", field.at)
        self._parts(parts[1].parts, level + 1, parts[1])
        if len(parts) == 3:
            self._put(level, "else", parts[2].at)
            self._parts(parts[2].parts, level + 1, parts[2])
        return True

    def _of_netlist(self, field, level):
        """A cell or a drive."""
        if field.tag in CELLS:
            return self._one_line(self._cell_text(field), field, level)
        if field.tag != DRIVE:
            return False
        operand = drive_operand(field)
        if operand is None or operand.kind > 2:
            return False
        target = self.names.variable(field.payload[0])
        return self._one_line(f"drive {target} = "
                              f"{self.names.operand(operand)}", field, level)

    def _cell_text(self, field):
        """A cell with its operands, if its form is whole."""
        if not is_cell(field):
            return None
        number = self.names.cell_numbers[field.at]
        words = [self.names.operand(part) if isinstance(part, Operand)
                 else str(part) for part in cell_parts(field)]
        return (f"cell c{number} {field.payload[0]} = "
                f"{CELL_WORDS[field.tag]} {' '.join(words)}")


def all_blocks(parts):
    """Whether all parts are blocks."""
    return all(isinstance(part, Field) and part.tag == BLOCK
               for part in parts)


def disassemble(data, places=False):
    """The text of a byte string; with places, each line says its offset."""
    return Disassembler(data, places).text()
