"""From text to bytes: the assembler.

It judges nothing that the proved program judges, and writes what the text
says, also if the file will be refused. What it cannot understand it reports
with the line and what was expected there.
"""

import re

from skodderym_fields import (
    BLOCK, BLOCKING, BLOCKING_BIT, CASE, CELL_SHAPES, CELLS, CHOSEN_BIT,
    CONSTANT, DRIVE, FIXED_BIT, IF, INPUT, ITEM, MODULE, NETLIST, NONBLOCKING,
    NONBLOCKING_BIT, NOT, PARITY, PROCESS, REGISTER, VARIABLE)
from skodderym_to_text import CELL_NAME, CELL_WORDS, LINE_WORDS, SIGNS

TAG_OF_SIGN = {sign: tag for tag, sign in SIGNS.items()}
TAG_OF_CELL = {word: tag for tag, word in CELL_WORDS.items()}
DEEPEST_TEXT = 100

HINTS = {
    "reg": "a register is written `register n 4 = 0`",
    "output": "a register is written `register n 4 = 0`",
    "wire": "there are only inputs and registers; `input n 4`",
    "logic": "a register is written `register n 4 = 0`",
    "assign": "an assignment stands in a process, `n <= ...` or `n = ...`",
    "always": "a clocked process is written `process`",
    "always_ff": "a clocked process is written `process`",
    "begin": "what belongs together is indented, without begin and end",
    "end": "what belongs together is indented, without begin and end",
    "endcase": "what belongs together is indented, without an end word",
    "endmodule": "what belongs together is indented, without an end word",
}

TOKEN = re.compile(r"""
    (?P<blank>\s+)
  | (?P<constant>[0-9]+'[dDhHbB][0-9A-Fa-f_]+)
  | (?P<number>[0-9]+)
  | (?P<numbered>\#[0-9]+)
  | (?P<word>[A-Za-z_][A-Za-z0-9_$]*)
  | (?P<sign><=|==|[=+&|^~()\[\]:])
  | (?P<other>.)
""", re.VERBOSE)

DECLARATION = re.compile(
    r'(?:input|register)\s+(?P<name>"(?:[^"\\]|\\.)*"|[^\s"\[\]();,:=]+)'
    r'(?:\s+(?P<width>[0-9]+))?(?P<rest>.*)\Z', re.DOTALL)


class TextError(Exception):
    """A text that is not understood: the line, and what was expected."""

    def __init__(self, line, message):
        super().__init__(f"line {line}: {message}")
        self.line = line


class Line:
    """One line of text with the lines that are indented below it."""

    def __init__(self, number, indent, text):
        self.number = number
        self.indent = indent
        self.text = text
        self.word = re.match(r"[A-Za-z_$0-9]*", text).group()
        self.below = []
        self.otherwise = None

    def error(self, message):
        """An error at this line."""
        return TextError(self.number, message)


def without_comment(text):
    """A line without its comment; quotes may hold two slashes."""
    match = re.match(r'(?:"(?:[^"\\]|\\.)*"|(?!//).)*', text, re.DOTALL)
    return match.group().rstrip()


def read_lines(text):
    """The lines of a text as a tree by indentation."""
    root = Line(0, -1, "")
    open_lines = [root]
    for number, whole in enumerate(text.split("\n"), start=1):
        bare = without_comment(whole)
        if not bare.strip():
            continue
        line = make_line(number, bare)
        while open_lines[-1].indent >= line.indent:
            open_lines.pop()
        if len(open_lines) > DEEPEST_TEXT:
            raise line.error(f"expected at most {DEEPEST_TEXT} levels")
        place_below(open_lines[-1], line)
        open_lines.append(line)
    return root


def make_line(number, bare):
    """A line with its indentation, which has to be blanks."""
    content = bare.lstrip()
    blanks = bare[:len(bare) - len(content)]
    if blanks.strip(" "):
        raise TextError(number, "expected blanks for the indentation, "
                                "found a tab")
    return Line(number, len(blanks), content)


def place_below(parent, line):
    """Put a line below its parent; an else goes to the if before it."""
    siblings = parent.below
    if siblings and siblings[0].indent != line.indent:
        raise line.error(
            f"expected {siblings[0].indent} blanks before it, as on line "
            f"{siblings[0].number}, found {line.indent}")
    if line.text != "else":
        siblings.append(line)
        return
    if not siblings or siblings[-1].word != "if" or siblings[-1].otherwise:
        raise line.error("expected an if before this else, with the same "
                         "indentation")
    siblings[-1].otherwise = line


class Assembler:
    """Turns the lines of one text into bytes."""

    def __init__(self, text):
        self.root = read_lines(text)
        self.variables = []
        self.numbers = {}
        self.cell_widths = []
        self.cells_written = 0
        self.top = None

    def file(self):
        """The bytes of the whole text."""
        lines = self.root.below
        if not lines:
            raise TextError(1, "expected module or netlist, found no line")
        if all(line.word == "bytes" for line in lines):
            return b"".join(self._line(line, None) for line in lines)
        if len(lines) > 1:
            raise lines[1].error(
                f"expected the end of the text, or an indentation: what "
                f"belongs to the {lines[0].word} of line {lines[0].number} "
                f"is indented below it")
        self.top = lines[0]
        if self.top.word in ("module", "netlist"):
            self._collect(self.top)
        return self._line(self.top, None)

    def _collect(self, top):
        """Note declarations and cells before anything refers to them."""
        for line in top.below:
            if line.word in ("input", "register"):
                name, width, _ = self._declared(line)
                self.numbers.setdefault(name, len(self.variables))
                self.variables.append(width)
            elif top.word == "netlist" and line.word == "cell":
                self.cell_widths.append(self._cell_head(line)[1])
            elif top.word == "netlist" and line.word == "field":
                if self._field_head(line)[0] in CELLS:
                    self.cell_widths.append(None)

    # ---- lines

    def _line(self, line, parent):
        """The bytes of one line and of what stands below it."""
        if line.word in ("input", "register"):
            return self._without_below(line, self._declaration(line))
        if line.word not in LINE_WORDS:
            return self._without_below(line, self._assignment(line))
        return getattr(self, "_line_" + line.word)(line, parent)

    def _below(self, line):
        """The bytes of all lines below one."""
        return b"".join(self._line(inner, line) for inner in line.below)

    def _without_below(self, line, data):
        """The bytes of a line that takes nothing below it."""
        if line.below:
            raise line.below[0].error(
                f"expected no indentation: line {line.number} takes nothing "
                f"below it")
        return data

    def field(self, line, tag, payload, length=None):
        """A field with its header."""
        stated = len(payload) if length is None else length
        if stated > 0xFFFF:
            raise line.error(f"expected at most 65535 bytes in a field, as "
                             f"its length has two bytes; found {stated}")
        return bytes([tag]) + stated.to_bytes(2, "big") + payload

    def _bare_word(self, line):
        """A line that is one word only."""
        Tokens(line, line.text[len(line.word):]).end()

    def _line_module(self, line, _parent):
        """A module with all that is indented below it."""
        return self._outer(line, MODULE)

    def _line_netlist(self, line, _parent):
        """A netlist with all that is indented below it."""
        return self._outer(line, NETLIST)

    def _outer(self, line, tag):
        """A module or netlist, perhaps with another length than its own."""
        tokens = Tokens(line, line.text[len(line.word):])
        length = tokens.length()
        tokens.end()
        return self.field(line, tag, self._below(line), length)

    def _line_process(self, line, _parent):
        """A process with its statements."""
        self._bare_word(line)
        return self.field(line, PROCESS, self._below(line))

    def _line_block(self, line, _parent):
        """A block with its statements."""
        self._bare_word(line)
        return self.field(line, BLOCK, self._below(line))

    def _line_default(self, line, parent):
        """The default block of a case."""
        if parent is None or parent.word != "case":
            raise line.error("expected a case round this default")
        return self._line_block(line, parent)

    def _line_else(self, line, _parent):
        """An else that was not taken by an if."""
        raise line.error("expected nothing after else")

    def _line_if(self, line, _parent):
        """An if: its condition, its block and perhaps its else block."""
        payload = self._head(line) + self.field(line, BLOCK,
                                                 self._below(line))
        if line.otherwise:
            payload += self.field(line.otherwise, BLOCK,
                                   self._below(line.otherwise))
        return self.field(line, IF, payload)

    def _line_case(self, line, _parent):
        """A case: its selector, items and default."""
        return self.field(line, CASE, self._head(line) + self._below(line))

    def _line_item(self, line, _parent):
        """An item of a case: its constant and its block."""
        payload = self._head(line) + self.field(line, BLOCK,
                                                 self._below(line))
        return self.field(line, ITEM, payload)

    def _line_expression(self, line, _parent):
        """An expression that stands by itself."""
        return self._without_below(line, self._head(line))

    def _head(self, line):
        """The expression after the first word of a line."""
        tokens = Tokens(line, line.text[len(line.word):])
        data = Expressions(self, tokens).whole()
        tokens.end()
        return data

    def _line_bytes(self, line, _parent):
        """Bytes as they are."""
        data = b""
        for word in line.text[len("bytes"):].split():
            if not re.fullmatch(r"[0-9A-Fa-f]{2}", word):
                raise line.error(f"expected bytes of two hexadecimal "
                                 f"digits, such as 0A, found {word}")
            data += bytes([int(word, 16)])
        return self._without_below(line, data)

    def _field_head(self, line):
        """Tag and stated length of a line `field`."""
        match = re.match(r"field\s+([0-9A-Fa-f]{2})(?=\s|\Z)", line.text)
        if not match:
            raise line.error("expected a tag of two hexadecimal digits "
                             "after field, such as field 24")
        tokens = Tokens(line, line.text[match.end():])
        length = tokens.length()
        tokens.end()
        return int(match.group(1), 16), length

    def _line_field(self, line, parent):
        """A field of any tag."""
        tag, length = self._field_head(line)
        if tag in CELLS and parent is self.top:
            self.cells_written += 1
        return self.field(line, tag, self._below(line), length)

    # ---- declarations

    def _declared(self, line):
        """Name, width and the rest of a declaration's line."""
        match = DECLARATION.match(line.text)
        if not match:
            example = "n 4 = 0" if line.word == "register" else "n 4"
            raise line.error(f"expected a name and then the width, such as "
                             f"`{line.word} {example}`")
        if match["width"] is None:
            raise line.error(f"expected a width after the name, such as "
                             f"`{line.word} {match['name']} 4"
                             f"{' = 0' if line.word == 'register' else ''}`")
        width = self.byte(line, match["width"], "a width")
        return name_bytes(line, match["name"]), width, match["rest"]

    def _declaration(self, line):
        """The field of an input or a register."""
        name, width, rest = self._declared(line)
        tokens = Tokens(line, rest)
        if line.word == "input":
            tokens.end()
            return self.field(line, INPUT, bytes([width]) + name)
        tokens.sign("=", "= and the initial value, such as `= 0`")
        value = self.value(line, int(tokens.take("number", "the initial "
                                                 "value, a number")))
        tokens.end()
        return self.field(line, REGISTER, bytes([width]) + value + name)

    def byte(self, line, text, what):
        """A number that has to fit one byte."""
        if int(text) > 255:
            raise line.error(f"expected {what} of at most 255, as it is one "
                             f"byte, found {text}")
        return int(text)

    def value(self, line, number):
        """A number in four bytes."""
        if number > 0xFFFFFFFF:
            raise line.error(f"expected a number below 4294967296, as it has "
                             f"four bytes, found {number}")
        return number.to_bytes(4, "big")

    # ---- statements

    def _assignment(self, line):
        """The field of an assignment."""
        if line.word in HINTS and line.word.encode() not in self.numbers:
            raise line.error(f"expected a line of this text form, found "
                             f"{line.word}: {HINTS[line.word]}")
        tokens = Tokens(line, line.text)
        front = bytes([self.variable(tokens, "an assignment, such as "
                                     "`n <= ...`, or a word such as if")])
        one_bit = tokens.try_sign("[")
        if one_bit:
            front += self._bit_number(tokens)
        arrow = tokens.take_sign(("<=", "="), "<= or =")
        kinds = (BLOCKING_BIT, NONBLOCKING_BIT) if one_bit else (
            BLOCKING, NONBLOCKING)
        payload = front + Expressions(self, tokens).whole()
        tokens.end()
        return self.field(line, kinds[arrow == "<="], payload)

    def _bit_number(self, tokens):
        """The bit number in an assignment of one bit."""
        text = tokens.take("number", "a bit number: only a fixed bit can be "
                                     "assigned")
        tokens.sign("]", "]")
        return bytes([self.byte(tokens.line, text, "a bit number")])

    def number_of(self, line, token):
        """The number of a variable that is written by name or number."""
        kind, text = token
        if kind == "numbered":
            return int(text[1:])
        if text.encode() not in self.numbers:
            raise line.error(f"expected the name of a variable, found {text}, "
                             f"which no input or register line declares")
        return self.numbers[text.encode()]

    def variable(self, tokens, expected):
        """A variable as one byte."""
        token = tokens.take_of(("word", "numbered"), expected)
        number = self.number_of(tokens.line, token)
        return self.byte(tokens.line, str(number), "a variable number")

    # ---- netlists

    def _cell_head(self, line):
        """The number, width and rest of a cell's line."""
        tokens = Tokens(line, line.text[len("cell"):])
        name = tokens.take("word", "the cell's name, such as c0")
        if not CELL_NAME.match(name):
            raise line.error(f"expected the cell's name, such as c0, found "
                             f"{name}")
        width = self.byte(line, tokens.take("number", "the cell's width"),
                          "a width")
        tokens.sign("=", "= and the cell's word, such as `= add n 4'd1`")
        return int(name[1:]), width, tokens

    def _line_cell(self, line, parent):
        """A cell of a netlist."""
        number, width, tokens = self._cell_head(line)
        if parent is not self.top or parent.word != "netlist":
            raise line.error("expected a cell directly in a netlist")
        if number != self.cells_written:
            raise line.error(f"expected c{self.cells_written}, found "
                             f"c{number}: cells are numbered in order")
        self.cells_written += 1
        word = tokens.take("word", "the cell's word: " +
                           ", ".join(CELL_WORDS.values()))
        if word not in TAG_OF_CELL:
            raise line.error("expected the cell's word, one of " +
                             ", ".join(CELL_WORDS.values()) +
                             f", found {word}")
        payload = bytes([width])
        for sort in CELL_SHAPES[TAG_OF_CELL[word]]:
            payload += self._cell_part(tokens, sort)
        tokens.end()
        return self._without_below(line, self.field(
            line, TAG_OF_CELL[word], payload))

    def _cell_part(self, tokens, sort):
        """An operand or a bit number of a cell."""
        if sort == "o":
            return self._operand(tokens)
        text = tokens.take("number", "a bit number")
        return bytes([self.byte(tokens.line, text, "a bit number")])

    def _line_drive(self, line, parent):
        """A drive of a netlist."""
        if parent is not self.top or parent.word != "netlist":
            raise line.error("expected a drive directly in a netlist")
        tokens = Tokens(line, line.text[len("drive"):])
        payload = bytes([self.variable(tokens, "a register")])
        tokens.sign("=", "= and an operand")
        payload += self._operand(tokens)
        tokens.end()
        return self._without_below(line, self.field(line, DRIVE, payload))

    def _operand(self, tokens):
        """The six bytes of an operand."""
        line = tokens.line
        kind, text = tokens.take_of(
            ("constant", "word", "numbered"),
            "an operand: a name, a cell such as c0 or a constant such as 4'd1")
        if kind == "constant":
            return b"\0" + self.constant(line, text)
        if CELL_NAME.match(text):
            number, sort = int(text[1:]), 2
            widths = self.cell_widths
        else:
            number, sort = self.number_of(line, (kind, text)), 1
            widths = self.variables
        known = widths[number] if number < len(widths) else None
        width = self._operand_width(tokens, text, known)
        return bytes([sort, width]) + self.value(line, number)

    def _operand_width(self, tokens, text, known):
        """The width of an operand: as written, else that of what it names."""
        if tokens.try_sign(":"):
            written = tokens.take("number", "a width")
            return self.byte(tokens.line, written, "a width")
        if known is None:
            raise tokens.line.error(
                f"expected a width after {text}, such as {text}:4, since the "
                f"file has no such variable or cell")
        return known

    def constant(self, line, text):
        """The five bytes of a constant."""
        width, rest = text.split("'")
        base = {"d": 10, "h": 16, "b": 2}[rest[0].lower()]
        try:
            number = int(rest[1:].strip("_"), base)
        except ValueError:
            raise line.error(f"expected a constant such as 4'd1, 8'hFF or "
                             f"4'b0101, found {text}") from None
        return (bytes([self.byte(line, width, "a width")])
                + self.value(line, number))


def name_bytes(line, text):
    """The bytes of a declared name."""
    if not text.startswith('"'):
        return text.encode()
    pieces = re.findall(r"\\x[0-9A-Fa-f]{2}|\\.|[^\\]", text[1:-1], re.DOTALL)
    return b"".join(character_bytes(line, piece) for piece in pieces)


def character_bytes(line, piece):
    """The bytes of one character of a name in quotes."""
    if len(piece) == 4:
        return bytes([int(piece[2:], 16)])
    if piece[0] != "\\":
        return piece.encode()
    if piece[1] not in '"\\':
        raise line.error(f'expected \\", \\\\ or \\x and two hexadecimal '
                         f'digits in a name, found {piece}')
    return piece[1].encode()


class Tokens:
    """The tokens of one line, taken from left to right."""

    def __init__(self, line, text):
        self.line = line
        self.tokens = [(match.lastgroup, match.group())
                       for match in TOKEN.finditer(text)
                       if match.lastgroup != "blank"]
        self.at = 0

    def peek(self):
        """The next token, or a pair of Nones at the end."""
        if self.at < len(self.tokens):
            return self.tokens[self.at]
        return None, None

    def fail(self, expected):
        """An error that says what was expected and what was found."""
        found = self.peek()[1]
        tail = "the end of the line" if found is None else found
        if found == ";":
            tail += " (a line ends without a semicolon here)"
        return self.line.error(f"expected {expected}, found {tail}")

    def take_of(self, kinds, expected):
        """The next token, which has to be of one of some kinds."""
        kind, text = self.peek()
        if kind not in kinds:
            raise self.fail(expected)
        self.at += 1
        return kind, text

    def take(self, kind, expected):
        """The text of the next token, which has to be of a kind."""
        return self.take_of((kind,), expected)[1]

    def take_sign(self, signs, expected):
        """The next token, which has to be one of some signs."""
        kind, text = self.peek()
        if kind != "sign" or text not in signs:
            raise self.fail(expected)
        self.at += 1
        return text

    def sign(self, sign, expected):
        """Pass over a sign that has to stand here."""
        self.take_sign((sign,), expected)

    def try_sign(self, sign):
        """Pass over a sign if it stands here, and say whether it did."""
        if self.peek() != ("sign", sign):
            return False
        self.at += 1
        return True

    def length(self):
        """A stated length, `length 50`, or None if there is none."""
        if self.peek() != ("word", "length"):
            return None
        self.at += 1
        return int(self.take("number", "a length, a number"))

    def end(self):
        """Nothing may follow."""
        if self.at < len(self.tokens):
            raise self.fail("the end of the line")


class Expressions:
    """Reads an expression from tokens and gives its bytes."""

    def __init__(self, assembler, tokens):
        self.assembler = assembler
        self.tokens = tokens
        self.depth = 0

    def whole(self):
        """An operand, or two with an operator between them."""
        left = self.operand()
        if self.tokens.peek()[1] not in TAG_OF_SIGN:
            return left
        sign = self.tokens.take_sign(tuple(TAG_OF_SIGN), "an operator")
        data = self._field(TAG_OF_SIGN[sign], left + self.operand())
        if self.tokens.peek()[1] in TAG_OF_SIGN:
            raise self.tokens.fail("brackets, such as (a + b) + c, for more "
                                   "than one operator")
        return data

    def operand(self):
        """A constant, a variable or bit, a not, a parity, or brackets."""
        self.depth += 1
        if self.depth > DEEPEST_TEXT:
            raise self.tokens.line.error(f"expected at most {DEEPEST_TEXT} "
                                         f"operators inside each other")
        data = self._operand()
        self.depth -= 1
        return data

    def _operand(self):
        """An operand, whatever it begins with."""
        tokens = self.tokens
        if tokens.try_sign("~"):
            return self._field(NOT, self.operand())
        if tokens.try_sign("^"):
            return self._field(PARITY, self.operand())
        if tokens.try_sign("("):
            data = self.whole()
            tokens.sign(")", ") or an operator")
            return data
        kind, text = tokens.peek()
        if kind == "constant":
            tokens.at += 1
            return self._field(CONSTANT,
                               self.assembler.constant(tokens.line, text))
        if kind == "number":
            raise tokens.fail("a constant with its width, such as 4'd1")
        return self._read()

    def _read(self):
        """A variable, a fixed bit or a chosen bit."""
        tokens = self.tokens
        number = bytes([self.assembler.variable(
            tokens, "an expression: a name, a constant such as 4'd1, ~, ^ "
                    "or a bracket")])
        if not tokens.try_sign("["):
            return self._field(VARIABLE, number)
        kind, text = tokens.peek()
        if kind == "number":
            tokens.at += 1
            bit = self.assembler.byte(tokens.line, text, "a bit number")
            data = self._field(FIXED_BIT, number + bytes([bit]))
        else:
            data = self._field(CHOSEN_BIT, number + self.whole())
        tokens.sign("]", "]")
        return data

    def _field(self, tag, payload):
        """A field of an expression."""
        return self.assembler.field(self.tokens.line, tag, payload)


def assemble(text):
    """The bytes of a text; raises TextError if it is not understood."""
    return Assembler(text).file()
