"""A second opinion for the tests: refusals, cells and cycles in plain Python.

Nothing here is proved, and no tool uses it. The tests use it to see that the
expected answers of the examples are not slips, and that the examples do what
their pages say. It shares no code with the tools that it tests.
"""

WIDEST, DEEPEST = 32, 32
MOST_CELLS, MOST_VARIABLES, MOST_PROCESSES = 1024, 64, 8
LONGEST = {0x01: 16384, 0x81: 32768}
# Operands of each cell: o an operand, n a bit number byte.
CELL_FORMS = {0x30: "o", 0x31: "oo", 0x32: "oo", 0x33: "oo", 0x34: "oo",
              0x35: "oo", 0x36: "ooo", 0x37: "ono", 0x38: "on", 0x39: "oo",
              0x3A: "o"}
STATEMENT, EXPRESSION = set(range(0x10, 0x16)), set(range(0x20, 0x2B))
# Inner parts of each field of fixed shape; "*" is a list of statements.
FORMS = {0x10: "bE", 0x11: "bE", 0x12: "bbE", 0x13: "bbE", 0x14: "EBB",
         0x15: "EIB", 0x16: "CB", 0x20: "bbbbb", 0x21: "b", 0x22: "bb",
         0x23: "bE", 0x24: "E", 0x25: "EE", 0x26: "EE", 0x27: "EE",
         0x28: "EE", 0x29: "EE", 0x2A: "E", 0x04: "*", 0x17: "*"}
MAY_STAND = {"E": EXPRESSION, "B": {0x17}, "I": {0x16}, "C": {0x20},
             "*": STATEMENT}


class Refused(Exception):
    """A refusal with its number and place."""

    def __init__(self, number, place):
        super().__init__(f"refused {number} at {place}")
        self.answer = (number, place)


class Node:
    """A field: tag, place, its fixed bytes and its inner fields."""

    def __init__(self, tag, at, data):
        self.tag, self.at, self.data, self.inner = tag, at, data, []

    @property
    def number(self):
        """The value of a constant."""
        return int.from_bytes(self.data[1:5], "big")

    def walk(self):
        """This field and all inside, by start."""
        yield self
        for node in self.inner:
            yield from node.walk()


# ------------------------------------------------------------ refusals 1, 2

def open_field(data, at, outer, end, depth, allowed):
    """Check a header and give tag, start and end of the payload."""
    if at == end:
        raise Refused(2, outer)
    if end - at < 3 or at + 3 + data[at + 1] * 256 + data[at + 2] > end:
        raise Refused(2, at)
    if depth > DEEPEST or data[at] not in allowed:
        raise Refused(2, at)
    return data[at], at + 3, at + 3 + data[at + 1] * 256 + data[at + 2]


def read_node(data, at, outer, end, depth, allowed):
    """Read a field of a process; gives the node and where it ends."""
    tag, start, stop = open_field(data, at, outer, end, depth, allowed)
    node = Node(tag, at, b"")
    here = start
    for part in FORMS[tag]:
        if part == "b":
            if here == stop:
                raise Refused(2, at)
            node.data += data[here:here + 1]
            here += 1
        elif part in "*I":
            while here < stop and (part == "*" or data[here] == 0x16):
                inner, here = read_node(data, here, at, stop, depth + 1,
                                        MAY_STAND[part])
                node.inner.append(inner)
        else:
            inner, here = read_node(data, here, at, stop, depth + 1,
                                    MAY_STAND[part])
            node.inner.append(inner)
    if here != stop:
        raise Refused(2, at)
    return node, stop


def read_flat(data, at, end, allowed):
    """Read a declaration, cell or drive, whose payload holds no fields."""
    tag, start, stop = open_field(data, at, 0, end, 2, allowed)
    node = Node(tag, at, data[start:stop])
    if tag in (2, 3):
        whole = len(node.data) >= (1 if tag == 2 else 5)
    else:
        form = "bo" if tag == 0x40 else "b" + CELL_FORMS[tag]
        sizes = [6 if sort == "o" else 1 for sort in form]
        whole = len(node.data) == sum(sizes)
        if whole and any(operand[0] > 2 for operand in operands(node)):
            whole = False
    if not whole:
        raise Refused(2, at)
    return node, stop


def operands(node):
    """The operands of a cell or drive as (kind, width, number)."""
    at, found = 1, []
    for sort in "o" if node.tag == 0x40 else CELL_FORMS[node.tag]:
        if sort == "o":
            piece = node.data[at:at + 6]
            found.append((piece[0], piece[1],
                          int.from_bytes(piece[2:], "big")))
        at += 6 if sort == "o" else 1
    return found


def read_whole(data, tag):
    """Refusals 1 and 2; gives the fields of a module or netlist."""
    if len(data) < 3 or len(data) > LONGEST[tag]:
        raise Refused(1, 0)
    if data[1] * 256 + data[2] != len(data) - 3:
        raise Refused(1, 0)
    if data[0] != tag:
        raise Refused(2, 0)
    nodes, at, end = [], 3, len(data)
    while at < end and data[at] in (2, 3):
        node, at = read_flat(data, at, end, {2, 3})
        nodes.append(node)
    while tag == 0x01 and at < end:
        node, at = read_node(data, at, 0, end, 2, {4})
        nodes.append(node)
    while tag == 0x81 and at < end and data[at] in CELL_FORMS:
        node, at = read_flat(data, at, end, CELL_FORMS)
        nodes.append(node)
    while tag == 0x81 and at < end:
        node, at = read_flat(data, at, end, {0x40})
        nodes.append(node)
    return nodes


# ------------------------------------------------------------ rules 3 to 11

def bad_value(width, value):
    """Rule 3 for one number."""
    return not 1 <= width <= WIDEST or value >> width != 0


def name_of(node):
    """The name of a declaration."""
    return node.data[1 if node.tag == 2 else 5:]


def bad_name(node, earlier):
    """Rule 4 for one declaration."""
    name = name_of(node)
    letters = b"ABCDEFGHIJKLMNOPQRSTUVWXYZabcdefghijklmnopqrstuvwxyz_"
    return (not 1 <= len(name) <= 24 or name in earlier
            or name[0] not in letters
            or any(byte not in letters + b"0123456789" for byte in name))


def declaration_rules(nodes):
    """The declarations, and refusals 3 and 4 and 5 among them as lists."""
    declared = [node for node in nodes if node.tag in (2, 3)]
    third = [node.at for node in declared if bad_value(
        node.data[0], node.number if node.tag == 3 else 0)]
    fourth, names = [], set()
    for node in declared:
        if bad_name(node, names):
            fourth.append(node.at)
        names.add(name_of(node))
    fifth = [node.at for node in declared[MOST_VARIABLES:]]
    return declared, third, fourth, fifth


class Module:
    """The fields of a module, for rules 3 to 11."""

    def __init__(self, data):
        nodes = read_whole(data, 0x01)
        self.declared, *self.listed = declaration_rules(nodes)
        self.processes = [node for node in nodes if node.tag == 4]
        self.owned = [(index, node)
                      for index, process in enumerate(self.processes)
                      for node in process.walk()]

    def width(self, node):
        """The width of an expression."""
        if node.tag == 0x20:
            return node.data[0]
        if node.tag == 0x21:
            return self.declared[node.data[0]].data[0]
        if node.tag in (0x22, 0x23, 0x29, 0x2A):
            return 1
        return self.width(node.inner[0])

    def missing(self, node):
        """Rule 6."""
        if node.tag in (0x21, 0x22, 0x23):
            return node.data[0] >= len(self.declared)
        if 0x10 <= node.tag <= 0x13:
            return (node.data[0] >= len(self.declared)
                    or self.declared[node.data[0]].tag == 2)
        return False

    def unlike(self, node):
        """Rule 7, except items; gives the places that break it."""
        widths = [self.width(inner) for inner in node.inner
                  if inner.tag in EXPRESSION]
        if node.tag in (0x10, 0x11):
            return widths[0] != self.declared[node.data[0]].data[0]
        if node.tag in (0x12, 0x13, 0x14):
            return widths[0] != 1
        return 0x25 <= node.tag <= 0x29 and widths[0] != widths[1]

    def unlike_items(self):
        """Rule 7 for items."""
        return [item.at for _, node in self.owned if node.tag == 0x15
                for item in node.inner if item.tag == 0x16
                and self.width(item.inner[0]) != self.width(node.inner[0])]

    def outside(self, node):
        """Rule 8."""
        if node.tag in (0x12, 0x13, 0x22):
            return node.data[1] >= self.declared[node.data[0]].data[0]
        if node.tag == 0x23:
            return (2 ** self.width(node.inner[0])
                    > self.declared[node.data[0]].data[0])
        return False

    def mixed(self):
        """Rules 9, 10 and 11."""
        written = [(index, node.data[0], node.tag in (0x10, 0x12), node.at)
                   for index, node in self.owned if 0x10 <= node.tag <= 0x13]
        ninth = [at for _, name, kind, at in written if any(
            name == n and kind != k and b < at for _, n, k, b in written)]
        tenth = [at for index, name, _, at in written if any(
            name == n and index != i and b < at for i, n, _, b in written)]
        eleventh = [node.at for index, node in self.owned
                    if node.tag in (0x21, 0x22, 0x23) and any(
                        n == node.data[0] and k and i != index
                        for i, n, k, _ in written)]
        return ninth, tenth, eleventh

    def refusals(self):
        """The places that break each of 3 to 11, in that order."""
        fields = [node for _, node in self.owned]
        yield self.listed[0] + [node.at for node in fields if node.tag == 0x20
                                and bad_value(node.data[0], node.number)]
        yield self.listed[1]
        yield self.listed[2] + [node.at for node
                                in self.processes[MOST_PROCESSES:]]
        yield [node.at for node in fields if self.missing(node)]
        yield self.unlike_items() + [node.at for node in fields
                                     if self.unlike(node)]
        yield [node.at for node in fields if self.outside(node)]
        yield from self.mixed()


class Netlist:
    """The fields of a netlist, for rules 3 to 8 and 12."""

    def __init__(self, data):
        nodes = read_whole(data, 0x81)
        self.declared, *self.listed = declaration_rules(nodes)
        self.cells = [node for node in nodes if node.tag in CELL_FORMS]
        self.drives = [node for node in nodes if node.tag == 0x40]
        self.registers = [index for index, node in enumerate(self.declared)
                          if node.tag == 3]

    def named_width(self, kind, number):
        """The width of the variable or cell that an operand names."""
        return (self.declared if kind == 1 else self.cells)[number].data[0]

    def value_wrong(self, node):
        """Rule 3 for a cell or drive."""
        return ((node.tag != 0x40 and bad_value(node.data[0], 0))
                or any(bad_value(width, number if kind == 0 else 0)
                       for kind, width, number in operands(node)))

    def missing(self, node, limit):
        """Rule 6 for the operands of a cell or drive."""
        counts = {1: len(self.declared), 2: limit}
        return any(kind and number >= counts[kind]
                   for kind, _, number in operands(node))

    def refused_six(self):
        """Rule 6: cells, drives, then a register without a drive."""
        places = [cell.at for index, cell in enumerate(self.cells)
                  if self.missing(cell, index)]
        for index, drive in enumerate(self.drives):
            wanted = self.registers[index:index + 1]
            if (self.missing(drive, len(self.cells))
                    or [drive.data[0]] != wanted):
                places.append(drive.at)
        if not places and len(self.drives) < len(self.registers):
            places.append(0)
        return places

    def unlike(self, node):
        """Rule 7 for a cell or drive."""
        found = operands(node)
        if any(kind and width != self.named_width(kind, number)
               for kind, width, number in found):
            return True
        widths, own = [width for _, width, _ in found], node.data[0]
        if node.tag == 0x40:
            return widths[0] != self.declared[own].data[0]
        if node.tag == 0x36:
            return widths != [1, own, own]
        if node.tag == 0x37:
            return widths != [own, 1]
        if node.tag == 0x35:
            return own != 1 or widths[0] != widths[1]
        if node.tag >= 0x38:
            return own != 1
        return any(width != own for width in widths)

    def outside(self, node):
        """Rule 8 for a cell."""
        found = operands(node)
        if node.tag in (0x37, 0x38):
            return node.data[7] >= found[0][1]
        return node.tag == 0x39 and 2 ** found[1][1] > found[0][1]

    def refusals(self):
        """The places that break each of 3 to 8, in that order."""
        fields = self.cells + self.drives
        yield self.listed[0] + [n.at for n in fields if self.value_wrong(n)]
        yield self.listed[1]
        yield self.listed[2]
        yield self.refused_six()
        yield [node.at for node in fields if self.unlike(node)]
        yield [node.at for node in fields if self.outside(node)]


def first_refusal(kind, data):
    """The first refusal of a file, or None."""
    try:
        whole = kind(data)
    except Refused as refused:
        return refused.answer
    for number, places in enumerate(whole.refusals(), start=3):
        if places:
            return number, min(places)
    return None


def check_module(data):
    """The answer of checking a module: None, or number and place."""
    return first_refusal(Module, data)


def check_netlist(data):
    """The answer of reading a netlist: None, or number and place."""
    answer = first_refusal(Netlist, data)
    if answer is None and len(Netlist(data).cells) > MOST_CELLS:
        return 12, 0
    return answer


# ------------------------------------------------------------ translation

class Translation:
    """Cells and drives of an accepted module."""

    def __init__(self, data):
        self.module = Module(data)
        count = len(self.module.declared)
        self.cells = []
        self.now = [self.whole(index) for index in range(count)]
        self.later = list(self.now)
        for process in self.module.processes:
            self.statements(process.inner)

    def whole(self, index):
        """A variable as an operand."""
        return 1, self.module.declared[index].data[0], index

    def add(self, tag, width, *parts):
        """Add a cell and give it as an operand."""
        self.cells.append((tag, width, parts))
        return 2, width, len(self.cells) - 1

    def read(self, node):
        """What a read of a variable finds."""
        return self.now[node.data[0]]

    def expression(self, node):
        """The operand of an expression."""
        if node.tag == 0x20:
            return 0, node.data[0], node.number
        if node.tag == 0x21:
            return self.read(node)
        if node.tag == 0x22:
            return self.add(0x38, 1, self.read(node), node.data[1])
        inner = [self.expression(part) for part in node.inner]
        if node.tag == 0x23:
            return self.add(0x39, 1, self.read(node), inner[0])
        tag = {0x24: 0x30, 0x2A: 0x3A}.get(node.tag, node.tag + 0x0C)
        width = 1 if node.tag in (0x29, 0x2A) else inner[0][1]
        return self.add(tag, width, *inner)

    def statements(self, nodes):
        """Translate statements in order."""
        for node in nodes:
            if node.tag == 0x14:
                condition = self.expression(node.inner[0])
                self.branch(condition, lambda: self.statements(
                    node.inner[1].inner), lambda: self.statements(
                        node.inner[2].inner))
            elif node.tag == 0x15:
                selector = self.expression(node.inner[0])
                self.items(selector, node.inner[1:])
            else:
                self.assign(node)

    def items(self, selector, nodes):
        """Translate the items of a case and its default."""
        if nodes[0].tag == 0x17:
            self.statements(nodes[0].inner)
            return
        constant = self.expression(nodes[0].inner[0])
        condition = self.add(0x35, 1, selector, constant)
        self.branch(condition,
                    lambda: self.statements(nodes[0].inner[1].inner),
                    lambda: self.items(selector, nodes[1:]))

    def branch(self, condition, first, second):
        """Both blocks from the operands before, then the muxes."""
        before = list(self.now), list(self.later)
        first()
        taken = self.now, self.later
        self.now, self.later = list(before[0]), list(before[1])
        second()
        for mine, other in ((self.now, taken[0]), (self.later, taken[1])):
            for index, operand in enumerate(mine):
                if operand != other[index]:
                    mine[index] = self.add(0x36, operand[1], condition,
                                           other[index], operand)

    def assign(self, node):
        """Translate one assignment."""
        table = self.now if node.tag in (0x10, 0x12) else self.later
        value, index = self.expression(node.inner[0]), node.data[0]
        if node.tag in (0x12, 0x13):
            old = table[index]
            value = self.add(0x37, old[1], old, node.data[1], value)
        table[index] = value

    def netlist(self):
        """The bytes of the netlist."""
        module = self.module
        delayed = {node.data[0] for _, node in module.owned
                   if node.tag in (0x11, 0x13)}
        body = b"".join(field(node.tag, node.data)
                        for node in module.declared)
        for tag, width, parts in self.cells:
            body += field(tag, bytes([width]) + b"".join(
                bytes([part]) if isinstance(part, int) else packed(part)
                for part in parts))
        for index, node in enumerate(module.declared):
            if node.tag == 3:
                table = self.later if index in delayed else self.now
                body += field(0x40, bytes([index]) + packed(table[index]))
        return field(0x81, body)


def field(tag, payload):
    """The bytes of a field."""
    return bytes([tag]) + len(payload).to_bytes(2, "big") + payload


def packed(operand):
    """The six bytes of an operand."""
    return bytes(operand[:2]) + operand[2].to_bytes(4, "big")


def translate(data):
    """The answer of translating with room enough: netlist bytes or 12."""
    found = Translation(data)
    if len(found.cells) > MOST_CELLS:
        return 12, 0
    return found.netlist()


# ------------------------------------------------------------ one cycle

class Cycle:
    """One clock cycle of an accepted module."""

    def __init__(self, data):
        self.module = Module(data)
        self.delayed = {node.data[0] for _, node in self.module.owned
                        if node.tag in (0x11, 0x13)}

    def run(self, row):
        """The row after one cycle."""
        self.now, self.later = list(row), list(row)
        for process in self.module.processes:
            self.statements(process.inner)
        return [self.later[index] if index in self.delayed else value
                for index, value in enumerate(self.now)]

    def value(self, node):
        """The value of an expression."""
        if node.tag == 0x20:
            return node.number
        if node.tag == 0x21:
            return self.now[node.data[0]]
        if node.tag == 0x22:
            return self.now[node.data[0]] >> node.data[1] & 1
        inner = [self.value(part) for part in node.inner]
        if node.tag == 0x23:
            return self.now[node.data[0]] >> inner[0] & 1
        mask = 2 ** self.module.width(node) - 1
        if node.tag == 0x24:
            return inner[0] ^ mask
        if node.tag == 0x2A:
            return bin(inner[0]).count("1") % 2
        left, right = inner
        return {0x25: left & right, 0x26: left | right, 0x27: left ^ right,
                0x28: left + right & mask, 0x29: int(left == right)}[node.tag]

    def statements(self, nodes):
        """Execute statements in order."""
        for node in nodes:
            if node.tag == 0x14:
                block = 1 if self.value(node.inner[0]) else 2
                self.statements(node.inner[block].inner)
            elif node.tag == 0x15:
                self.case(node)
            else:
                self.assign(node)

    def case(self, node):
        """Execute the first equal item, or the default."""
        selector = self.value(node.inner[0])
        for item in node.inner[1:-1]:
            if item.inner[0].number == selector:
                self.statements(item.inner[1].inner)
                return
        self.statements(node.inner[-1].inner)

    def assign(self, node):
        """Execute one assignment."""
        table = self.now if node.tag in (0x10, 0x12) else self.later
        index, value = node.data[0], self.value(node.inner[0])
        if node.tag in (0x12, 0x13):
            bit = 1 << node.data[1]
            value = table[index] & ~bit | value << node.data[1]
        table[index] = value
