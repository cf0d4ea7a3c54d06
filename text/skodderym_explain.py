"""Says in words where the place of a refusal lies and what its rule means.

Number and place come from the proved program. This script follows the fields
of the file to that place, names them, and looks up what the rule speaks of
there: widths, names, and the earlier field that a rule refers to. It decides
nothing.
"""

import re

from skodderym_faults import first_fault
from skodderym_fields import (
    ASSIGNMENTS, BLOCKING, BLOCKING_BIT, CELLS, CHOSEN_BIT, CONSTANT,
    DECLARATIONS, DRIVE, EQUAL, FIXED_BIT, Field, IF, INPUT, ITEM, NETLIST,
    NONBLOCKING, NONBLOCKING_BIT, Operand, PROCESS, READS, REGISTER, Raw,
    WORDS, cell_parts, drive_operand)
from skodderym_places import File, name_words, quoted, rank
from skodderym_to_text import CELL_WORDS

LONGEST_MODULE, LONGEST_NETLIST = 16384, 32768
MOST_VARIABLES, MOST_PROCESSES = 64, 8
WIDEST, LONGEST_NAME = 32, 24

RULES = {
    1: "a file has 3 to 16,384 bytes (a netlist up to 32,768), and its second "
       "and third byte say how many bytes follow them",
    2: "every field has a tag that may stand there, lies inside the field "
       "round it, at depth 32 at most, and holds exactly its parts",
    3: "a width is 1 to 32, and a value is below 2 to its width",
    4: "a name has 1 to 24 letters, digits and underscores, no digit first, "
       "and differs from every earlier name",
    5: "a file has at most 64 variables and 8 processes",
    6: "what is named exists, and only registers are assigned",
    7: "the widths agree of value and target, of both operands, of item and "
       "selector, and a condition or a value for one bit has width 1",
    8: "a bit lies inside its vector",
    9: "a variable is assigned by one kind only",
    10: "a variable is assigned in one process only",
    11: "what is assigned by blocking in one process is not read in another",
    12: "a netlist has at most 1,024 cells",
    13: "the buffer that is lent has room for the whole netlist; nothing was "
        "written",
    14: "each row has four bytes for each variable, and each number of the "
        "row that is read is below 2 to its variable's width",
}
# What rules 6 to 8 say about a field of a certain tag.
RULES_BY_TAG = {
    6: [(READS, "a variable that is read is declared"),
        (ASSIGNMENTS, "what is assigned is a declared register, no input"),
        (CELLS, "an operand names a declared variable or an earlier cell"),
        ((DRIVE,), "a drive names the next register, and its operand a "
                   "declared variable or a cell"),
        ((NETLIST,), "every register has a drive")],
    7: [((BLOCKING, NONBLOCKING), "value and target have the same width"),
        ((BLOCKING_BIT, NONBLOCKING_BIT), "a value for one bit has width 1"),
        ((IF,), "a condition has width 1"),
        ((ITEM,), "item and selector have the same width"),
        (range(0x25, 0x2A), "both operands have the same width"),
        ((DRIVE,), "register, operand and what it names have the same width"),
        (CELLS, "an operand has the width of what it names, and a cell the "
                "width that its kind and its operands give")],
    8: [((CHOSEN_BIT, 0x39), "an index of k bits needs a vector of at least "
                             "2 to the k bits, whatever its value"),
        ((FIXED_BIT, BLOCKING_BIT, NONBLOCKING_BIT, 0x37, 0x38),
         "a bit number is below the vector's width")],
}
DOUBT = ("; this script sees no break of the rule there, so is it the file "
         "that was refused?")
ANSWER = re.compile(r"refused\s+([0-9]+)\s+at\s+([0-9]+)")


def bits(count):
    """A count of bits in words."""
    return "1 bit" if count == 1 else f"{count} bits"


def span(width):
    """The numbers that a width holds."""
    return f"0 to {2 ** width - 1}"


# ------------------------------------------------------------ what is broken

def length_detail(file):
    """Refusal 1."""
    size = len(file.data)
    longest = LONGEST_NETLIST if file.is_netlist else LONGEST_MODULE
    if size < 3:
        return f"it has {size} bytes, and a header alone takes 3"
    if size > longest:
        return f"it has {size} bytes, and at most {longest} are allowed"
    if file.outer.stated != size - 3:
        return (f"its header states a length of {file.outer.stated}, and "
                f"{size - 3} bytes follow the header")
    if size > LONGEST_MODULE:
        return (f"it has {size} bytes, which is in order for a netlist and "
                f"too long for a call that reads modules")
    return None


def fault_at(file, part):
    """The fault of form at a part, if reading meets it there first."""
    if isinstance(file.outer, Raw):
        return None
    fault = first_fault(file.outer)
    return fault if fault and fault.place == part.at else None


def form_detail(file, part):
    """Refusal 2."""
    fault = fault_at(file, part)
    if fault:
        return fault.reason
    if part is file.outer and isinstance(part, Field):
        other = "modules" if part.tag == NETLIST else "netlists"
        return (f"it begins with tag {part.tag:02X} ({WORDS[part.tag]}), and "
                f"the call reads {other}")
    return None


def value_detail(file, part):
    """Refusal 3."""
    if part.tag in CELLS or part.tag == DRIVE:
        return operand_value_detail(part)
    if part.tag not in (INPUT, REGISTER, CONSTANT) or not part.payload:
        return None
    width = part.payload[0]
    value = int.from_bytes(part.payload[1:5], "big")
    name = "the initial value" if part.tag == REGISTER else "the value"
    return one_value(width, 0 if part.tag == INPUT else value, name)


def one_value(width, value, name):
    """What is wrong with one width and value."""
    if not 1 <= width <= WIDEST:
        return f"the width is {width}"
    if value >> width:
        return f"{name} {value} does not fit {bits(width)}, {span(width)}"
    return None


def operand_value_detail(part):
    """Refusal 3 for a cell or drive."""
    if part.tag in CELLS and one_value(part.payload[0], 0, ""):
        return f"the cell's width is {part.payload[0]}"
    for operand in operands_of(part):
        number = operand.number if operand.kind == 0 else 0
        wrong = one_value(operand.width, number, "the constant")
        if wrong:
            return wrong + (" (of an operand)" if operand.kind else "")
    return None


def operands_of(part):
    """The operands of a cell or drive."""
    if part.tag == DRIVE:
        return [drive_operand(part)]
    return [piece for piece in cell_parts(part)
            if isinstance(piece, Operand)]


def name_detail(file, part):
    """Refusal 4."""
    found = [item for item in file.variables if item.field is part]
    if not found:
        return None
    name = found[0].name
    for earlier in file.variables[:found[0].number]:
        if earlier.name == name:
            return (f"an earlier declaration at "
                    f"{file.where_at(earlier.field.at)} has the same name")
    if not name:
        return "the name is empty"
    if len(name) > LONGEST_NAME:
        return f"the name has {len(name)} characters"
    if name[:1].isdigit():
        return "the name begins with a digit"
    wrong = re.search(rb"[^A-Za-z0-9_]", name)
    if wrong:
        return (f"the name has the character "
                f"{quoted(name_words(wrong.group()))}")
    return None


def count_detail(file, part):
    """Refusal 5."""
    if part.tag == PROCESS:
        return over(rank(file.outer, part, (PROCESS,)), MOST_PROCESSES,
                    "processes")
    if part.tag in DECLARATIONS:
        return over(rank(file.outer, part, DECLARATIONS), MOST_VARIABLES,
                    "variables")
    return None


def over(number, most, word):
    """What is wrong if a number is above the most allowed."""
    return f"only {most} {word} are allowed" if number > most else None


def missing_detail(file, part):
    """Refusal 6."""
    if file.is_netlist:
        return missing_in_netlist(file, part)
    front = part.payload[:1]
    if part.tag not in READS and part.tag not in ASSIGNMENTS or not front:
        return None
    if front[0] >= len(file.variables):
        return no_variable(file, front[0])
    if part.tag in ASSIGNMENTS and not file.variables[front[0]].is_register:
        return f"{file.name(front[0])} is an input"
    return None


def no_variable(file, number):
    """There is no variable of a number."""
    last = len(file.variables) - 1
    if last < 0:
        return f"there is no variable {number}, since none is declared"
    return (f"there is no variable {number}, since the last one is {last}, "
            f"{file.name(last)}")


def missing_in_netlist(file, part):
    """Refusal 6 in a netlist."""
    if part is file.outer:
        return undriven(file)
    if part.tag not in CELLS and part.tag != DRIVE:
        return None
    own = len(file.names.cells)
    if part.tag in CELLS:
        own = rank(file.outer, part, CELLS) - 1
    for operand in operands_of(part):
        reason = operand_missing(file, operand, own)
        if reason:
            return reason
    return wrong_drive(file, part) if part.tag == DRIVE else None


def operand_missing(file, operand, own):
    """What an operand names that it may not name."""
    cells = len(file.names.cells)
    if operand.kind == 1 and operand.number >= len(file.variables):
        return no_variable(file, operand.number)
    if operand.kind == 2 and operand.number >= cells:
        last = f"the last one is c{cells - 1}" if cells else "there is none"
        return f"there is no cell c{operand.number}, {last}"
    if operand.kind == 2 and operand.number >= own:
        return (f"c{operand.number} is the cell itself" if operand.number
                == own else f"c{operand.number} is a later cell")
    return None


def drives_of(file):
    """The drives of a netlist."""
    return [part for part in file.outer.parts
            if isinstance(part, Field) and part.tag == DRIVE]


def registers_of(file):
    """The numbers of the registers, in rising order."""
    return [item.number for item in file.variables if item.is_register]


def wrong_drive(file, part):
    """A drive that does not name the next register."""
    index = rank(file.outer, part, (DRIVE,)) - 1
    registers = registers_of(file)
    if index >= len(registers):
        return "every register has its drive already"
    if part.payload[0] != registers[index]:
        return (f"the next register without a drive is "
                f"{file.name(registers[index])}")
    return None


def undriven(file):
    """A register without a drive."""
    missing = registers_of(file)[len(drives_of(file)):]
    if not missing:
        return None
    return f"register {file.name(missing[0])} has no drive"


def width_detail(file, part):
    """Refusal 7."""
    if file.is_netlist:
        return width_in_netlist(file, part)
    widths = [file.width(inner) for inner in part.parts]
    if part.tag in (BLOCKING, NONBLOCKING) and part.front:
        own = file.variable_width(part.front)
        return unequal(own, widths[0], "the target has {}, the value {}")
    if part.tag in (BLOCKING_BIT, NONBLOCKING_BIT):
        return unequal(1, widths[0], "one bit is assigned, the value has {1}")
    if part.tag == IF:
        return unequal(1, widths[0], "the condition has {1}, not 1")
    if part.tag == ITEM:
        return item_detail(file, part)
    if 0x25 <= part.tag <= EQUAL and len(widths) == 2:
        return unequal(*widths, "its operands have {} and {}")
    return None


def unequal(left, right, text):
    """A sentence about two widths, if they differ."""
    if left is None or right is None or left == right:
        return None
    return text.format(bits(left), bits(right))


def item_detail(file, part):
    """Refusal 7 for an item: the selector is in the case around it."""
    case = file.path(part.at)[-2]
    return unequal(file.width(case.parts[0]), file.width(part.parts[0]),
                   "the selector has {}, the item {}")


def width_in_netlist(file, part):
    """Refusal 7 for a cell or drive."""
    if part.tag not in CELLS and part.tag != DRIVE:
        return None
    operands = operands_of(part)
    for operand in operands:
        reason = named_width(file, operand)
        if reason:
            return reason
    widths = [operand.width for operand in operands]
    if part.tag == DRIVE:
        return unequal(file.variable_width(part.payload), widths[0],
                       "the register has {}, the operand {}")
    return cell_width(CELL_WORDS[part.tag], part.payload[0], widths)


def named_width(file, operand):
    """An operand that has not the width of what it names."""
    if operand.kind == 0:
        return None
    if operand.kind == 1:
        known = file.names.width_of_variable(operand.number)
        name = file.name(operand.number)
    else:
        known = file.names.width_of_cell(operand.number)
        name = f"cell c{operand.number}"
    return unequal(known, operand.width,
                   name + " has {}, and the operand that names it {}")


def cell_width(word, own, widths):
    """A cell whose width is not that of its kind and operands."""
    if word in ("equal", "bit", "choose", "parity") and own != 1:
        return f"{word} has width 1, and the cell states {own}"
    if word == "equal":
        return unequal(*widths, "its operands have {} and {}")
    if word == "mux" and widths[0] != 1:
        return f"its condition has {bits(widths[0])}, not 1"
    if word == "put" and widths[1] != 1:
        return f"the bit that it puts has {bits(widths[1])}, not 1"
    same = {"mux": widths[1:], "put": widths[:1]}.get(word, widths)
    if word in ("bit", "choose", "parity"):
        return None
    for width in same:
        if width != own:
            return (f"the cell states {bits(own)}, and an operand has "
                    f"{bits(width)}")
    return None


def bit_detail(file, part):
    """Refusal 8."""
    if part.tag in CELLS:
        return bit_of_cell(part)
    if part.tag not in (BLOCKING_BIT, NONBLOCKING_BIT, FIXED_BIT, CHOSEN_BIT):
        return None
    width = file.variable_width(part.payload)
    name = file.name(part.payload[0])
    if part.tag == CHOSEN_BIT:
        return wide_index(name, width, file.width(part.parts[0]))
    return outside(name, width, part.payload[1])


def outside(name, width, bit):
    """A bit number outside a vector."""
    if width is None or bit < width:
        return None
    return f"{name} has {bits(width)}, numbered 0 to {width - 1}"


def wide_index(name, width, index):
    """An index that can count beyond a vector."""
    if width is None or index is None or 2 ** index <= width:
        return None
    return (f"the index has {bits(index)} and counts to {2 ** index - 1}, and "
            f"{name} ends at bit {width - 1}")


def bit_of_cell(part):
    """Refusal 8 for a cell."""
    pieces = cell_parts(part)
    word = CELL_WORDS[part.tag]
    if word in ("put", "bit"):
        return outside("its vector", pieces[0].width, pieces[1])
    if word == "choose":
        return wide_index("its vector", pieces[0].width, pieces[1].width)
    return None


def blocks(field):
    """Whether an assignment is a blocking one."""
    return field.tag in (BLOCKING, BLOCKING_BIT)


def earlier_detail(file, part, same):
    """The first earlier assignment to the same variable, by a test."""
    if part.tag not in ASSIGNMENTS or not part.front:
        return None
    own = next((process for process, field in file.assignments()
                if field is part), None)
    for process, field in file.assignments():
        if field.at >= part.at:
            return None
        if field.front[0] == part.front[0] and same(process, field, own):
            kind = "blocking" if blocks(field) else "non-blocking"
            return (f"a {kind} assignment to "
                    f"{file.name(field.front[0])} stands at "
                    f"{file.where_at(field.at)}")
    return None


def kind_detail(file, part):
    """Refusal 9."""
    return earlier_detail(file, part, lambda _process, field, _own:
                          blocks(field) != blocks(part))


def process_detail(file, part):
    """Refusal 10."""
    return earlier_detail(file, part, lambda process, _field, own:
                          process is not own)


def reader_detail(file, part):
    """Refusal 11."""
    if part.tag not in READS or not part.payload:
        return None
    own = file.path(part.at)[1]
    for process, field in file.assignments():
        if (blocks(field) and process is not own
                and field.front[0] == part.payload[0]):
            return (f"a blocking assignment to {file.name(part.payload[0])} "
                    f"stands at {file.where_at(field.at)}")
    return None


DETAILS = {2: form_detail, 3: value_detail, 4: name_detail, 5: count_detail,
           6: missing_detail, 7: width_detail, 8: bit_detail, 9: kind_detail,
           10: process_detail, 11: reader_detail}


# ------------------------------------------------------------ the sentences

def rule_text(file, part, number):
    """What a rule says, in the words for this part where it has some."""
    text = RULES[number]
    fault = fault_at(file, part) if number == 2 else None
    if fault:
        text = fault.rule
    if isinstance(part, Field):
        for tags, words in RULES_BY_TAG.get(number, ()):
            text = words if part.tag in tags else text
    return f"Rule {number}: {text}."


def sentence(text):
    """A sentence begins with a capital and ends with a full stop."""
    text = text[0].upper() + text[1:]
    return text if text.endswith("?") else text + "."


def whole_file(file, number):
    """Refusals 1, 12, 13 and 14, which speak of the file as a whole."""
    if number == 1:
        return length_detail(file) or "its length is in order" + DOUBT
    if number == 12 and file.is_netlist:
        return f"it has {len(file.names.cells)} cells"
    if number == 12:
        return ("it translates to too many cells (the check accepts it, and "
                "it can be run)")
    if number == 13:
        return ("it is in order, and the output buffer was shorter than its "
                "netlist")
    return rows_detail(file)


def rows_detail(file):
    """Refusal 14: what rows of this file look like."""
    count = len(file.variables)
    names = [f"{name_words(item.name)} {span(item.width)}"
             for item in file.variables[:8]]
    listed = ", ".join(names) + (", and so on" if count > 8 else "")
    tail = f" ({listed})" if listed else ""
    return (f"it is in order, and a row of this run was not: each has "
            f"{4 * count} bytes, one number for each variable{tail}")


def explain(data, number, place):
    """One or two sentences about a refusal of a file."""
    file = File(data)
    if number not in RULES:
        return f"There is no refusal {number}; the numbers are 1 to 14."
    if number in (1, 12, 13, 14):
        return sentence(f"the file as a whole: {whole_file(file, number)}"
                        ) + " " + rule_text(file, file.outer, number)
    path = file.path(place)
    if path is None:
        return (f"At {place} no field of this file begins, so is it the file "
                f"that was refused? Rule {number}: {RULES[number]}.")
    part = path[-1]
    detail = detail_of(file, part, number)
    return sentence(place_words(file, path, detail)
                    ) + " " + rule_text(file, part, number)


def place_words(file, path, detail):
    """Where a place lies, what stands there, and what is wrong with it."""
    where, part = file.where(path), path[-1]
    what = file.what(part)
    if what in WORDS.values() and (part is file.outer or what in where):
        return where + (": " + detail if detail else DOUBT)
    return f"{where}: {what}" + ("; " + detail if detail else DOUBT)


def detail_of(file, part, number):
    """What breaks the rule at a part, or None if nothing is seen there.

    Rules 3 to 11 speak of files without a fault of form.
    """
    if number > 2 and (isinstance(part, Raw) or first_fault(file.outer)):
        return None
    return DETAILS[number](file, part)


def read_answer(line):
    """Number and place of a line `refused N at P`, or None."""
    match = ANSWER.search(line)
    return (int(match[1]), int(match[2])) if match else None
