/* The order of this file: fields and declarations, which modules and netlists share; reading a module into a tree (1, 2);
   the rules over the tree (3 to 11); running it; translating it (12, 13); reading a netlist, its rules, running it; the
   four calls. "Reading n" is a line of the list of readings that stands beside document 01. */
#include "reference.h"

#include <stdbool.h>
#include <string.h>

enum { WIDTH_MOST = 32, DEPTH_MOST = 32, NAME_MOST = 24, VARIABLES_MOST = 64, PROCESSES_MOST = 8, CELLS_MOST = 1024 };
enum { HEADER = 3, OPERAND_BYTES = 6, ROW_BYTES = 4, MODULE_BYTES_MOST = 16384, NETLIST_BYTES_MOST = 32768 };

enum tag {
    MODULE = 0x01, INPUT = 0x02, REGISTER = 0x03, PROCESS = 0x04,
    BLOCKING = 0x10, NON_BLOCKING = 0x11, BLOCKING_BIT = 0x12, NON_BLOCKING_BIT = 0x13,
    IF = 0x14, CASE = 0x15, ITEM = 0x16, BLOCK = 0x17,
    CONSTANT = 0x20, VARIABLE = 0x21, FIXED_BIT = 0x22, CHOSEN_BIT = 0x23, NOT = 0x24,
    AND = 0x25, OR = 0x26, XOR = 0x27, ADD = 0x28, EQUAL = 0x29, PARITY = 0x2A,
    CELL_NOT = 0x30, CELL_AND = 0x31, CELL_OR = 0x32, CELL_XOR = 0x33, CELL_ADD = 0x34, CELL_EQUAL = 0x35,
    CELL_MUX = 0x36, CELL_PUT = 0x37, CELL_FIXED_BIT = 0x38, CELL_CHOSEN_BIT = 0x39, CELL_PARITY = 0x3A,
    DRIVE = 0x40, NETLIST = 0x81
};

/* ---- Fields and declarations ---- */

/* One field of a file, taken apart. Which members mean something depends on the tag. */
typedef struct {
    uint8_t tag;
    uint8_t width;       /* of a declaration or constant: its width byte; of other expressions: see find_widths */
    uint8_t variable;    /* the variable byte */
    uint8_t bit;         /* the bit number byte */
    uint32_t value;      /* of a register: the initial value; of a constant: the value */
    uint32_t start, end; /* the offsets of its first byte and of the byte after it */
    uint32_t next;       /* in a module's tree: the number of the first later field that does not lie in this one */
} field;

/* What is left to read of a payload. */
typedef struct {
    const uint8_t *file;
    size_t at, end;
    size_t owner; /* where the field starts that holds the payload */
} payload;

typedef struct {
    uint8_t lowest, highest;
} tag_range;

static const tag_range ONLY_MODULE = {MODULE, MODULE}, ONLY_PROCESS = {PROCESS, PROCESS}, ONLY_ITEM = {ITEM, ITEM},
                       ONLY_BLOCK = {BLOCK, BLOCK}, ONLY_CONSTANT = {CONSTANT, CONSTANT},
                       ANY_DECLARATION = {INPUT, REGISTER}, ANY_STATEMENT = {BLOCKING, CASE},
                       ANY_EXPRESSION = {CONSTANT, PARITY}, ANY_CELL = {CELL_NOT, CELL_PARITY},
                       ONLY_DRIVE = {DRIVE, DRIVE};

static bool lies_in(uint8_t tag, tag_range range)
{
    return range.lowest <= tag && tag <= range.highest;
}

static uint32_t number_at(const uint8_t *bytes)
{
    return (uint32_t)bytes[0] << 24 | (uint32_t)bytes[1] << 16 | (uint32_t)bytes[2] << 8 | bytes[3];
}

static void write_number(uint8_t *bytes, uint32_t number)
{
    for (int i = 0; i < 4; i++)
        bytes[i] = (uint8_t)(number >> (24 - 8 * i));
}

static bool take_byte(payload *from, uint8_t *byte)
{
    if (from->at == from->end)
        return false;
    *byte = from->file[from->at++];
    return true;
}

static bool take_number(payload *from, uint32_t *number)
{
    if (from->end - from->at < 4)
        return false;
    *number = number_at(from->file + from->at);
    from->at += 4;
    return true;
}

/* Rule 2: a header that fits, with a tag of the place and a payload that fits. */
static bool header_is_right(const payload *outer, tag_range allowed)
{
    if (outer->end - outer->at < HEADER)
        return false;
    const uint8_t *header = outer->file + outer->at;
    size_t length = (size_t)header[1] << 8 | header[2];
    return lies_in(header[0], allowed) && length <= outer->end - outer->at - HEADER;
}

/* The payload of the field that begins at outer->at and whose header is right. */
static payload payload_of_next(const payload *outer)
{
    const uint8_t *header = outer->file + outer->at;
    size_t begin = outer->at + HEADER;
    return (payload){outer->file, begin, begin + ((size_t)header[1] << 8 | header[2]), outer->at};
}

static bool next_tag_is(const payload *from, tag_range range)
{
    return from->at < from->end && lies_in(from->file[from->at], range);
}

/* Rule 2: the width byte and a register's initial value must be there; all that follows is the name (reading 8). */
static bool take_declaration(field *self, payload *from)
{
    if (!take_byte(from, &self->width))
        return false;
    if (self->tag == REGISTER && !take_number(from, &self->value))
        return false;
    from->at = from->end;
    return true;
}

/* Rule 1, reading 1: lengths alone. */
static bool lengths_are_right(const uint8_t *file, size_t length, size_t most)
{
    return length >= HEADER && length <= most && ((size_t)file[1] << 8 | file[2]) == length - HEADER;
}

/* Rule 3. */
static bool width_or_value_is_wrong(uint8_t width, uint32_t value)
{
    return width == 0 || width > WIDTH_MOST || (uint64_t)value >> width != 0;
}

static size_t name_start(const field *declaration)
{
    return declaration->start + HEADER + (declaration->tag == REGISTER ? 5 : 1);
}

static bool is_letter_or_underscore(uint8_t c)
{
    return (c >= 'A' && c <= 'Z') || (c >= 'a' && c <= 'z') || c == '_';
}

static bool name_is_well_formed(const uint8_t *name, size_t length)
{
    if (length < 1 || length > NAME_MOST || !is_letter_or_underscore(name[0]))
        return false;
    for (size_t i = 1; i < length; i++)
        if (!is_letter_or_underscore(name[i]) && !(name[i] >= '0' && name[i] <= '9'))
            return false;
    return true;
}

static bool names_are_equal(const uint8_t *file, const field *one, const field *other)
{
    size_t length = one->end - name_start(one);
    return length == other->end - name_start(other)
        && memcmp(file + name_start(one), file + name_start(other), length) == 0;
}

/* Rule 4, over all declarations (reading 12). */
static bool a_name_is_wrong(const uint8_t *file, const field *declarations, size_t count, uint64_t *place)
{
    for (size_t i = 0; i < count; i++) {
        const field *self = &declarations[i];
        bool wrong = !name_is_well_formed(file + name_start(self), self->end - name_start(self));
        for (size_t earlier = 0; earlier < i && !wrong; earlier++)
            wrong = names_are_equal(file, &declarations[earlier], self);
        if (wrong) {
            *place = self->start;
            return true;
        }
    }
    return false;
}

/* Rule 14: one number per variable in both rows, each number read below 2 to its width. */
static bool rows_are_wrong(const field *declarations, size_t count, const uint8_t *row, size_t row_len, size_t next_len)
{
    if (row_len != ROW_BYTES * count || next_len != ROW_BYTES * count)
        return true;
    for (size_t v = 0; v < count; v++)
        if ((uint64_t)number_at(row + ROW_BYTES * v) >> declarations[v].width != 0)
            return true;
    return false;
}

static reference_answer accepted(void)
{
    return (reference_answer){0, 0, 0};
}

static reference_answer refused(uint32_t number, uint64_t place)
{
    return (reference_answer){number, 0, place};
}

/* The bits that a vector of this width has. */
static uint32_t all_ones(uint8_t width)
{
    return (uint32_t)(((uint64_t)1 << width) - 1);
}

/* "Parity is one when the number of ones is odd." */
static uint32_t parity_of(uint32_t value)
{
    uint32_t ones = 0;
    for (int bit = 0; bit < 32; bit++)
        ones += value >> bit & 1;
    return ones % 2;
}

/* ---- Reading a module ---- */

enum { FIELDS_MOST = MODULE_BYTES_MOST / HEADER };

/* All fields of a module in the order of their starts: field 0 is the module, the declarations follow, and the first
   field within a field is the next one. */
typedef struct {
    const uint8_t *file;
    field fields[FIELDS_MOST];
    size_t count;
    size_t variables;      /* the declarations are fields 1 to variables */
    uint64_t misshapen_at; /* the place of refusal 2 */
} module_tree;

static bool misshapen(module_tree *tree, size_t place)
{
    tree->misshapen_at = place;
    return false;
}

static bool read_parts(module_tree *tree, field *self, payload *from, unsigned depth);

/* Rule 2: reads one field of the allowed tags with all that it holds. A field that is not there is the outer one's fault
   (reading 5); whatever is wrong with a header is its own, depth included (reading 6). */
static bool read_field(module_tree *tree, payload *outer, tag_range allowed, unsigned depth)
{
    if (outer->at == outer->end)
        return misshapen(tree, outer->owner);
    if (!header_is_right(outer, allowed) || depth > DEPTH_MOST)
        return misshapen(tree, outer->at);
    payload inner = payload_of_next(outer);
    field *self = &tree->fields[tree->count++];
    *self = (field){.tag = outer->file[outer->at], .start = (uint32_t)outer->at, .end = (uint32_t)inner.end};
    if (!read_parts(tree, self, &inner, depth + 1))
        return false;
    if (inner.at != inner.end)
        return misshapen(tree, self->start); /* bytes left over (reading 3) */
    self->next = (uint32_t)tree->count;
    outer->at = inner.end;
    return true;
}

/* Rule 2: every byte of a list begins a field (reading 4). */
static bool read_list(module_tree *tree, payload *from, tag_range allowed, unsigned depth)
{
    while (from->at < from->end)
        if (!read_field(tree, from, allowed, depth))
            return false;
    return true;
}

static bool read_declarations_and_processes(module_tree *tree, payload *from, unsigned depth)
{
    while (next_tag_is(from, ANY_DECLARATION)) {
        if (!read_field(tree, from, ANY_DECLARATION, depth))
            return false;
        tree->variables++;
    }
    return read_list(tree, from, ONLY_PROCESS, depth);
}

/* Expression, items, then one block. */
static bool read_case(module_tree *tree, payload *from, unsigned depth)
{
    if (!read_field(tree, from, ANY_EXPRESSION, depth))
        return false;
    while (next_tag_is(from, ONLY_ITEM))
        if (!read_field(tree, from, ONLY_ITEM, depth))
            return false;
    return read_field(tree, from, ONLY_BLOCK, depth);
}

static bool read_expressions(module_tree *tree, payload *from, int count, unsigned depth)
{
    for (int i = 0; i < count; i++)
        if (!read_field(tree, from, ANY_EXPRESSION, depth))
            return false;
    return true;
}

/* Rule 2: the fixed bytes that each tag asks for; a missing one is the field's own fault. */
static bool take_fixed_bytes(field *self, payload *from)
{
    switch (self->tag) {
    case INPUT: case REGISTER:
        return take_declaration(self, from);
    case CONSTANT:
        return take_byte(from, &self->width) && take_number(from, &self->value);
    case BLOCKING: case NON_BLOCKING: case VARIABLE: case CHOSEN_BIT:
        return take_byte(from, &self->variable);
    case BLOCKING_BIT: case NON_BLOCKING_BIT: case FIXED_BIT:
        return take_byte(from, &self->variable) && take_byte(from, &self->bit);
    default:
        return true;
    }
}

/* The table of the tagged form: fixed bytes, then inner fields. */
static bool read_parts(module_tree *tree, field *self, payload *from, unsigned depth)
{
    if (!take_fixed_bytes(self, from))
        return misshapen(tree, self->start);
    switch (self->tag) {
    case MODULE:
        return read_declarations_and_processes(tree, from, depth);
    case PROCESS: case BLOCK:
        return read_list(tree, from, ANY_STATEMENT, depth);
    case IF:
        return read_expressions(tree, from, 1, depth) && read_field(tree, from, ONLY_BLOCK, depth)
            && read_field(tree, from, ONLY_BLOCK, depth);
    case CASE:
        return read_case(tree, from, depth);
    case ITEM: /* a constant and no other expression (reading 9) */
        return read_field(tree, from, ONLY_CONSTANT, depth) && read_field(tree, from, ONLY_BLOCK, depth);
    case BLOCKING: case NON_BLOCKING: case BLOCKING_BIT: case NON_BLOCKING_BIT: case CHOSEN_BIT: case NOT: case PARITY:
        return read_expressions(tree, from, 1, depth);
    case AND: case OR: case XOR: case ADD: case EQUAL:
        return read_expressions(tree, from, 2, depth);
    default: /* declarations, constants, variables, fixed bits hold no field */
        return true;
    }
}

/* ---- The rules of a module ---- */

static const field *declaration_of(const module_tree *tree, size_t variable)
{
    return &tree->fields[1 + variable];
}

static bool is_assignment(const field *self)
{
    return self->tag >= BLOCKING && self->tag <= NON_BLOCKING_BIT;
}

static bool is_non_blocking(const field *self)
{
    return self->tag == NON_BLOCKING || self->tag == NON_BLOCKING_BIT;
}

static bool is_read(const field *self)
{
    return self->tag == VARIABLE || self->tag == FIXED_BIT || self->tag == CHOSEN_BIT;
}

static bool names_a_bit(const field *self)
{
    return self->tag == BLOCKING_BIT || self->tag == NON_BLOCKING_BIT || self->tag == FIXED_BIT;
}

static bool has_two_operands(const field *self)
{
    return self->tag >= AND && self->tag <= EQUAL;
}

static size_t first_inside(size_t number)
{
    return number + 1;
}

static size_t after(const module_tree *tree, size_t number)
{
    return tree->fields[number].next;
}

/* The width of an expression, from those within it. Backwards, since what is within a field follows it. Needs rule 6. */
static void find_widths(module_tree *tree)
{
    for (size_t i = tree->count; i-- > 0;) {
        field *self = &tree->fields[i];
        if (self->tag == VARIABLE)
            self->width = declaration_of(tree, self->variable)->width;
        else if (self->tag == FIXED_BIT || self->tag == CHOSEN_BIT || self->tag == EQUAL || self->tag == PARITY)
            self->width = 1;
        else if (self->tag >= NOT && self->tag <= ADD)
            self->width = tree->fields[first_inside(i)].width; /* reading 14 */
    }
}

static bool breaks_rule_3(const module_tree *tree, size_t number)
{
    const field *self = &tree->fields[number];
    bool has_width = self->tag == INPUT || self->tag == REGISTER || self->tag == CONSTANT;
    return has_width && width_or_value_is_wrong(self->width, self->value);
}

static bool breaks_rule_6(const module_tree *tree, size_t number)
{
    const field *self = &tree->fields[number];
    if (!is_assignment(self) && !is_read(self))
        return false;
    if (self->variable >= tree->variables)
        return true;
    return is_assignment(self) && declaration_of(tree, self->variable)->tag == INPUT;
}

/* Rule 7 for one field; `selector_width` is that of the innermost case around it. An item is judged where it stands
   (reading 14), and the widths of an index and a selector are free. */
static bool breaks_rule_7(const module_tree *tree, size_t number, uint8_t selector_width)
{
    const field *self = &tree->fields[number];
    uint8_t first_width = number + 1 < tree->count ? tree->fields[first_inside(number)].width : 0;
    switch (self->tag) {
    case BLOCKING: case NON_BLOCKING:
        return first_width != declaration_of(tree, self->variable)->width;
    case BLOCKING_BIT: case NON_BLOCKING_BIT: case IF:
        return first_width != 1;
    case ITEM:
        return first_width != selector_width;
    default:
        return has_two_operands(self) && first_width != tree->fields[after(tree, first_inside(number))].width;
    }
}

/* Rule 8: a bit outside, or an index that could be outside; by its width alone (reading 15). */
static bool breaks_rule_8(const module_tree *tree, size_t number)
{
    const field *self = &tree->fields[number];
    if (names_a_bit(self))
        return self->bit >= declaration_of(tree, self->variable)->width;
    if (self->tag == CHOSEN_BIT)
        return (uint64_t)1 << tree->fields[first_inside(number)].width > declaration_of(tree, self->variable)->width;
    return false;
}

static bool rule_3(const module_tree *tree, uint64_t *place)
{
    for (size_t i = 0; i < tree->count; i++)
        if (breaks_rule_3(tree, i)) {
            *place = tree->fields[i].start;
            return true;
        }
    return false;
}

static bool rule_4(const module_tree *tree, uint64_t *place)
{
    return a_name_is_wrong(tree->file, declaration_of(tree, 0), tree->variables, place);
}

/* Rule 5: the 65th variable, the 9th process. */
static bool rule_5(const module_tree *tree, uint64_t *place)
{
    size_t processes = 0;
    if (tree->variables > VARIABLES_MOST) {
        *place = declaration_of(tree, VARIABLES_MOST)->start;
        return true;
    }
    for (size_t i = 0; i < tree->count; i++)
        if (tree->fields[i].tag == PROCESS && ++processes > PROCESSES_MOST) {
            *place = tree->fields[i].start;
            return true;
        }
    return false;
}

static bool rule_6(const module_tree *tree, uint64_t *place)
{
    for (size_t i = 0; i < tree->count; i++)
        if (breaks_rule_6(tree, i)) {
            *place = tree->fields[i].start;
            return true;
        }
    return false;
}

/* The fields in order of their starts; those of an inner case are looked at with that case's selector. */
static bool rule_7_within(const module_tree *tree, size_t from, size_t to, uint8_t selector_width, uint64_t *place)
{
    for (size_t i = from; i < to; i++) {
        if (breaks_rule_7(tree, i, selector_width)) {
            *place = tree->fields[i].start;
            return true;
        }
        if (tree->fields[i].tag == CASE) {
            uint8_t width = tree->fields[first_inside(i)].width;
            if (rule_7_within(tree, first_inside(i), after(tree, i), width, place))
                return true;
            i = after(tree, i) - 1;
        }
    }
    return false;
}

static bool rule_7(const module_tree *tree, uint64_t *place)
{
    return rule_7_within(tree, 0, tree->count, 0, place);
}

static bool rule_8(const module_tree *tree, uint64_t *place)
{
    for (size_t i = 0; i < tree->count; i++)
        if (breaks_rule_8(tree, i)) {
            *place = tree->fields[i].start;
            return true;
        }
    return false;
}

/* Rule 9: the first assignment unlike an earlier one to its variable, in the whole module (reading 16). */
static bool rule_9(const module_tree *tree, uint64_t *place)
{
    bool assigned[2][VARIABLES_MOST] = {{false}};
    for (size_t i = 0; i < tree->count; i++) {
        const field *self = &tree->fields[i];
        if (!is_assignment(self))
            continue;
        bool kind = is_non_blocking(self);
        if (assigned[!kind][self->variable]) {
            *place = self->start;
            return true;
        }
        assigned[kind][self->variable] = true;
    }
    return false;
}

/* Rule 10: the first assignment to a variable that an earlier process assigns. */
static bool rule_10(const module_tree *tree, uint64_t *place)
{
    int process = 0, assigned_in[VARIABLES_MOST] = {0}; /* processes counted from 1 here; 0: not assigned so far */
    for (size_t i = 0; i < tree->count; i++) {
        const field *self = &tree->fields[i];
        if (self->tag == PROCESS)
            process++;
        if (!is_assignment(self))
            continue;
        if (assigned_in[self->variable] != 0 && assigned_in[self->variable] != process) {
            *place = self->start;
            return true;
        }
        assigned_in[self->variable] = process;
    }
    return false;
}

/* For rule 11: the process, counted from 1, that assigns each variable by blocking. By rule 10 there is one at most. */
static void find_blocking_processes(const module_tree *tree, int assigned_in[VARIABLES_MOST])
{
    int process = 0;
    for (size_t i = 0; i < tree->count; i++) {
        const field *self = &tree->fields[i];
        if (self->tag == PROCESS)
            process++;
        if (is_assignment(self) && !is_non_blocking(self))
            assigned_in[self->variable] = process;
    }
}

/* Rule 11: the first read, in another process, of a variable assigned by blocking. */
static bool rule_11(const module_tree *tree, uint64_t *place)
{
    int process = 0, assigned_in[VARIABLES_MOST] = {0};
    find_blocking_processes(tree, assigned_in);
    for (size_t i = 0; i < tree->count; i++) {
        const field *self = &tree->fields[i];
        if (self->tag == PROCESS)
            process++;
        if (is_read(self) && assigned_in[self->variable] != 0 && assigned_in[self->variable] != process) {
            *place = self->start;
            return true;
        }
    }
    return false;
}

typedef bool (*broken_rule)(const module_tree *tree, uint64_t *place);

static reference_answer first_broken_rule(const module_tree *tree, const broken_rule *rules, uint32_t first, uint32_t last)
{
    uint64_t place = 0;
    for (uint32_t number = first; number <= last; number++)
        if (rules[number - first](tree, &place))
            return refused(number, place);
    return accepted();
}

/* Refusals 1 to 11 in their order. */
static reference_answer read_module(module_tree *tree, const uint8_t *file, size_t length)
{
    static const broken_rule rules_3_to_6[] = {rule_3, rule_4, rule_5, rule_6};
    static const broken_rule rules_7_to_11[] = {rule_7, rule_8, rule_9, rule_10, rule_11};
    if (!lengths_are_right(file, length, MODULE_BYTES_MOST))
        return refused(1, 0);
    tree->file = file;
    tree->count = 0;
    tree->variables = 0;
    payload whole = {file, 0, length, 0};
    if (!read_field(tree, &whole, ONLY_MODULE, 1))
        return refused(2, tree->misshapen_at);
    reference_answer answer = first_broken_rule(tree, rules_3_to_6, 3, 6);
    if (answer.number != 0)
        return answer;
    find_widths(tree);
    return first_broken_rule(tree, rules_7_to_11, 7, 11);
}

/* For each variable, whether it is assigned by non-blocking anywhere in the module. */
static void find_non_blocking(const module_tree *tree, bool assigned[VARIABLES_MOST])
{
    for (size_t i = 0; i < tree->count; i++)
        if (is_assignment(&tree->fields[i]) && is_non_blocking(&tree->fields[i]))
            assigned[tree->fields[i].variable] = true;
}

/* ---- Running a module that the rules accept ---- */

typedef struct {
    const module_tree *tree;
    uint32_t current[VARIABLES_MOST], pending[VARIABLES_MOST];
} machine;

static uint32_t with_bit(uint32_t vector, uint8_t bit, uint32_t value)
{
    return (vector & ~((uint32_t)1 << bit)) | value << bit;
}

static uint32_t value_of(const machine *state, size_t number)
{
    const field *self = &state->tree->fields[number];
    size_t first = first_inside(number);
    switch (self->tag) {
    case CONSTANT:
        return self->value;
    case VARIABLE:
        return state->current[self->variable];
    case FIXED_BIT:
        return state->current[self->variable] >> self->bit & 1;
    case CHOSEN_BIT:
        return state->current[self->variable] >> value_of(state, first) & 1;
    case NOT:
        return ~value_of(state, first) & all_ones(self->width);
    case PARITY:
        return parity_of(value_of(state, first));
    }
    uint32_t left = value_of(state, first), right = value_of(state, after(state->tree, first));
    switch (self->tag) {
    case AND:
        return left & right;
    case OR:
        return left | right;
    case XOR:
        return left ^ right;
    case ADD:
        return (left + right) & all_ones(self->width);
    default: /* EQUAL */
        return left == right;
    }
}

static void run_statement(machine *state, size_t number);

/* The statements of a process or block. */
static void run_statements(machine *state, size_t number)
{
    for (size_t i = first_inside(number); i < after(state->tree, number); i = after(state->tree, i))
        run_statement(state, i);
}

/* The first equal item, else the default. */
static void run_case(machine *state, size_t number)
{
    size_t selector = first_inside(number), i = after(state->tree, selector);
    uint32_t value = value_of(state, selector);
    for (; state->tree->fields[i].tag == ITEM; i = after(state->tree, i)) {
        size_t constant = first_inside(i);
        if (value_of(state, constant) == value) {
            run_statements(state, after(state->tree, constant));
            return;
        }
    }
    run_statements(state, i);
}

static void run_statement(machine *state, size_t number)
{
    const field *self = &state->tree->fields[number];
    size_t first = first_inside(number);
    if (self->tag == CASE) {
        run_case(state, number);
        return;
    }
    uint32_t value = value_of(state, first);
    uint32_t *target = is_non_blocking(self) ? &state->pending[self->variable] : &state->current[self->variable];
    if (self->tag == IF) {
        size_t when_1 = after(state->tree, first);
        run_statements(state, value == 1 ? when_1 : after(state->tree, when_1));
    } else if (names_a_bit(self)) {
        *target = with_bit(*target, self->bit, value);
    } else {
        *target = value;
    }
}

/* One cycle of a module. */
static void run_processes(const module_tree *tree, const uint8_t *row, uint8_t *next)
{
    machine state = {.tree = tree};
    bool non_blocking[VARIABLES_MOST] = {false};
    for (size_t v = 0; v < tree->variables; v++)
        state.current[v] = state.pending[v] = number_at(row + ROW_BYTES * v);
    for (size_t i = 0; i < tree->count; i++)
        if (tree->fields[i].tag == PROCESS)
            run_statements(&state, i);
    find_non_blocking(tree, non_blocking);
    for (size_t v = 0; v < tree->variables; v++)
        write_number(next + ROW_BYTES * v, non_blocking[v] ? state.pending[v] : state.current[v]);
}

/* ---- Translating a module that the rules accept ---- */

enum operand_kind { OF_CONSTANT = 0, OF_VARIABLE = 1, OF_CELL = 2 };

typedef struct {
    uint8_t kind, width;
    uint32_t number;
} operand;

/* What each variable is at one point of the translation; for an input always the input itself. */
typedef struct {
    operand current[VARIABLES_MOST], pending[VARIABLES_MOST];
} operands;

enum {
    DECLARATION_BYTES_MOST = HEADER + 5 + NAME_MOST,
    CELL_BYTES_MOST = HEADER + 1 + 3 * OPERAND_BYTES,
    DRIVE_BYTES = HEADER + 1 + OPERAND_BYTES,
    TRANSLATED_BYTES_MOST = HEADER + VARIABLES_MOST * (DECLARATION_BYTES_MOST + DRIVE_BYTES) + CELLS_MOST * CELL_BYTES_MOST
};

typedef struct {
    const module_tree *tree;
    uint8_t bytes[TRANSLATED_BYTES_MOST];
    size_t length;
    uint32_t cells; /* all of them, also those over CELLS_MOST, which are counted and not written */
} translation;

static void write_byte(translation *to, uint8_t byte)
{
    to->bytes[to->length++] = byte;
}

static void write_header(translation *to, uint8_t tag, size_t length)
{
    write_byte(to, tag);
    write_byte(to, (uint8_t)(length >> 8));
    write_byte(to, (uint8_t)length);
}

static void write_operand(translation *to, operand value)
{
    write_byte(to, value.kind);
    write_byte(to, value.width);
    write_number(to->bytes + to->length, value.number);
    to->length += 4;
}

/* A cell of `count` operands; 37 and 38 have a bit number byte after the first. */
static void write_cell(translation *to, uint8_t tag, uint8_t width, const operand *values, size_t count, uint8_t bit)
{
    bool has_bit = tag == CELL_PUT || tag == CELL_FIXED_BIT;
    write_header(to, tag, 1 + OPERAND_BYTES * count + (has_bit ? 1 : 0));
    write_byte(to, width);
    for (size_t i = 0; i < count; i++) {
        write_operand(to, values[i]);
        if (i == 0 && has_bit)
            write_byte(to, bit);
    }
}

/* Adds a cell and returns the operand that names it. */
static operand add_cell(translation *to, uint8_t tag, uint8_t width, const operand *values, size_t count, uint8_t bit)
{
    if (to->cells < CELLS_MOST)
        write_cell(to, tag, width, values, count, bit);
    return (operand){OF_CELL, width, to->cells++};
}

/* The operands left to right, then the cell; constants and whole variables add none. */
static operand translate_expression(translation *to, const operands *now, size_t number)
{
    const field *self = &to->tree->fields[number];
    size_t first = first_inside(number);
    operand in[2];
    switch (self->tag) {
    case CONSTANT:
        return (operand){OF_CONSTANT, self->width, self->value};
    case VARIABLE:
        return now->current[self->variable];
    case FIXED_BIT:
        return add_cell(to, CELL_FIXED_BIT, 1, &now->current[self->variable], 1, self->bit);
    case CHOSEN_BIT: /* the index's cells first (reading 22) */
        in[0] = now->current[self->variable];
        in[1] = translate_expression(to, now, first);
        return add_cell(to, CELL_CHOSEN_BIT, 1, in, 2, 0);
    case NOT: case PARITY:
        in[0] = translate_expression(to, now, first);
        return add_cell(to, self->tag == NOT ? CELL_NOT : CELL_PARITY, self->width, in, 1, 0);
    default: /* 25 to 29 become 31 to 35 */
        in[0] = translate_expression(to, now, first);
        in[1] = translate_expression(to, now, after(to->tree, first));
        return add_cell(to, (uint8_t)(self->tag - AND + CELL_AND), self->width, in, 2, 0);
    }
}

static bool operands_differ(operand one, operand other)
{
    return one.kind != other.kind || one.width != other.width || one.number != other.number;
}

/* One kind's half of a merge: a mux for each register, in rising order, whose operands differ. */
static void merge_kind(translation *to, operand condition, const operand *when_1, operand *when_0)
{
    for (size_t v = 0; v < to->tree->variables; v++)
        if (operands_differ(when_1[v], when_0[v])) {
            operand in[3] = {condition, when_1[v], when_0[v]};
            when_0[v] = add_cell(to, CELL_MUX, in[1].width, in, 3, 0);
        }
}

/* All current operands, then all pending ones; the result is left in `when_0`. */
static void merge(translation *to, operand condition, const operands *when_1, operands *when_0)
{
    merge_kind(to, condition, when_1->current, when_0->current);
    merge_kind(to, condition, when_1->pending, when_0->pending);
}

static void translate_statement(translation *to, operands *now, size_t number);

static void translate_statements(translation *to, operands *now, size_t number)
{
    for (size_t i = first_inside(number); i < after(to->tree, number); i = after(to->tree, i))
        translate_statement(to, now, i);
}

/* Condition, first block, second block, both from the operands before; then the muxes. */
static void translate_if(translation *to, operands *now, size_t number)
{
    size_t condition = first_inside(number), first = after(to->tree, condition);
    operand chosen_by = translate_expression(to, now, condition);
    operands when_1 = *now;
    translate_statements(to, &when_1, first);
    translate_statements(to, now, after(to->tree, first));
    merge(to, chosen_by, &when_1, now);
}

/* The items from `number` on: an equal cell, the item's block, and all that follows as the else part (reading 21). */
static void translate_items(translation *to, operands *now, operand selector, size_t number)
{
    if (to->tree->fields[number].tag != ITEM) {
        translate_statements(to, now, number); /* the default */
        return;
    }
    size_t constant = first_inside(number);
    operand in[2] = {selector, translate_expression(to, now, constant)};
    operand is_equal = add_cell(to, CELL_EQUAL, 1, in, 2, 0);
    operands when_1 = *now;
    translate_statements(to, &when_1, after(to->tree, constant));
    translate_items(to, now, selector, after(to->tree, number));
    merge(to, is_equal, &when_1, now);
}

/* A whole assignment replaces its target's operand of that kind, a one-bit one puts a bit into it. */
static void translate_assignment(translation *to, operands *now, size_t number)
{
    const field *self = &to->tree->fields[number];
    operand *target = is_non_blocking(self) ? &now->pending[self->variable] : &now->current[self->variable];
    operand value = translate_expression(to, now, first_inside(number));
    if (names_a_bit(self)) {
        operand in[2] = {*target, value};
        *target = add_cell(to, CELL_PUT, in[0].width, in, 2, self->bit);
    } else {
        *target = value;
    }
}

static void translate_statement(translation *to, operands *now, size_t number)
{
    if (to->tree->fields[number].tag == IF) {
        translate_if(to, now, number);
    } else if (to->tree->fields[number].tag == CASE) {
        size_t selector = first_inside(number);
        operand selected = translate_expression(to, now, selector);
        translate_items(to, now, selected, after(to->tree, selector));
    } else {
        translate_assignment(to, now, number);
    }
}

/* One drive per register in rising order: pending for those assigned by non-blocking, else current. */
static void translate_drives(translation *to, const operands *at_end)
{
    bool non_blocking[VARIABLES_MOST] = {false};
    find_non_blocking(to->tree, non_blocking);
    for (size_t v = 0; v < to->tree->variables; v++)
        if (declaration_of(to->tree, v)->tag == REGISTER) {
            write_header(to, DRIVE, 1 + OPERAND_BYTES);
            write_byte(to, (uint8_t)v);
            write_operand(to, non_blocking[v] ? at_end->pending[v] : at_end->current[v]);
        }
}

/* The declarations unchanged, then cells, then drives. */
static void translate_module(translation *to, const module_tree *tree)
{
    operands now;
    memset(&now, 0, sizeof now);
    to->tree = tree;
    to->length = HEADER;
    to->cells = 0;
    for (size_t v = 0; v < tree->variables; v++) {
        const field *self = declaration_of(tree, v);
        memcpy(to->bytes + to->length, tree->file + self->start, self->end - self->start);
        to->length += self->end - self->start;
        now.current[v] = now.pending[v] = (operand){OF_VARIABLE, self->width, (uint32_t)v};
    }
    for (size_t i = 0; i < tree->count; i++)
        if (tree->fields[i].tag == PROCESS)
            translate_statements(to, &now, i);
    translate_drives(to, &now);
    size_t length = to->length;
    to->length = 0;
    write_header(to, NETLIST, length - HEADER);
    to->length = length;
}

/* ---- Reading a netlist ---- */

enum {
    NETLIST_DECLARATIONS_MOST = (NETLIST_BYTES_MOST - HEADER) / (HEADER + 1),
    NETLIST_CELLS_MOST = (NETLIST_BYTES_MOST - HEADER) / (HEADER + 1 + OPERAND_BYTES),
    NETLIST_DRIVES_MOST = NETLIST_CELLS_MOST
};

/* A cell or a drive. */
typedef struct {
    uint8_t tag;
    uint8_t width;    /* a cell's width byte */
    uint8_t variable; /* a drive's variable byte */
    uint8_t bit;
    uint8_t count; /* of operands */
    operand in[3];
    uint32_t start;
} gate;

typedef struct {
    const uint8_t *file;
    field declarations[NETLIST_DECLARATIONS_MOST];
    gate cells[NETLIST_CELLS_MOST];
    gate drives[NETLIST_DRIVES_MOST];
    size_t variables, cell_count, drive_count;
    uint64_t misshapen_at; /* the place of refusal 2 */
} netlist_lists;

/* Rule 2: an operand's kind is 0, 1 or 2 (reading 7). */
static bool take_operand(gate *self, payload *from)
{
    operand *value = &self->in[self->count++];
    return take_byte(from, &value->kind) && value->kind <= OF_CELL && take_byte(from, &value->width)
        && take_number(from, &value->number);
}

/* Rule 2: what each cell and the drive hold. */
static bool take_gate(gate *self, payload *from)
{
    switch (self->tag) {
    case DRIVE:
        return take_byte(from, &self->variable) && take_operand(self, from);
    case CELL_NOT: case CELL_PARITY:
        return take_byte(from, &self->width) && take_operand(self, from);
    case CELL_MUX:
        return take_byte(from, &self->width) && take_operand(self, from) && take_operand(self, from)
            && take_operand(self, from);
    case CELL_PUT:
        return take_byte(from, &self->width) && take_operand(self, from) && take_byte(from, &self->bit)
            && take_operand(self, from);
    case CELL_FIXED_BIT:
        return take_byte(from, &self->width) && take_operand(self, from) && take_byte(from, &self->bit);
    default: /* 31 to 35 and 39 */
        return take_byte(from, &self->width) && take_operand(self, from) && take_operand(self, from);
    }
}

/* Rule 2: reads the declarations as far as they go. */
static bool read_netlist_declarations(netlist_lists *lists, payload *from)
{
    while (next_tag_is(from, ANY_DECLARATION)) {
        size_t start = lists->misshapen_at = from->at;
        if (!header_is_right(from, ANY_DECLARATION))
            return false;
        payload inner = payload_of_next(from);
        field *self = &lists->declarations[lists->variables];
        *self = (field){.tag = from->file[start], .start = (uint32_t)start, .end = (uint32_t)inner.end};
        if (!take_declaration(self, &inner))
            return false;
        lists->variables++;
        from->at = inner.end;
    }
    return true;
}

/* Rule 2: reads the cells or the drives as far as they go. */
static bool read_gates(netlist_lists *lists, payload *from, tag_range allowed, gate *gates, size_t *count)
{
    while (next_tag_is(from, allowed)) {
        lists->misshapen_at = from->at;
        if (!header_is_right(from, allowed))
            return false;
        payload inner = payload_of_next(from);
        if (inner.end - inner.at < 1 + OPERAND_BYTES)
            return false; /* too short for any; so `gates` cannot overflow */
        gate *self = &gates[(*count)++];
        *self = (gate){.tag = from->file[from->at], .start = (uint32_t)from->at};
        if (!take_gate(self, &inner) || inner.at != inner.end)
            return false;
        from->at = inner.end;
    }
    return true;
}

/* Rule 2: declarations, cells, drives, and nothing else (reading 4). */
static bool read_lists(netlist_lists *lists, payload *from)
{
    if (!read_netlist_declarations(lists, from)
        || !read_gates(lists, from, ANY_CELL, lists->cells, &lists->cell_count)
        || !read_gates(lists, from, ONLY_DRIVE, lists->drives, &lists->drive_count))
        return false;
    lists->misshapen_at = from->at;
    return from->at == from->end;
}

/* ---- The rules of a netlist ---- */

/* Rule 3 for a cell or drive: its width byte, its operands' and the constants among them (reading 10). */
static bool gate_breaks_rule_3(const gate *self)
{
    if (self->tag != DRIVE && width_or_value_is_wrong(self->width, 0))
        return true;
    for (size_t i = 0; i < self->count; i++)
        if (width_or_value_is_wrong(self->in[i].width, self->in[i].kind == OF_CONSTANT ? self->in[i].number : 0))
            return true;
    return false;
}

/* Rule 6 for the operands of a cell or drive: a variable there is, one of the `cells` cells before it. */
static bool names_what_is_not(const netlist_lists *lists, const gate *self, size_t cells)
{
    for (size_t i = 0; i < self->count; i++) {
        if (self->in[i].kind == OF_VARIABLE && self->in[i].number >= lists->variables)
            return true;
        if (self->in[i].kind == OF_CELL && self->in[i].number >= cells)
            return true;
    }
    return false;
}

/* Rule 7: an operand's width is that of the variable or cell it names. */
static bool an_operand_has_another_width(const netlist_lists *lists, const gate *self)
{
    for (size_t i = 0; i < self->count; i++) {
        operand value = self->in[i];
        if (value.kind == OF_VARIABLE && value.width != lists->declarations[value.number].width)
            return true;
        if (value.kind == OF_CELL && value.width != lists->cells[value.number].width)
            return true;
    }
    return false;
}

/* Rule 7: the widths of a cell's operands and its own. */
static bool widths_are_right(const gate *self)
{
    uint8_t own = self->width, first = self->in[0].width, second = self->in[1].width, third = self->in[2].width;
    switch (self->tag) {
    case CELL_NOT:
        return own == first;
    case CELL_AND: case CELL_OR: case CELL_XOR: case CELL_ADD:
        return own == first && own == second;
    case CELL_EQUAL:
        return own == 1 && first == second;
    case CELL_MUX:
        return first == 1 && own == second && own == third;
    case CELL_PUT:
        return own == first && second == 1;
    default: /* 38, 39, 3A */
        return own == 1;
    }
}

/* Rule 8; the vector may be a constant (reading 15). */
static bool gate_breaks_rule_8(const gate *self)
{
    if (self->tag == CELL_PUT || self->tag == CELL_FIXED_BIT)
        return self->bit >= self->in[0].width;
    return self->tag == CELL_CHOSEN_BIT && (uint64_t)1 << self->in[1].width > self->in[0].width;
}

static bool netlist_rule_3(const netlist_lists *lists, uint64_t *place)
{
    for (size_t v = 0; v < lists->variables; v++) {
        *place = lists->declarations[v].start;
        if (width_or_value_is_wrong(lists->declarations[v].width, lists->declarations[v].value))
            return true;
    }
    for (size_t i = 0; i < lists->cell_count; i++) {
        *place = lists->cells[i].start;
        if (gate_breaks_rule_3(&lists->cells[i]))
            return true;
    }
    for (size_t i = 0; i < lists->drive_count; i++) {
        *place = lists->drives[i].start;
        if (gate_breaks_rule_3(&lists->drives[i]))
            return true;
    }
    return false;
}

static bool netlist_rule_4(const netlist_lists *lists, uint64_t *place)
{
    return a_name_is_wrong(lists->file, lists->declarations, lists->variables, place);
}

static bool netlist_rule_5(const netlist_lists *lists, uint64_t *place)
{
    if (lists->variables <= VARIABLES_MOST)
        return false;
    *place = lists->declarations[VARIABLES_MOST].start; /* the 65th */
    return true;
}

/* The first register from `variable` on, or the number of variables. */
static size_t register_from(const netlist_lists *lists, size_t variable)
{
    while (variable < lists->variables && lists->declarations[variable].tag != REGISTER)
        variable++;
    return variable;
}

/* Rule 6: operands, and each drive names the next register; a register without a drive comes last (reading 13). */
static bool netlist_rule_6(const netlist_lists *lists, uint64_t *place)
{
    for (size_t i = 0; i < lists->cell_count; i++) {
        *place = lists->cells[i].start;
        if (names_what_is_not(lists, &lists->cells[i], i))
            return true;
    }
    size_t next = register_from(lists, 0);
    for (size_t i = 0; i < lists->drive_count; i++) {
        *place = lists->drives[i].start;
        bool is_next = next < lists->variables && lists->drives[i].variable == next;
        if (!is_next || names_what_is_not(lists, &lists->drives[i], lists->cell_count))
            return true;
        next = register_from(lists, next + 1);
    }
    *place = 0;
    return next < lists->variables;
}

static bool netlist_rule_7(const netlist_lists *lists, uint64_t *place)
{
    for (size_t i = 0; i < lists->cell_count; i++) {
        *place = lists->cells[i].start;
        if (an_operand_has_another_width(lists, &lists->cells[i]) || !widths_are_right(&lists->cells[i]))
            return true;
    }
    for (size_t i = 0; i < lists->drive_count; i++) {
        const gate *self = &lists->drives[i];
        *place = self->start;
        if (an_operand_has_another_width(lists, self)
            || self->in[0].width != lists->declarations[self->variable].width)
            return true;
    }
    return false;
}

static bool netlist_rule_8(const netlist_lists *lists, uint64_t *place)
{
    for (size_t i = 0; i < lists->cell_count; i++) {
        *place = lists->cells[i].start;
        if (gate_breaks_rule_8(&lists->cells[i]))
            return true;
    }
    return false;
}

typedef bool (*broken_netlist_rule)(const netlist_lists *lists, uint64_t *place);

/* Refusals 1 to 8 and 12 in their order. */
static reference_answer read_netlist(netlist_lists *lists, const uint8_t *file, size_t length)
{
    static const broken_netlist_rule rules_3_to_8[] = {netlist_rule_3, netlist_rule_4, netlist_rule_5,
                                                       netlist_rule_6, netlist_rule_7, netlist_rule_8};
    uint64_t place = 0;
    if (!lengths_are_right(file, length, NETLIST_BYTES_MOST))
        return refused(1, 0);
    if (file[0] != NETLIST)
        return refused(2, 0);
    lists->file = file;
    lists->variables = lists->cell_count = lists->drive_count = 0;
    payload whole = {file, HEADER, length, 0};
    if (!read_lists(lists, &whole))
        return refused(2, lists->misshapen_at);
    for (uint32_t number = 3; number <= 8; number++)
        if (rules_3_to_8[number - 3](lists, &place))
            return refused(number, place);
    return lists->cell_count > CELLS_MOST ? refused(12, 0) : accepted();
}

/* ---- Running a netlist that the rules accept ---- */

static uint32_t operand_value(operand value, const uint8_t *row, const uint32_t *cells)
{
    switch (value.kind) {
    case OF_CONSTANT:
        return value.number;
    case OF_VARIABLE:
        return number_at(row + ROW_BYTES * value.number);
    default:
        return cells[value.number];
    }
}

static uint32_t cell_value(const gate *self, const uint8_t *row, const uint32_t *cells)
{
    uint32_t in[3] = {0, 0, 0};
    for (size_t i = 0; i < self->count; i++)
        in[i] = operand_value(self->in[i], row, cells);
    switch (self->tag) {
    case CELL_NOT:
        return ~in[0] & all_ones(self->width);
    case CELL_AND:
        return in[0] & in[1];
    case CELL_OR:
        return in[0] | in[1];
    case CELL_XOR:
        return in[0] ^ in[1];
    case CELL_ADD:
        return (in[0] + in[1]) & all_ones(self->width);
    case CELL_EQUAL:
        return in[0] == in[1];
    case CELL_MUX:
        return in[0] == 1 ? in[1] : in[2];
    case CELL_PUT:
        return with_bit(in[0], self->bit, in[1]);
    case CELL_FIXED_BIT:
        return in[0] >> self->bit & 1;
    case CELL_CHOSEN_BIT:
        return in[0] >> in[1] & 1;
    default: /* CELL_PARITY */
        return parity_of(in[0]);
    }
}

/* Cells in order; then all registers change together. */
static void run_cells(const netlist_lists *lists, const uint8_t *row, uint8_t *next)
{
    uint32_t cells[CELLS_MOST];
    for (size_t i = 0; i < lists->cell_count; i++)
        cells[i] = cell_value(&lists->cells[i], row, cells);
    for (size_t v = 0; v < lists->variables; v++)
        write_number(next + ROW_BYTES * v, number_at(row + ROW_BYTES * v));
    for (size_t i = 0; i < lists->drive_count; i++) {
        const gate *self = &lists->drives[i];
        write_number(next + ROW_BYTES * self->variable, operand_value(self->in[0], row, cells));
    }
}

/* ---- The four calls ---- */

reference_answer reference_check(const uint8_t *module, size_t module_len)
{
    module_tree tree;
    return read_module(&tree, module, module_len);
}

reference_answer reference_translate(const uint8_t *module, size_t module_len, uint8_t *out, size_t out_len)
{
    module_tree tree;
    translation to;
    reference_answer answer = read_module(&tree, module, module_len);
    if (answer.number != 0)
        return answer;
    translate_module(&to, &tree);
    if (to.cells > CELLS_MOST)
        return refused(12, 0);
    if (out_len < to.length)
        return refused(13, 0);
    memcpy(out, to.bytes, to.length);
    return (reference_answer){0, to.cells, to.length};
}

reference_answer reference_run_module(const uint8_t *module, size_t module_len, const uint8_t *row, size_t row_len,
                                      uint8_t *next, size_t next_len)
{
    module_tree tree;
    reference_answer answer = read_module(&tree, module, module_len);
    if (answer.number != 0)
        return answer;
    if (rows_are_wrong(declaration_of(&tree, 0), tree.variables, row, row_len, next_len))
        return refused(14, 0);
    run_processes(&tree, row, next);
    return accepted();
}

reference_answer reference_run_netlist(const uint8_t *netlist, size_t netlist_len, const uint8_t *row, size_t row_len,
                                       uint8_t *next, size_t next_len)
{
    netlist_lists lists;
    reference_answer answer = read_netlist(&lists, netlist, netlist_len);
    if (answer.number != 0)
        return answer;
    if (rows_are_wrong(lists.declarations, lists.variables, row, row_len, next_len))
        return refused(14, 0);
    run_cells(&lists, row, next);
    return accepted();
}
