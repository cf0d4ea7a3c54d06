/* The order of this file: random numbers; writing fields; declarations; expressions, statements and modules; modules of
   chosen sizes and shapes; netlists; changes to finished files; rows; the kinds.

   A rule is broken while a file is made: a maker is armed with rules, and at each occasion to break an armed rule it does
   so at one in `chance`. Some files come out unbroken, some break another rule as well; the comparison does not mind. */
#include "generate.h"
#include "reference.h"

#include <string.h>

/* ---- Random numbers (splitmix64) ---- */

static uint64_t scramble(uint64_t x)
{
    x = (x ^ x >> 30) * UINT64_C(0xBF58476D1CE4E5B9);
    x = (x ^ x >> 27) * UINT64_C(0x94D049BB133111EB);
    return x ^ x >> 31;
}

random_source random_from(uint64_t seed, uint64_t index)
{
    return (random_source){scramble(seed * UINT64_C(0x9E3779B97F4A7C15) + 1) ^ scramble(index + UINT64_C(0x51ED270B))};
}

uint32_t random_word(random_source *random)
{
    random->state += UINT64_C(0x9E3779B97F4A7C15);
    return (uint32_t)(scramble(random->state) >> 32);
}

uint32_t random_below(random_source *random, uint32_t bound)
{
    return (uint32_t)((uint64_t)random_word(random) * bound >> 32);
}

static bool one_in(random_source *random, uint32_t bound)
{
    return random_below(random, bound) == 0;
}

static uint32_t random_between(random_source *random, uint32_t least, uint32_t most)
{
    return least + random_below(random, most - least + 1);
}

/* ---- Writing fields ---- */

enum { VARIABLES_ROOM = 320, DEEPEST = 32, NETLIST_CELLS_ROOM = 3300, MODULE_LIMIT = 16384, NETLIST_LIMIT = 32768 };

typedef struct {
    uint8_t width;
    bool is_register, non_blocking;
    unsigned owner; /* the process that may assign it */
    size_t name_at, name_length;
} made_variable;

typedef struct {
    random_source *random;
    generated_file *file;
    size_t size;     /* from this length on only what is needed is added */
    unsigned armed;  /* bit k: rule k is to be broken */
    uint32_t chance; /* at one in so many occasions */
    bool once;
    unsigned variables, processes, process;
    made_variable of[VARIABLES_ROOM];
    unsigned cells;
    uint8_t cell_width[NETLIST_CELLS_ROOM];
} maker;

/* Whether this occasion to break a rule is taken. */
static bool breaks(maker *m, unsigned rule)
{
    if ((m->armed >> rule & 1) == 0 || !one_in(m->random, m->chance))
        return false;
    if (m->once)
        m->armed &= ~(1u << rule);
    return true;
}

static void put(maker *m, uint32_t byte)
{
    if (m->file->length < FILE_BYTES_MOST)
        m->file->bytes[m->file->length++] = (uint8_t)byte;
}

static void put_number(maker *m, uint32_t number)
{
    for (int shift = 24; shift >= 0; shift -= 8)
        put(m, number >> shift);
}

static uint8_t random_tag(random_source *random)
{
    static const uint8_t tags[] = {0x01, 0x02, 0x03, 0x04, 0x10, 0x11, 0x12, 0x13, 0x14, 0x15, 0x16, 0x17, 0x20, 0x21, 0x22,
                                   0x23, 0x24, 0x25, 0x26, 0x27, 0x28, 0x29, 0x2A, 0x30, 0x31, 0x32, 0x33, 0x34, 0x35, 0x36,
                                   0x37, 0x38, 0x39, 0x3A, 0x40, 0x81, 0x00, 0x05, 0x0F, 0x18, 0x1F, 0x2B, 0x2F, 0x3B, 0x41};
    return one_in(random, 4) ? (uint8_t)random_word(random) : tags[random_below(random, sizeof tags)];
}

static void set_length(generated_file *file, size_t start, size_t length)
{
    file->bytes[start + 1] = (uint8_t)(length >> 8);
    file->bytes[start + 2] = (uint8_t)length;
}

static size_t open_field(maker *m, uint8_t tag)
{
    size_t start = m->file->length;
    put(m, breaks(m, 2) ? random_tag(m->random) : tag);
    put(m, 0);
    put(m, 0);
    return start;
}

/* Rule 2 at the end of a field: bytes too many, bytes too few, a length that is not that of the payload. */
static void spoil_end(maker *m, size_t start)
{
    uint32_t many = random_between(m->random, 1, 3);
    if (one_in(m->random, 2))
        for (uint32_t i = 0; i < many; i++)
            put(m, one_in(m->random, 2) ? random_tag(m->random) : 0);
    else if (m->file->length >= start + 3 + many)
        m->file->length -= many;
}

static void close_field(maker *m, size_t start)
{
    if (breaks(m, 2))
        spoil_end(m, start);
    size_t length = m->file->length - start - 3;
    if (breaks(m, 2))
        length += random_between(m->random, 0, 4) - 2;
    set_length(m->file, start, length);
}

/* ---- Declarations ---- */

static uint8_t random_width(random_source *random)
{
    switch (random_below(random, 4)) {
    case 0:
        return 1;
    case 1:
        return (uint8_t)random_between(random, 2, 8);
    case 2:
        return one_in(random, 3) ? 32 : 4;
    default:
        return (uint8_t)random_between(random, 1, 32);
    }
}

static uint8_t wrong_width(random_source *random)
{
    static const uint8_t widths[] = {0, 33, 34, 64, 128, 255};
    return widths[random_below(random, sizeof widths)];
}

static uint32_t random_value(random_source *random, uint32_t width)
{
    uint32_t greatest = (uint32_t)(((uint64_t)1 << width) - 1);
    switch (random_below(random, 4)) {
    case 0:
        return random_below(random, 4) & greatest;
    case 1:
        return greatest;
    default:
        return random_word(random) & greatest;
    }
}

/* A width byte and a four-byte value, or only the width for an input. */
static void put_width_and_value(maker *m, uint8_t width, bool with_value)
{
    uint32_t value = random_value(m->random, width);
    if (breaks(m, 3)) {
        if (width < 32 && with_value && !one_in(m->random, 3))
            value = one_in(m->random, 2) ? (uint32_t)1 << width : random_word(m->random) | (uint32_t)1 << width;
        else
            width = wrong_width(m->random);
    }
    put(m, width);
    if (with_value)
        put_number(m, value);
}

static bool name_is_taken(const maker *m, size_t at, size_t length)
{
    for (unsigned v = 0; v < m->variables; v++)
        if (m->of[v].name_length == length && memcmp(m->file->bytes + m->of[v].name_at, m->file->bytes + at, length) == 0)
            return true;
    return false;
}

static void put_random_name(maker *m, size_t length)
{
    static const char allowed[] = "abcxyzABCXYZ_0123456789";
    for (size_t i = 0; i < length; i++)
        put(m, (uint8_t)allowed[random_below(m->random, i == 0 ? 13 : 23)]);
}

/* Rule 4: nothing, too long, a digit first, a strange character, an earlier name. */
static void put_wrong_name(maker *m)
{
    static const uint8_t strange[] = {'$', '-', ' ', '/', ':', '@', '[', '^', '`', '{', 0, 0x7F, 0x80, 0xC1, 0xE1, 0xFF};
    uint32_t way = random_below(m->random, 5);
    size_t before = m->file->length;
    if (way == 1)
        put_random_name(m, random_between(m->random, 25, 40));
    if (way == 2)
        put(m, '0' + random_below(m->random, 10));
    if (way == 2 || way == 3)
        put_random_name(m, random_between(m->random, 1, 12));
    if (way == 3) {
        size_t length = m->file->length - before;
        size_t at = before + random_below(m->random, (uint32_t)length);
        m->file->bytes[at] = strange[random_below(m->random, sizeof strange)];
    }
    if (way == 4 && m->variables > 0) {
        const made_variable *earlier = &m->of[random_below(m->random, m->variables)];
        for (size_t i = 0; i < earlier->name_length; i++)
            put(m, m->file->bytes[earlier->name_at + i]);
    }
}

static void put_name(maker *m, made_variable *self)
{
    self->name_at = m->file->length;
    if (breaks(m, 4)) {
        put_wrong_name(m);
    } else {
        size_t length = one_in(m->random, 8) ? 24 : random_between(m->random, 1, 6);
        put_random_name(m, length);
        while (name_is_taken(m, self->name_at, length)) {
            m->file->length = self->name_at;
            length = length < 24 ? length + 1 : 12;
            put_random_name(m, length);
        }
    }
    self->name_length = m->file->length - self->name_at;
}

static void make_declaration(maker *m, bool is_register, uint8_t width)
{
    made_variable *self = &m->of[m->variables];
    size_t start = open_field(m, is_register ? 0x03 : 0x02);
    *self = (made_variable){.width = width, .is_register = is_register};
    self->non_blocking = one_in(m->random, 2);
    self->owner = m->processes > 0 ? random_below(m->random, m->processes) : 0;
    put_width_and_value(m, width, is_register);
    put_name(m, self);
    close_field(m, start);
    m->variables++;
}

static void make_declarations(maker *m, unsigned count)
{
    if (breaks(m, 5))
        count = one_in(m->random, 8) ? random_between(m->random, 65, 300) : random_between(m->random, 65, 67);
    for (unsigned i = 0; i < count; i++) {
        bool is_register = !one_in(m->random, 3);
        make_declaration(m, is_register, random_width(m->random));
    }
}

/* ---- Expressions ---- */

static void put_variable(maker *m, unsigned variable)
{
    if (breaks(m, 6))
        variable = one_in(m->random, 3) ? random_word(m->random) : m->variables + random_below(m->random, 2);
    put(m, variable);
}

static bool may_be_read(maker *m, const made_variable *self)
{
    bool is_foreign = self->is_register && !self->non_blocking && self->owner != m->process;
    return !is_foreign || breaks(m, 11);
}

/* A variable that may be read here, of the width wanted (0: any of 2 or more), or -1. The search starts anywhere. */
static int find_variable(maker *m, uint8_t width)
{
    if (m->variables == 0)
        return -1;
    unsigned first = random_below(m->random, m->variables);
    for (unsigned i = 0; i < m->variables; i++) {
        unsigned v = (first + i) % m->variables;
        bool fits = width == 0 ? m->of[v].width >= 2 : m->of[v].width == width;
        if (fits && may_be_read(m, &m->of[v]))
            return (int)v;
    }
    return -1;
}

static void put_bit_number(maker *m, uint8_t width)
{
    if (breaks(m, 8))
        put(m, one_in(m->random, 2) ? width : random_between(m->random, width, 255));
    else
        put(m, random_below(m->random, width));
}

static void make_constant(maker *m, uint8_t width)
{
    size_t start = open_field(m, 0x20);
    put_width_and_value(m, width, true);
    close_field(m, start);
}

static void make_leaf(maker *m, uint8_t width)
{
    bool is_bit = width == 1 && one_in(m->random, 3);
    int variable = one_in(m->random, 4) ? -1 : find_variable(m, is_bit ? 0 : width);
    if (variable < 0) {
        make_constant(m, width);
        return;
    }
    size_t start = open_field(m, is_bit ? 0x22 : 0x21);
    put_variable(m, (unsigned)variable);
    if (is_bit)
        put_bit_number(m, m->of[variable].width);
    close_field(m, start);
}

static void make_expression(maker *m, uint8_t width, unsigned depth, unsigned levels);

/* The greatest k with 2^k at most n, and so the widest index that n bits may have. */
static uint8_t widest_index(uint8_t n)
{
    uint8_t k = 0;
    while ((uint64_t)2 << k <= n)
        k++;
    return k;
}

static void make_chosen_bit(maker *m, unsigned variable, unsigned depth, unsigned levels)
{
    uint8_t widest = widest_index(m->of[variable].width);
    uint8_t width = (uint8_t)random_between(m->random, one_in(m->random, 2) ? 1 : widest, widest);
    if (breaks(m, 8))
        width = one_in(m->random, 3) ? 32 : (uint8_t)(widest + 1);
    size_t start = open_field(m, 0x23);
    put_variable(m, variable);
    make_expression(m, width, depth + 1, levels);
    close_field(m, start);
}

/* An operator whose value has the width wanted, its operands with at most `levels` levels of operators. */
static void make_operator(maker *m, uint8_t width, unsigned depth, unsigned levels)
{
    uint8_t tag = (uint8_t)random_between(m->random, 0x24, width == 1 ? 0x2B : 0x28);
    int vector = tag == 0x2B ? find_variable(m, 0) : -1;
    if (vector >= 0) {
        make_chosen_bit(m, (unsigned)vector, depth, levels);
        return;
    }
    if (tag == 0x2B)
        tag = 0x2A;
    uint8_t operand_width = tag >= 0x29 ? random_width(m->random) : width;
    size_t start = open_field(m, tag);
    make_expression(m, operand_width, depth + 1, levels);
    if (tag >= 0x25 && tag <= 0x29)
        make_expression(m, operand_width, depth + 1, levels);
    close_field(m, start);
}

static void make_expression(maker *m, uint8_t width, unsigned depth, unsigned levels)
{
    if (breaks(m, 2) && one_in(m->random, 2))
        return; /* missing */
    if (breaks(m, 7))
        width = width < 32 && one_in(m->random, 2) ? (uint8_t)(width + 1) : random_width(m->random);
    bool is_full = depth >= DEEPEST && !breaks(m, 2);
    if (is_full || levels == 0 || m->file->length > m->size || one_in(m->random, 2))
        make_leaf(m, width);
    else
        make_operator(m, width, depth, levels - 1);
}

/* `count` operators one in the other around a leaf: nots, or any operators with a leaf on their other side. */
static void make_chain(maker *m, uint8_t width, unsigned count, bool only_nots)
{
    size_t starts[40];
    uint8_t tags[40];
    for (unsigned i = 0; i < count; i++) {
        tags[i] = only_nots ? 0x24 : (uint8_t)random_between(m->random, 0x24, 0x28);
        starts[i] = open_field(m, tags[i]);
        if (tags[i] != 0x24 && one_in(m->random, 2)) {
            make_leaf(m, width);
            tags[i] = 0x24; /* its other operand is written */
        }
    }
    make_leaf(m, width);
    for (unsigned i = count; i-- > 0;) {
        if (tags[i] != 0x24)
            make_leaf(m, width);
        close_field(m, starts[i]);
    }
}

/* ---- Statements ---- */

/* A register that this process may assign, or -1. */
static int find_target(maker *m)
{
    if (m->variables == 0)
        return -1;
    unsigned first = random_below(m->random, m->variables);
    bool any_owner = breaks(m, 10), any_kind = breaks(m, 6);
    for (unsigned i = 0; i < m->variables; i++) {
        unsigned v = (first + i) % m->variables;
        if ((m->of[v].is_register || any_kind) && (m->of[v].owner == m->process || any_owner))
            return (int)v;
    }
    return -1;
}

static uint8_t assignment_tag(maker *m, unsigned variable, bool one_bit)
{
    bool non_blocking = m->of[variable].non_blocking != breaks(m, 9);
    return (uint8_t)(0x10 + (non_blocking ? 1 : 0) + (one_bit ? 2 : 0));
}

static void make_assignment(maker *m, unsigned depth)
{
    int variable = find_target(m);
    if (variable < 0 || (depth >= DEEPEST && !breaks(m, 2)))
        return;
    const made_variable *self = &m->of[variable];
    bool one_bit = one_in(m->random, 4);
    size_t start = open_field(m, assignment_tag(m, (unsigned)variable, one_bit));
    put_variable(m, (unsigned)variable);
    if (one_bit)
        put_bit_number(m, self->width);
    make_expression(m, one_bit ? 1 : self->width, depth + 1, one_in(m->random, 8) ? 28 : 4);
    close_field(m, start);
}

/* variable <= ~..~variable, `nots` of them: one cell each, 8 + 3 * nots bytes. */
static void make_nots(maker *m, unsigned variable, unsigned nots)
{
    size_t starts[30], start = open_field(m, assignment_tag(m, variable, false));
    put(m, variable);
    for (unsigned i = 0; i < nots; i++)
        starts[i] = open_field(m, 0x24);
    size_t leaf = open_field(m, 0x21);
    put(m, variable);
    close_field(m, leaf);
    for (unsigned i = nots; i-- > 0;)
        close_field(m, starts[i]);
    close_field(m, start);
}

static void make_statement(maker *m, unsigned depth, unsigned nesting);

static void make_block(maker *m, unsigned depth, unsigned nesting)
{
    if (breaks(m, 2) && one_in(m->random, 2))
        return; /* missing */
    size_t start = open_field(m, 0x17);
    uint32_t count = random_below(m->random, 4);
    for (uint32_t i = 0; i < count && m->file->length < m->size; i++)
        make_statement(m, depth + 1, nesting);
    close_field(m, start);
}

static void make_if(maker *m, unsigned depth, unsigned nesting)
{
    size_t start = open_field(m, 0x14);
    make_expression(m, 1, depth + 1, 3);
    make_block(m, depth + 1, nesting);
    make_block(m, depth + 1, nesting);
    close_field(m, start);
}

static void make_item(maker *m, uint8_t width, unsigned depth, unsigned nesting)
{
    size_t start = open_field(m, 0x16);
    if (breaks(m, 7))
        width = random_width(m->random);
    if (breaks(m, 2))
        make_expression(m, width, depth + 1, 1); /* not always a constant */
    else
        make_constant(m, width);
    make_block(m, depth + 1, nesting);
    close_field(m, start);
}

static void make_case(maker *m, unsigned depth, unsigned nesting)
{
    uint8_t width = one_in(m->random, 2) ? (uint8_t)random_between(m->random, 1, 3) : random_width(m->random);
    size_t start = open_field(m, 0x15);
    make_expression(m, width, depth + 1, 3);
    uint32_t items = random_below(m->random, 6);
    for (uint32_t i = 0; i < items; i++)
        make_item(m, width, depth + 1, nesting);
    make_block(m, depth + 1, nesting);
    if (breaks(m, 2)) { /* after the default: another, or an item */
        if (one_in(m->random, 2))
            make_block(m, depth + 1, 0);
        else
            make_item(m, width, depth + 1, 0);
    }
    close_field(m, start);
}

/* A statement with at most `nesting` ifs and cases around each other. */
static void make_statement(maker *m, unsigned depth, unsigned nesting)
{
    uint32_t way = random_below(m->random, 8);
    bool nests = nesting > 0 && m->file->length < m->size;
    if (nests && way < 2 && depth + 1 <= DEEPEST)
        make_if(m, depth, nesting - 1);
    else if (nests && way == 2 && depth + 2 <= DEEPEST)
        make_case(m, depth, nesting - 1);
    else
        make_assignment(m, depth);
}

/* ---- Modules ---- */

static maker new_maker(random_source *random, generated_file *file, size_t size)
{
    maker m;
    memset(&m, 0, sizeof m);
    m.random = random;
    m.file = file;
    m.size = size;
    m.chance = 1;
    file->length = 0;
    return m;
}

static void start_process(maker *m, size_t *start, unsigned process)
{
    m->process = process;
    *start = open_field(m, 0x04);
}

/* Declarations after a process, and other fields between processes. */
static void maybe_put_out_of_place(maker *m)
{
    if (!breaks(m, 2))
        return;
    if (one_in(m->random, 2))
        make_assignment(m, 3);
    else
        put(m, random_tag(m->random));
}

/* All processes but the last, each with its share of the bytes; then the last one, which is left open. */
static size_t make_processes_up_to_last(maker *m, size_t size)
{
    size_t start = 0;
    uint32_t stop = size > 2000 ? 10000 : 40;
    for (unsigned p = 0; p < m->processes; p++) {
        start_process(m, &start, p);
        size_t left = size > m->file->length ? size - m->file->length : 0;
        m->size = m->file->length + left / (m->processes - p);
        for (unsigned tries = 0; m->file->length < m->size && tries < 4000 && !one_in(m->random, stop); tries++)
            make_statement(m, 3, one_in(m->random, 6) ? 15 : 3);
        if (p + 1 == m->processes)
            break;
        close_field(m, start);
        maybe_put_out_of_place(m);
    }
    return start;
}

/* The whole outer field, whatever became of its parts. */
static void close_outer(maker *m)
{
    set_length(m->file, 0, m->file->length - 3);
}

static void make_module(maker *m, size_t size, unsigned variables, unsigned processes)
{
    size_t outer = open_field(m, 0x01);
    m->processes = breaks(m, 5) ? random_between(m->random, 9, 11) : processes;
    make_declarations(m, variables);
    if (m->processes > 0)
        close_field(m, make_processes_up_to_last(m, size));
    close_field(m, outer);
    close_outer(m);
}

static unsigned random_variables(random_source *random)
{
    return one_in(random, 6) ? random_between(random, 0, 64) : random_between(random, 1, 8);
}

static unsigned random_processes(random_source *random)
{
    return one_in(random, 6) ? random_between(random, 0, 8) : random_between(random, 1, 3);
}

static void generate_module(random_source *random, generated_file *file, size_t size)
{
    maker m = new_maker(random, file, size);
    unsigned variables = random_variables(random);
    make_module(&m, size, variables, random_processes(random));
}

static void generate_tiny_module(random_source *random, generated_file *file)
{
    maker m = new_maker(random, file, 40);
    unsigned variables = random_below(random, 3);
    make_module(&m, 40, variables, random_below(random, 3));
}

/* A module that breaks, at about one place or at several, the rules whose bits are set. */
static void generate_broken_module(random_source *random, generated_file *file, unsigned rules, bool once)
{
    size_t size = one_in(random, 8) ? 2000 : random_between(random, 40, 400);
    maker m = new_maker(random, file, size);
    m.armed = rules;
    m.once = once;
    bool is_rare = (rules & (1u << 5 | 0xFu << 8)) != 0; /* rules with few occasions */
    m.chance = random_between(random, 1, is_rare ? 3 : 12) * (once ? 1 : 5);
    if ((rules >> 2 & 1) != 0)
        m.chance *= 4;
    unsigned processes = (rules >> 10 & 3) != 0 ? random_between(random, 2, 4) : random_processes(random);
    make_module(&m, size, random_variables(random), processes);
}

/* Rule 1: a length that is not the rest of the file, a file cut short, a file too long. */
static void generate_module_against_1(random_source *random, generated_file *file)
{
    generate_module(random, file, random_between(random, 10, 400));
    switch (random_below(random, 4)) {
    case 0:
        set_length(file, 0, random_below(random, 65536));
        break;
    case 1:
        file->length = random_below(random, (uint32_t)file->length);
        break;
    case 2:
        file->bytes[file->length++] = random_tag(random);
        break;
    default: /* from 16,385 bytes up, with the right length */
        generate_module(random, file, 16000);
        while (file->length <= MODULE_LIMIT || one_in(random, 2))
            file->bytes[file->length++] = 0x04;
        set_length(file, 0, file->length - 3);
    }
}

/* ---- Modules of chosen sizes ---- */

/* A module whose first register has process number `processes` - 1 for itself, which is left open: it is non-blocking
   and may be assigned more. Returns where that process starts. */
static size_t start_sized_module(maker *m, size_t size, unsigned variables, unsigned processes)
{
    open_field(m, 0x01);
    m->processes = processes;
    make_declaration(m, true, random_width(m->random));
    m->of[0].non_blocking = true;
    m->of[0].owner = processes - 1;
    make_declarations(m, variables);
    return make_processes_up_to_last(m, size);
}

static void close_sized_module(maker *m, size_t process)
{
    close_field(m, process);
    close_outer(m);
}

/* Statements of exactly so many bytes, over 90: of 8, 11, .. bytes with a variable, of 12, 15, .. with a constant. */
static void fill(maker *m, size_t bytes)
{
    while (bytes > 90) {
        uint32_t nots = one_in(m->random, 20) ? random_below(m->random, 20) : 0;
        make_nots(m, 0, nots);
        bytes -= 8 + 3 * nots;
    }
    if (bytes % 3 == 1) {
        make_nots(m, 0, 0);
        bytes -= 8;
    }
    if (bytes % 3 == 2) {
        make_nots(m, 0, (unsigned)(bytes - 8) / 3);
        return;
    }
    size_t start = open_field(m, 0x11), inner[30];
    unsigned nots = (unsigned)(bytes - 12) / 3;
    put(m, 0);
    for (unsigned i = 0; i < nots; i++)
        inner[i] = open_field(m, 0x24);
    make_constant(m, m->of[0].width);
    for (unsigned i = nots; i-- > 0;)
        close_field(m, inner[i]);
    close_field(m, start);
}

static void generate_16384_bytes(random_source *random, generated_file *file)
{
    maker m = new_maker(random, file, 0);
    size_t room = random_between(random, 1000, 15000);
    unsigned variables = random_variables(random) % 60;
    size_t process = start_sized_module(&m, room, variables, random_between(random, 1, 8));
    if (m.file->length + 200 < MODULE_LIMIT)
        fill(&m, MODULE_LIMIT - m.file->length);
    close_sized_module(&m, process);
}

/* One of 1,023 to 1,025, the line in the middle most often. */
static unsigned cells_near_limit(random_source *random)
{
    static const unsigned counts[] = {1023, 1024, 1024, 1025, 1025};
    return counts[random_below(random, 5)];
}

static void generate_sized_by_expressions(random_source *random, generated_file *file)
{
    maker m = new_maker(random, file, 0);
    unsigned cells = cells_near_limit(random), each = random_between(random, 1, 28);
    size_t process = start_sized_module(&m, 0, random_below(random, 4), 1);
    for (; cells > each; cells -= each)
        make_nots(&m, 0, each);
    make_nots(&m, 0, cells);
    close_sized_module(&m, process);
}

/* target := source, both whole variables, 8 bytes and no cell. */
static void make_copy(maker *m, unsigned target, unsigned source)
{
    size_t start = open_field(m, assignment_tag(m, target, false));
    put(m, target);
    size_t leaf = open_field(m, 0x21);
    put(m, source);
    close_field(m, leaf);
    close_field(m, start);
}

/* A block that copies variable 1 into the registers 2 to 1 + count. */
static void make_copies_block(maker *m, unsigned count)
{
    size_t start = open_field(m, 0x17);
    for (unsigned i = 0; i < count; i++)
        make_copy(m, 2 + i, 1);
    close_field(m, start);
}

static void make_read(maker *m, unsigned variable)
{
    size_t start = open_field(m, 0x21);
    put(m, variable);
    close_field(m, start);
}

static void make_empty_block(maker *m)
{
    close_field(m, open_field(m, 0x17));
}

/* if (variable 0) the copies, or with the blocks exchanged: `count` muxes. */
static void make_mux_if(maker *m, unsigned count)
{
    bool in_else = one_in(m->random, 2);
    size_t start = open_field(m, 0x14);
    make_read(m, 0);
    if (in_else)
        make_empty_block(m);
    make_copies_block(m, count);
    if (!in_else)
        make_empty_block(m);
    close_field(m, start);
}

/* Inputs 0 (one bit) and 1, then registers of the width of 1; one process, left open. */
static size_t start_mux_module(maker *m, unsigned registers)
{
    uint8_t width = random_width(m->random);
    open_field(m, 0x01);
    m->processes = 1;
    make_declaration(m, false, 1);
    make_declaration(m, false, width);
    for (unsigned i = 0; i < registers; i++)
        make_declaration(m, true, width);
    size_t process;
    start_process(m, &process, 0);
    return process;
}

static void generate_sized_by_muxes(random_source *random, generated_file *file)
{
    maker m = new_maker(random, file, 0);
    unsigned cells = cells_near_limit(random), registers = random_between(random, 6, 62);
    size_t process = start_mux_module(&m, registers);
    for (; cells > registers; cells -= registers)
        make_mux_if(&m, registers);
    make_mux_if(&m, cells);
    close_sized_module(&m, process);
}

/* case (variable 0) with so many items, all blocks empty but the default, which copies into `count` registers. */
static void make_long_case(maker *m, unsigned items, unsigned count)
{
    size_t start = open_field(m, 0x15);
    make_read(m, 0);
    for (unsigned i = 0; i < items; i++) {
        size_t item = open_field(m, 0x16);
        make_constant(m, m->of[0].width);
        make_empty_block(m);
        close_field(m, item);
    }
    make_copies_block(m, count);
    close_field(m, start);
}

/* Each item is an equal cell and, for each register of the default, a mux. The rest are items without registers. */
static void generate_sized_by_items(random_source *random, generated_file *file)
{
    maker m = new_maker(random, file, 0);
    unsigned cells = cells_near_limit(random), registers = one_in(random, 2) ? 0 : random_between(random, 1, 30);
    size_t process = start_mux_module(&m, registers);
    make_long_case(&m, cells / (1 + registers), registers);
    if (cells % (1 + registers) != 0)
        make_long_case(&m, cells % (1 + registers), 0);
    close_sized_module(&m, process);
}

/* A random module, brought near the limit by nots in its last process: as many as the reference finds missing. */
static void generate_sized_mixed(random_source *random, generated_file *file)
{
    static uint8_t netlist[NETLIST_LIMIT];
    maker m = new_maker(random, file, 0);
    unsigned cells = cells_near_limit(random);
    unsigned variables = random_variables(random) % 60, processes = random_between(random, 1, 4);
    size_t process = start_sized_module(&m, random_between(random, 500, 9000), variables, processes);
    close_sized_module(&m, process);
    reference_answer so_far = reference_translate(file->bytes, file->length, netlist, sizeof netlist);
    if (so_far.number != 0 || so_far.cells >= cells)
        return;
    for (unsigned missing = cells - so_far.cells; missing > 0;) {
        unsigned each = missing < 20 ? missing : 20;
        make_nots(&m, 0, each);
        missing -= each;
    }
    close_sized_module(&m, process);
}

/* ---- Modules of chosen shapes ---- */

/* Ifs and cases one in the other until a field has depth `deepest`, with statements beside them now and then. */
static void make_nest(maker *m, unsigned depth, unsigned deepest);

static void make_nest_block(maker *m, unsigned depth, unsigned deepest, bool has_nest)
{
    size_t start = open_field(m, 0x17);
    if (has_nest)
        make_nest(m, depth + 1, deepest);
    close_field(m, start);
}

static void make_nest(maker *m, unsigned depth, unsigned deepest)
{
    bool is_case = depth + 2 <= deepest && one_in(m->random, 3), in_first = one_in(m->random, 2);
    if (depth + 1 > deepest)
        return;
    if (one_in(m->random, depth + 2 > deepest ? 2 : 6))
        make_assignment(m, depth);
    size_t start = open_field(m, is_case ? 0x15 : 0x14);
    make_leaf(m, 1);
    if (is_case) {
        size_t item = open_field(m, 0x16);
        make_constant(m, 1);
        make_nest_block(m, depth + 2, deepest, in_first);
        close_field(m, item);
    } else {
        make_nest_block(m, depth + 1, deepest, in_first);
    }
    make_nest_block(m, depth + 1, deepest, !in_first);
    close_field(m, start);
}

static void generate_nested(random_source *random, generated_file *file)
{
    maker m = new_maker(random, file, 0);
    uint32_t nests = random_between(random, 1, 12);
    size_t process = start_sized_module(&m, 0, random_variables(random) % 60, 1);
    for (uint32_t i = 0; i < nests; i++)
        make_nest(&m, 3, one_in(random, 8) ? 33 : random_between(random, 28, 32));
    close_sized_module(&m, process);
}

static void generate_deep_expression(random_source *random, generated_file *file)
{
    maker m = new_maker(random, file, MODULE_LIMIT);
    uint32_t chains = random_between(random, 1, 6);
    size_t process = start_sized_module(&m, 0, random_variables(random) % 60, 1);
    for (uint32_t i = 0; i < chains; i++) {
        size_t start = open_field(&m, 0x11);
        put(&m, 0);
        unsigned count = one_in(random, 8) ? 29 : random_between(random, 26, 28);
        make_chain(&m, m.of[0].width, count, one_in(random, 3));
        close_field(&m, start);
    }
    close_sized_module(&m, process);
}

/* A case of about 1,000 items, some with a statement, over a selector of few bits or many. */
static void generate_long_case(random_source *random, generated_file *file)
{
    maker m = new_maker(random, file, 0);
    uint32_t items = random_between(random, 900, 1120), with_statement = random_between(random, 20, 400);
    bool is_idle = one_in(random, 2); /* no statements: the equal cells alone */
    size_t process = start_sized_module(&m, 0, random_below(random, 10), 1);
    m.size = MODULE_LIMIT;
    size_t start = open_field(&m, 0x15);
    uint8_t width = one_in(random, 2) ? m.of[0].width : random_width(random);
    make_leaf(&m, width);
    for (uint32_t i = 0; i < items && m.file->length < MODULE_LIMIT - 100; i++) {
        size_t item = open_field(&m, 0x16);
        make_constant(&m, width);
        size_t block = open_field(&m, 0x17);
        if (!is_idle && one_in(random, with_statement))
            make_nots(&m, 0, random_below(random, 3));
        close_field(&m, block);
        close_field(&m, item);
    }
    size_t block = open_field(&m, 0x17);
    if (!is_idle && one_in(random, 2))
        make_nots(&m, 0, 1);
    close_field(&m, block);
    close_field(&m, start);
    close_sized_module(&m, process);
}

/* Ifs one in the other around copies into `count` registers: so many muxes for each if. */
static void make_mux_nest(maker *m, unsigned ifs, unsigned count)
{
    size_t starts[14], blocks[14];
    for (unsigned i = 0; i < ifs; i++) {
        starts[i] = open_field(m, 0x14);
        make_read(m, 0);
        blocks[i] = open_field(m, 0x17);
    }
    for (unsigned i = 0; i < count; i++)
        make_copy(m, 2 + i, 1);
    for (unsigned i = ifs; i-- > 0;) {
        close_field(m, blocks[i]);
        make_empty_block(m);
        close_field(m, starts[i]);
    }
}

/* Muxes far over the limit: a long case with many registers, or the copies nested in ifs. */
static void generate_many_muxes(random_source *random, generated_file *file)
{
    maker m = new_maker(random, file, 0);
    unsigned registers = random_between(random, 20, 62);
    size_t process = start_mux_module(&m, registers);
    if (one_in(random, 2))
        make_long_case(&m, random_between(random, 600, 940), registers);
    else
        for (unsigned i = 0; i < 20; i++)
            make_mux_nest(&m, 14, registers);
    close_sized_module(&m, process);
}

/* ---- Netlists ---- */

enum operand_kind { KIND_CONSTANT, KIND_VARIABLE, KIND_CELL };

/* An operand's six bytes, with one of rules 2, 3, 6, 7 broken now and then. */
static void put_operand(maker *m, uint8_t kind, uint8_t width, uint32_t number)
{
    if (breaks(m, 2))
        kind = one_in(m->random, 2) ? 3 : (uint8_t)random_word(m->random);
    if (breaks(m, 3)) {
        if (kind == KIND_CONSTANT && width < 32 && one_in(m->random, 2))
            number |= (uint32_t)1 << random_between(m->random, width, 31);
        else
            width = wrong_width(m->random);
    }
    if (breaks(m, 6) && kind != KIND_CONSTANT) {
        uint32_t count = kind == KIND_VARIABLE ? m->variables : m->cells;
        number = one_in(m->random, 3) ? random_word(m->random) | 256 : count + random_below(m->random, 3);
    }
    if (breaks(m, 7))
        width = random_width(m->random);
    put(m, kind);
    put(m, width);
    put_number(m, number);
}

/* An operand of the width wanted: a cell or variable that has it, else a constant. */
static void make_operand(maker *m, uint8_t width)
{
    if (breaks(m, 7))
        width = random_width(m->random); /* right in itself, wrong for its place */
    for (int tries = 0; tries < 12; tries++) {
        uint32_t cell = m->cells > 0 ? random_below(m->random, m->cells) : 0;
        uint32_t variable = m->variables > 0 ? random_below(m->random, m->variables) : 0;
        if (m->cells > 0 && m->cell_width[cell] == width && one_in(m->random, 2)) {
            put_operand(m, KIND_CELL, width, cell);
            return;
        }
        if (m->variables > 0 && m->of[variable].width == width) {
            put_operand(m, KIND_VARIABLE, width, variable);
            return;
        }
    }
    put_operand(m, KIND_CONSTANT, width, random_value(m->random, width));
}

/* The operands of a cell whose value has this width. */
static void make_cell_operands(maker *m, uint8_t tag, uint8_t width)
{
    uint8_t vector = tag == 0x37 ? width : random_width(m->random);
    if (tag == 0x39 && vector == 1)
        vector = 8;
    uint8_t index = (uint8_t)random_between(m->random, 1, vector > 1 ? widest_index(vector) : 1);
    if (tag == 0x39 && breaks(m, 8))
        index = one_in(m->random, 3) ? 32 : (uint8_t)(widest_index(vector) + 1);
    if (tag == 0x36)
        make_operand(m, 1);
    make_operand(m, tag >= 0x35 && tag != 0x36 ? vector : width);
    if (tag == 0x37 || tag == 0x38)
        put_bit_number(m, vector);
    if (tag == 0x37)
        make_operand(m, 1);
    if (tag == 0x39)
        make_operand(m, index);
    if (tag == 0x35)
        make_operand(m, vector);
    if ((tag >= 0x31 && tag <= 0x34) || tag == 0x36)
        make_operand(m, width);
}

static void make_cell(maker *m, uint8_t tag)
{
    bool of_one_bit = tag == 0x35 || tag >= 0x38;
    uint8_t width = of_one_bit ? 1 : random_width(m->random);
    size_t start = open_field(m, tag);
    uint8_t written = width;
    if (breaks(m, 7))
        written = random_width(m->random);
    if (breaks(m, 3))
        written = wrong_width(m->random);
    put(m, written);
    make_cell_operands(m, tag, width);
    close_field(m, start);
    m->cell_width[m->cells++] = width;
}

static void make_drive(maker *m, unsigned variable)
{
    size_t start = open_field(m, 0x40);
    put(m, breaks(m, 6) ? random_below(m->random, m->variables + 2) : variable);
    make_operand(m, m->of[variable].width);
    close_field(m, start);
}

static void make_drives(maker *m)
{
    for (unsigned v = 0; v < m->variables; v++) {
        if (m->of[v].is_register && !breaks(m, 6))
            make_drive(m, v);
        if (m->of[v].is_register && breaks(m, 6))
            make_drive(m, v); /* once more */
    }
    if (breaks(m, 2)) /* a cell or declaration after the drives */
        make_cell(m, (uint8_t)random_between(m->random, 0x30, 0x3A));
}

static void make_netlist(maker *m, unsigned variables, unsigned cells)
{
    size_t outer = open_field(m, 0x81);
    make_declarations(m, variables);
    for (unsigned i = 0; i < cells && m->file->length + 22 <= NETLIST_LIMIT - 10 * m->variables; i++)
        make_cell(m, (uint8_t)random_between(m->random, 0x30, 0x3A));
    make_drives(m);
    close_field(m, outer);
    close_outer(m);
}

static void generate_netlist(random_source *random, generated_file *file, unsigned cells)
{
    maker m = new_maker(random, file, NETLIST_LIMIT);
    make_netlist(&m, random_variables(random), cells);
}

static void generate_broken_netlist(random_source *random, generated_file *file, unsigned rules, bool once)
{
    maker m = new_maker(random, file, NETLIST_LIMIT);
    m.armed = rules;
    m.once = once;
    bool is_rare = (rules & (1u << 5 | 1u << 8)) != 0; /* rules with few occasions */
    m.chance = random_between(random, 1, is_rare ? 4 : 20) * (once ? 1 : 5);
    unsigned variables = random_variables(random);
    make_netlist(&m, variables, random_between(random, 0, one_in(random, 20) ? 1200 : 30));
}

static void generate_netlist_against_1(random_source *random, generated_file *file)
{
    generate_netlist(random, file, random_below(random, 20));
    switch (random_below(random, 4)) {
    case 0:
        set_length(file, 0, random_below(random, 65536));
        break;
    case 1:
        file->length = random_below(random, (uint32_t)file->length);
        break;
    case 2:
        file->bytes[file->length++] = random_tag(random);
        break;
    default:
        while (file->length <= NETLIST_LIMIT || one_in(random, 2)) {
            static const uint8_t cell[] = {0x30, 0, 7, 1, 0, 1, 0, 0, 0, 1};
            memcpy(file->bytes + file->length, cell, sizeof cell);
            file->length += sizeof cell;
        }
        set_length(file, 0, file->length - 3);
    }
}

/* Cells of all kinds or of the shortest, up to 3,276, which with one input fill 32,768 bytes. */
static void generate_netlist_against_12(random_source *random, generated_file *file)
{
    maker m = new_maker(random, file, NETLIST_LIMIT);
    unsigned cells = one_in(random, 2) ? cells_near_limit(random) : random_between(random, 1026, 3276);
    if (one_in(random, 2)) {
        make_netlist(&m, random_below(random, 20), cells);
        return;
    }
    if (one_in(random, 3))
        cells = 3276;
    if (one_in(random, 6)) { /* a rule broken late counts before 12 */
        m.armed = 1u << 3 | 1u << 6 | 1u << 7;
        m.chance = 1000;
    }
    open_field(&m, 0x81);
    size_t declaration = open_field(&m, 0x02);
    m.of[0].width = random_width(random);
    m.variables = 1;
    put(&m, m.of[0].width);
    put(&m, 'a');
    close_field(&m, declaration);
    for (unsigned i = 0; i < cells; i++)
        make_cell(&m, one_in(random, 2) ? 0x30 : 0x3A);
    close_outer(&m);
}

/* ---- Changes to finished files ---- */

static void insert_bytes(generated_file *file, size_t at, const uint8_t *bytes, size_t count)
{
    if (file->length + count > FILE_BYTES_MOST)
        return;
    memmove(file->bytes + at + count, file->bytes + at, file->length - at);
    memcpy(file->bytes + at, bytes, count);
    file->length += count;
}

static void delete_bytes(generated_file *file, size_t at, size_t count)
{
    memmove(file->bytes + at, file->bytes + at + count, file->length - at - count);
    file->length -= count;
}

/* One change anywhere: a bit, a byte, a byte by one, bytes in, bytes out, the end cut off. */
static void change_bytes_once(random_source *random, generated_file *file)
{
    if (file->length == 0)
        return;
    size_t at = random_below(random, (uint32_t)file->length);
    uint8_t some[4] = {random_tag(random), 0, 0, 0};
    some[2] = (uint8_t)random_below(random, 8);
    some[3] = (uint8_t)random_word(random);
    size_t count = random_between(random, 1, 4);
    switch (random_below(random, 7)) {
    case 0:
        file->bytes[at] ^= (uint8_t)(1u << random_below(random, 8));
        break;
    case 1:
        file->bytes[at] = (uint8_t)random_word(random);
        break;
    case 2:
        file->bytes[at] = (uint8_t)(file->bytes[at] + (one_in(random, 2) ? 1 : -1));
        break;
    case 3:
        file->bytes[at] = random_tag(random);
        break;
    case 4:
        insert_bytes(file, at, some, count);
        break;
    case 5:
        delete_bytes(file, at, count < file->length - at ? count : file->length - at);
        break;
    default:
        file->length = one_in(random, 4) ? at : file->length;
    }
}

enum { FIELDS_ROOM = 11000 };

typedef struct {
    size_t count;
    struct {
        uint32_t start, end;
    } at[FIELDS_ROOM];
} field_list;

/* The fixed bytes before the inner fields of a tag, or -1 where there are no inner fields. */
static int bytes_before_fields(uint8_t tag)
{
    if (tag == 0x01 || tag == 0x81 || tag == 0x04 || (tag >= 0x14 && tag <= 0x17) || (tag >= 0x24 && tag <= 0x2A))
        return 0;
    if (tag == 0x10 || tag == 0x11 || tag == 0x23)
        return 1;
    return tag == 0x12 || tag == 0x13 ? 2 : -1;
}

/* The fields of a well-formed part of a file. */
static void list_fields(const generated_file *file, size_t at, size_t end, field_list *list)
{
    while (at + 3 <= end && list->count < FIELDS_ROOM) {
        size_t field_end = at + 3 + ((size_t)file->bytes[at + 1] << 8 | file->bytes[at + 2]);
        int before = bytes_before_fields(file->bytes[at]);
        if (field_end > end)
            return;
        list->at[list->count].start = (uint32_t)at;
        list->at[list->count++].end = (uint32_t)field_end;
        if (before >= 0)
            list_fields(file, at + 3 + (size_t)before, field_end, list);
        at = field_end;
    }
}

/* One byte of a field: its tag becomes a neighbour's, or its width, variable, bit number or value a small one. */
static void change_field_once(random_source *random, generated_file *file)
{
    static field_list list;
    list.count = 0;
    list_fields(file, 0, file->length, &list);
    if (list.count < 2)
        return;
    size_t chosen = random_between(random, 1, (uint32_t)list.count - 1);
    size_t start = list.at[chosen].start, length = list.at[chosen].end - start - 3;
    if (length == 0 || one_in(random, 3)) {
        file->bytes[start] ^= one_in(random, 2) ? 1 : 3;
        return;
    }
    size_t at = start + 3 + random_below(random, length < 9 ? (uint32_t)length : 9);
    file->bytes[at] = (uint8_t)random_below(random, 12);
}

static void change_bytes(random_source *random, generated_file *file)
{
    uint32_t changes = random_between(random, 1, 3);
    bool of_fields = one_in(random, 2);
    for (uint32_t i = 0; i < changes; i++) {
        if (of_fields)
            change_field_once(random, file);
        else
            change_bytes_once(random, file);
    }
    if (file->length >= 3 && !one_in(random, 8))
        set_length(file, 0, file->length - 3);
}

/* Declarations, processes, assignments and so on: fields of one class can often stand for each other. */
static int class_of(uint8_t tag)
{
    if (tag >= 0x16 && tag <= 0x17)
        return tag;
    return tag < 0x10 ? tag / 4 : tag / 16 + 1;
}

/* A field to put in the place of field `to`: mostly one of its class. */
static size_t choose_field(random_source *random, const generated_file *file, const field_list *list, size_t to)
{
    size_t from = random_between(random, 1, (uint32_t)list->count - 1);
    int wanted = class_of(file->bytes[list->at[to].start]);
    for (int tries = 0; tries < 30 && class_of(file->bytes[list->at[from].start]) != wanted; tries++)
        from = random_between(random, 1, (uint32_t)list->count - 1);
    return from;
}

/* Puts a copy of one field in the place of another, or before it, or takes one out; all lengths around it follow. */
static void move_field_once(random_source *random, generated_file *file)
{
    static field_list list;
    static uint8_t copy[FILE_BYTES_MOST];
    list.count = 0;
    list_fields(file, 0, file->length, &list);
    if (list.count < 2)
        return;
    size_t to = random_between(random, 1, (uint32_t)list.count - 1);
    size_t from = choose_field(random, file, &list, to);
    size_t start = list.at[to].start, old = list.at[to].end - start, new = list.at[from].end - list.at[from].start;
    uint32_t way = random_below(random, 8);
    if (way == 0)
        old = 0;
    if (way == 1)
        new = 0;
    memcpy(copy, file->bytes + list.at[from].start, new);
    if (file->length + new - old > FILE_BYTES_MOST)
        return;
    for (size_t i = 0; i < list.count; i++)
        if (list.at[i].start < start && list.at[i].end >= start + old && list.at[i].end > start)
            set_length(file, list.at[i].start, list.at[i].end - list.at[i].start - 3 + new - old);
    delete_bytes(file, start, old);
    insert_bytes(file, start, copy, new);
}

static void move_fields(random_source *random, generated_file *file)
{
    uint32_t changes = random_between(random, 1, 3);
    for (uint32_t i = 0; i < changes; i++)
        move_field_once(random, file);
    set_length(file, 0, file->length - 3);
}

/* What the reference makes of a module. */
static void generate_translated(random_source *random, generated_file *file, size_t size)
{
    static uint8_t netlist[NETLIST_LIMIT];
    generate_module(random, file, size);
    reference_answer answer = reference_translate(file->bytes, file->length, netlist, sizeof netlist);
    if (answer.number == 0) {
        file->length = (size_t)answer.at;
        memcpy(file->bytes, netlist, file->length);
    }
}

/* ---- Rows ---- */

/* The widths of the declarations a file begins with; bit 7 marks an input. */
static size_t read_widths(const generated_file *file, uint8_t widths[ROW_BYTES_ROOM / 4])
{
    size_t count = 0, at = 3;
    while (count + 20 < ROW_BYTES_ROOM / 4 && at + 4 <= file->length && (file->bytes[at] == 2 || file->bytes[at] == 3)) {
        widths[count++] = (uint8_t)((file->bytes[at + 3] & 0x7F) | (file->bytes[at] == 2 ? 0x80 : 0));
        at += 3 + ((size_t)file->bytes[at + 1] << 8 | file->bytes[at + 2]);
    }
    return count;
}

size_t count_variables(const generated_file *file)
{
    uint8_t widths[ROW_BYTES_ROOM / 4];
    return read_widths(file, widths);
}

static void set_number(generated_row *row, size_t variable, uint32_t number)
{
    for (int i = 0; i < 4; i++)
        row->bytes[4 * variable + (size_t)i] = (uint8_t)(number >> (24 - 8 * i));
}

static uint32_t fitting_number(random_source *random, uint8_t width)
{
    return random_value(random, (width & 0x7F) > 32 ? 32 : width & 0x7Fu);
}

void generate_row(random_source *random, const generated_file *file, enum row_kind kind, generated_row *row)
{
    uint8_t widths[ROW_BYTES_ROOM / 4];
    size_t count = read_widths(file, widths);
    for (size_t v = 0; v < ROW_BYTES_ROOM / 4; v++)
        set_number(row, v, v < count ? fitting_number(random, widths[v]) : 0);
    row->length = 4 * count;
    if (kind == ROW_WRONG_LENGTH) {
        static const int off[] = {-4, -1, 1, 3, 4, 40};
        int by = off[random_below(random, 6)];
        row->length = by < 0 && row->length < 4 ? 0 : row->length + (size_t)by;
    }
    if (kind == ROW_ONE_TOO_LARGE && count > 0) {
        size_t v = random_below(random, (uint32_t)count), width = widths[v] & 0x7F;
        if (width < 32)
            set_number(row, v, one_in(random, 2) ? (uint32_t)1 << width : random_word(random) | (uint32_t)1 << width);
    }
}

void replace_inputs(random_source *random, const generated_file *file, generated_row *row)
{
    uint8_t widths[ROW_BYTES_ROOM / 4];
    size_t count = read_widths(file, widths);
    for (size_t v = 0; v < count; v++)
        if ((widths[v] & 0x80) != 0)
            set_number(row, v, fitting_number(random, widths[v]));
}

/* ---- The kinds ---- */

static const struct {
    const char *name;
    uint32_t weight;
} kinds[FILE_KINDS] = {
    [MODULE_TINY] = {"module, tiny", 30},
    [MODULE_SMALL] = {"module, small", 100},
    [MODULE_MIDDLE] = {"module, middle", 60},
    [MODULE_LARGE] = {"module, large", 6},
    [MODULE_16384_BYTES] = {"module of 16,384 bytes", 4},
    [MODULE_NESTED] = {"module, nested to 32", 20},
    [MODULE_DEEP_EXPRESSION] = {"module, expressions of 28", 20},
    [MODULE_LONG_CASE] = {"module, case of 1,000 items", 4},
    [MODULE_SIZED_BY_EXPRESSIONS] = {"module, 1,024 by expressions", 4},
    [MODULE_SIZED_BY_MUXES] = {"module, 1,024 by muxes", 4},
    [MODULE_SIZED_BY_ITEMS] = {"module, 1,024 by items", 4},
    [MODULE_SIZED_MIXED] = {"module, 1,024 mixed", 6},
    [MODULE_MANY_MUXES] = {"module, muxes without end", 2},
    [MODULE_BREAKS_1] = {"module against 1", 20},
    [MODULE_BREAKS_2] = {"module against 2", 140},
    [MODULE_BREAKS_3] = {"module against 3", 40},
    [MODULE_BREAKS_4] = {"module against 4", 40},
    [MODULE_BREAKS_5] = {"module against 5", 15},
    [MODULE_BREAKS_6] = {"module against 6", 40},
    [MODULE_BREAKS_7] = {"module against 7", 60},
    [MODULE_BREAKS_8] = {"module against 8", 50},
    [MODULE_BREAKS_9] = {"module against 9", 40},
    [MODULE_BREAKS_10] = {"module against 10", 40},
    [MODULE_BREAKS_11] = {"module against 11", 40},
    [MODULE_BREAKS_SEVERAL] = {"module against several", 80},
    [MODULE_BYTES_CHANGED] = {"module, bytes changed", 120},
    [MODULE_FIELDS_MOVED] = {"module, fields moved", 120},
    [NETLIST_TRANSLATED] = {"netlist, translated", 30},
    [NETLIST_BYTES_CHANGED] = {"netlist, bytes changed", 80},
    [NETLIST_FIELDS_MOVED] = {"netlist, fields moved", 80},
    [NETLIST_SMALL] = {"netlist, small", 60},
    [NETLIST_LARGE] = {"netlist, large", 5},
    [NETLIST_BREAKS_1] = {"netlist against 1", 15},
    [NETLIST_BREAKS_2] = {"netlist against 2", 40},
    [NETLIST_BREAKS_3] = {"netlist against 3", 40},
    [NETLIST_BREAKS_4] = {"netlist against 4", 30},
    [NETLIST_BREAKS_5] = {"netlist against 5", 10},
    [NETLIST_BREAKS_6] = {"netlist against 6", 50},
    [NETLIST_BREAKS_7] = {"netlist against 7", 50},
    [NETLIST_BREAKS_8] = {"netlist against 8", 40},
    [NETLIST_BREAKS_12] = {"netlist against 12", 10},
    [NETLIST_BREAKS_SEVERAL] = {"netlist against several", 50},
};

const char *file_kind_name(enum file_kind kind)
{
    return kinds[kind].name;
}

bool file_kind_is_netlist(enum file_kind kind)
{
    return kind >= NETLIST_TRANSLATED;
}

enum file_kind random_file_kind(random_source *random)
{
    uint32_t total = 0;
    for (int kind = 0; kind < FILE_KINDS; kind++)
        total += kinds[kind].weight;
    uint32_t left = random_below(random, total);
    int kind = 0;
    for (; left >= kinds[kind].weight; kind++)
        left -= kinds[kind].weight;
    return (enum file_kind)kind;
}

/* Some of the rules `lowest` to `highest`. */
static unsigned some_rules(random_source *random, unsigned lowest, unsigned highest)
{
    unsigned rules = 0;
    for (unsigned rule = lowest; rule <= highest; rule++)
        if (one_in(random, 3))
            rules |= 1u << rule;
    return rules;
}

static size_t usual_size(random_source *random)
{
    return one_in(random, 10) ? random_between(random, 400, 3000) : random_between(random, 20, 300);
}

static void generate_netlist_file(random_source *random, enum file_kind kind, generated_file *file)
{
    unsigned rules;
    switch (kind) {
    case NETLIST_TRANSLATED:
        generate_translated(random, file, one_in(random, 10) ? random_between(random, 500, 6000) : usual_size(random));
        break;
    case NETLIST_BYTES_CHANGED: case NETLIST_FIELDS_MOVED:
        if (one_in(random, 2))
            generate_translated(random, file, usual_size(random));
        else
            generate_netlist(random, file, random_below(random, 12));
        if (kind == NETLIST_BYTES_CHANGED)
            change_bytes(random, file);
        else
            move_fields(random, file);
        break;
    case NETLIST_SMALL:
        generate_netlist(random, file, random_below(random, 40));
        break;
    case NETLIST_LARGE:
        generate_netlist(random, file, random_between(random, 500, 1024));
        break;
    case NETLIST_BREAKS_1:
        generate_netlist_against_1(random, file);
        break;
    case NETLIST_BREAKS_12:
        generate_netlist_against_12(random, file);
        break;
    case NETLIST_BREAKS_SEVERAL:
        rules = some_rules(random, 2, 8);
        generate_broken_netlist(random, file, rules, one_in(random, 2));
        break;
    default: /* NETLIST_BREAKS_2 to 8 */
        generate_broken_netlist(random, file, 1u << (kind - NETLIST_BREAKS_1 + 1), !one_in(random, 4));
    }
}

static void generate_shaped_module(random_source *random, enum file_kind kind, generated_file *file)
{
    static void (*const shapes[])(random_source *, generated_file *) = {
        [MODULE_TINY] = generate_tiny_module,
        [MODULE_16384_BYTES] = generate_16384_bytes,
        [MODULE_NESTED] = generate_nested,
        [MODULE_DEEP_EXPRESSION] = generate_deep_expression,
        [MODULE_LONG_CASE] = generate_long_case,
        [MODULE_SIZED_BY_EXPRESSIONS] = generate_sized_by_expressions,
        [MODULE_SIZED_BY_MUXES] = generate_sized_by_muxes,
        [MODULE_SIZED_BY_ITEMS] = generate_sized_by_items,
        [MODULE_SIZED_MIXED] = generate_sized_mixed,
        [MODULE_MANY_MUXES] = generate_many_muxes,
        [MODULE_BREAKS_1] = generate_module_against_1,
    };
    shapes[kind](random, file);
}

void generate_file(random_source *random, enum file_kind kind, generated_file *file)
{
    unsigned rules;
    switch (kind) {
    case MODULE_SMALL:
        generate_module(random, file, random_between(random, 20, 300));
        break;
    case MODULE_MIDDLE:
        generate_module(random, file, random_between(random, 300, 2500));
        break;
    case MODULE_LARGE:
        generate_module(random, file, random_between(random, 2500, 15800));
        break;
    case MODULE_BYTES_CHANGED:
        generate_module(random, file, usual_size(random));
        change_bytes(random, file);
        break;
    case MODULE_FIELDS_MOVED:
        generate_module(random, file, usual_size(random));
        move_fields(random, file);
        break;
    case MODULE_BREAKS_SEVERAL:
        rules = some_rules(random, 2, 11);
        generate_broken_module(random, file, rules, one_in(random, 2));
        break;
    default:
        if (file_kind_is_netlist(kind))
            generate_netlist_file(random, kind, file);
        else if (kind >= MODULE_BREAKS_2 && kind <= MODULE_BREAKS_11)
            generate_broken_module(random, file, 1u << (kind - MODULE_BREAKS_1 + 1), !one_in(random, 4));
        else
            generate_shaped_module(random, kind, file);
    }
}
