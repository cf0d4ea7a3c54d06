/* Every part of memory that a call is lent has guard bytes before and after it, and each library has its own copy. After a
   call: the answers are equal; what was lent to be read is unaltered; guards are unaltered; what was lent to be written is
   equal in every byte, unaltered after a refusal, and unaltered beyond the length that a translation gives. */
#include "harness.h"
#include "generate.h"

#include <string.h>

const library reference_library = {"reference", reference_check, reference_translate, reference_run_module,
                                   reference_run_netlist};

enum call { CHECK, TRANSLATE, RUN_MODULE, RUN_NETLIST, CALLS };
enum { GUARD = 64, NUMBERS = 15, TRANSLATE_ROOM = 32768, CYCLES_MOST = 4 };

static const char *const call_names[CALLS] = {"check", "translate", "run_module", "run_netlist"};

/* Which numbers each call may give. */
static const unsigned numbers_of_call[CALLS] = {0x0FFF, 0x3FFF, 0x4FFF, 0x51FF};

/* A part of memory as it was given, and the copies lent to the two libraries. */
typedef struct {
    size_t length;
    uint8_t given[GUARD + FILE_BYTES_MOST + GUARD];
    uint8_t to[2][GUARD + FILE_BYTES_MOST + GUARD];
} lent_memory;

typedef struct {
    const library *side[2]; /* the tested one, the reference */
    FILE *differences;
    uint64_t seed, index;
    enum file_kind kind;
    random_source random;
    lent_memory file, row, out;
    generated_file made, translated;
    reference_answer answer[2];
    uint64_t files[FILE_KINDS], met[CALLS][NUMBERS], cycles;
} harness;

/* ---- Lending ---- */

static size_t size_with_guards(const lent_memory *memory)
{
    return GUARD + memory->length + GUARD;
}

/* Lends the bytes, or a pattern where there are none. */
static void lend(harness *h, lent_memory *memory, const uint8_t *bytes, size_t length)
{
    uint32_t pattern = random_word(&h->random) | 1;
    memory->length = length;
    for (size_t i = 0; i < size_with_guards(memory); i++)
        memory->given[i] = (uint8_t)((i + 1) * pattern >> 8);
    if (bytes != NULL && length > 0)
        memcpy(memory->given + GUARD, bytes, length);
    for (int side = 0; side < 2; side++)
        memcpy(memory->to[side], memory->given, size_with_guards(memory));
}

static void lend_file(harness *h, const generated_file *file)
{
    lend(h, &h->file, file->bytes, file->length);
}

static reference_answer make_call(harness *h, enum call call, int side)
{
    const library *by = h->side[side];
    const uint8_t *file = h->file.to[side] + GUARD, *row = h->row.to[side] + GUARD;
    uint8_t *out = h->out.to[side] + GUARD;
    switch (call) {
    case CHECK:
        return by->check(file, h->file.length);
    case TRANSLATE:
        return by->translate(file, h->file.length, out, h->out.length);
    case RUN_MODULE:
        return by->run_module(file, h->file.length, row, h->row.length, out, h->out.length);
    default:
        return by->run_netlist(file, h->file.length, row, h->row.length, out, h->out.length);
    }
}

/* ---- Reporting a difference ---- */

static void print_bytes(FILE *to, const char *what, const uint8_t *bytes, size_t length)
{
    fprintf(to, "%s, %zu bytes:", what, length);
    for (size_t i = 0; i < length; i++)
        fprintf(to, "%s%02X", i % 32 == 0 ? "\n  " : " ", bytes[i]);
    fprintf(to, "\n");
}

static void print_answer(FILE *to, const library *by, reference_answer answer)
{
    fprintf(to, "%s: number %lu, cells %lu, at %llu\n", by->name, (unsigned long)answer.number,
            (unsigned long)answer.cells, (unsigned long long)answer.at);
}

static bool report(harness *h, enum call call, const char *what)
{
    FILE *to = h->differences;
    if (to == NULL)
        return false;
    fprintf(to, "DIFFERENCE in %s: %s\nseed %llu, input %llu (%s)\n", call_names[call], what, (unsigned long long)h->seed,
            (unsigned long long)h->index, file_kind_name(h->kind));
    for (int side = 0; side < 2; side++)
        print_answer(to, h->side[side], h->answer[side]);
    print_bytes(to, "file", h->file.given + GUARD, h->file.length);
    if (call == CHECK)
        return false;
    if (call != TRANSLATE)
        print_bytes(to, "row", h->row.given + GUARD, h->row.length);
    print_bytes(to, "lent to be written, before", h->out.given + GUARD, h->out.length);
    for (int side = 0; side < 2; side++) {
        fprintf(to, "after %s, ", h->side[side]->name);
        print_bytes(to, "with 64 guard bytes before and after", h->out.to[side], size_with_guards(&h->out));
    }
    return false;
}

/* ---- One call ---- */

static bool is_unaltered(const lent_memory *memory)
{
    return memcmp(memory->to[0], memory->given, size_with_guards(memory)) == 0
        && memcmp(memory->to[1], memory->given, size_with_guards(memory)) == 0;
}

/* How many bytes of what was lent to be written a call with this answer writes. */
static size_t written_by(const harness *h, enum call call)
{
    if (h->answer[1].number != 0 || call == CHECK)
        return 0;
    return call == TRANSLATE ? (size_t)h->answer[1].at : h->out.length;
}

/* Guards, and bytes beyond those written. */
static bool rest_is_unaltered(const harness *h, int side, size_t written)
{
    size_t behind = GUARD + written;
    return memcmp(h->out.to[side], h->out.given, GUARD) == 0
        && memcmp(h->out.to[side] + behind, h->out.given + behind, size_with_guards(&h->out) - behind) == 0;
}

static bool answers_are_equal(const harness *h)
{
    return h->answer[0].number == h->answer[1].number && h->answer[0].cells == h->answer[1].cells
        && h->answer[0].at == h->answer[1].at;
}

/* Makes a call of both libraries with what is lent; false after a difference. */
static bool compare_call(harness *h, enum call call)
{
    for (int side = 0; side < 2; side++)
        h->answer[side] = make_call(h, call, side);
    if (h->answer[1].number < NUMBERS)
        h->met[call][h->answer[1].number]++;
    if (!answers_are_equal(h))
        return report(h, call, "the answers");
    if (!is_unaltered(&h->file) || (call >= RUN_MODULE && !is_unaltered(&h->row)))
        return report(h, call, "memory lent to be read was altered");
    if (call == CHECK)
        return true;
    if (memcmp(h->out.to[0], h->out.to[1], size_with_guards(&h->out)) != 0)
        return report(h, call, "the bytes written");
    for (int side = 0; side < 2; side++)
        if (!rest_is_unaltered(h, side, written_by(h, call)))
            return report(h, call, "bytes altered that should stay");
    return true;
}

/* ---- The calls on one file ---- */

static bool compare_translate(harness *h, size_t room)
{
    lend(h, &h->out, NULL, room);
    return compare_call(h, TRANSLATE);
}

/* With 32,768 bytes, and then with 0, one too few, just enough and one too many. */
static bool compare_translates(harness *h)
{
    if (!compare_translate(h, TRANSLATE_ROOM))
        return false;
    reference_answer answer = h->answer[1];
    if (answer.number != 0)
        return compare_translate(h, random_below(&h->random, 300)) && compare_translate(h, 0);
    size_t length = h->translated.length = (size_t)answer.at;
    memcpy(h->translated.bytes, h->out.to[1] + GUARD, length);
    return compare_translate(h, 0) && compare_translate(h, length - 1) && compare_translate(h, length)
        && compare_translate(h, length + 1);
}

/* One run with rows of some kind. */
static bool compare_run(harness *h, enum call call, enum row_kind row_kind, enum row_kind next_kind)
{
    generated_row row, next;
    generate_row(&h->random, &h->made, row_kind, &row);
    generate_row(&h->random, &h->made, next_kind, &next);
    lend(h, &h->row, row.bytes, row.length);
    lend(h, &h->out, NULL, next.length);
    return compare_call(h, call);
}

/* A few cycles on from a row: the row written is read next, with other inputs. */
static bool compare_cycles(harness *h, enum call call, uint32_t cycles)
{
    generated_row row;
    generate_row(&h->random, &h->made, ROW_FITS, &row);
    for (uint32_t i = 0; i < cycles; i++) {
        lend(h, &h->row, row.bytes, row.length);
        lend(h, &h->out, NULL, row.length);
        if (!compare_call(h, call))
            return false;
        if (h->answer[1].number != 0)
            return true;
        h->cycles++;
        memcpy(row.bytes, h->out.to[1] + GUARD, row.length);
        replace_inputs(&h->random, &h->made, &row);
    }
    return true;
}

/* A module and its netlist, each cycle from the same row: the rows written are equal too. */
static bool compare_module_with_netlist(harness *h, uint32_t cycles)
{
    generated_row row, next;
    generate_row(&h->random, &h->made, ROW_FITS, &row);
    for (uint32_t i = 0; i < cycles; i++) {
        lend(h, &h->row, row.bytes, row.length);
        lend(h, &h->out, NULL, row.length);
        lend_file(h, &h->made);
        if (!compare_call(h, RUN_MODULE))
            return false;
        memcpy(next.bytes, h->out.to[1] + GUARD, row.length);
        lend(h, &h->out, NULL, row.length);
        lend_file(h, &h->translated);
        if (!compare_call(h, RUN_NETLIST))
            return false;
        if (h->answer[1].number != 0 || memcmp(next.bytes, h->out.to[1] + GUARD, row.length) != 0)
            return report(h, RUN_NETLIST, "the netlist runs otherwise than its module, or is refused");
        h->cycles += 2;
        memcpy(row.bytes, next.bytes, row.length);
        replace_inputs(&h->random, &h->made, &row);
    }
    lend_file(h, &h->made);
    return true;
}

static bool compare_runs(harness *h, enum call call)
{
    uint32_t cycles = 1 + random_below(&h->random, CYCLES_MOST);
    return compare_cycles(h, call, cycles) && compare_run(h, call, ROW_ONE_TOO_LARGE, ROW_FITS)
        && compare_run(h, call, ROW_WRONG_LENGTH, ROW_FITS) && compare_run(h, call, ROW_FITS, ROW_WRONG_LENGTH);
}

static bool compare_as_module(harness *h)
{
    if (!compare_call(h, CHECK) || !compare_translates(h))
        return false;
    h->translated.length = h->answer[1].number == 0 ? h->translated.length : 0;
    if (!compare_runs(h, RUN_MODULE))
        return false;
    return h->translated.length == 0 || compare_module_with_netlist(h, 1 + random_below(&h->random, CYCLES_MOST));
}

/* All calls that the file is meant for, and now and then the others. */
static bool compare_file(harness *h)
{
    bool is_netlist = file_kind_is_netlist(h->kind), all = random_below(&h->random, 10) == 0;
    lend_file(h, &h->made);
    if ((!is_netlist || all) && !compare_as_module(h))
        return false;
    return (!is_netlist && !all) || compare_runs(h, RUN_NETLIST);
}

/* ---- All files ---- */

static void print_numbers(const harness *h, FILE *to)
{
    fprintf(to, "answers by number:\n  %-12s", "");
    for (int number = 0; number < NUMBERS; number++)
        fprintf(to, "%9d", number);
    for (int call = 0; call < CALLS; call++) {
        fprintf(to, "\n  %-12s", call_names[call]);
        for (int number = 0; number < NUMBERS; number++)
            fprintf(to, "%9llu", (unsigned long long)h->met[call][number]);
    }
    fprintf(to, "\n");
    for (int call = 0; call < CALLS; call++)
        for (int number = 0; number < NUMBERS; number++)
            if ((numbers_of_call[call] >> number & 1) != 0 && h->met[call][number] == 0)
                fprintf(to, "NOT MET: %s giving %d\n", call_names[call], number);
}

static void print_counts(const harness *h, FILE *to, uint64_t count)
{
    uint64_t calls = 0;
    fprintf(to, "inputs by kind:\n");
    for (int kind = 0; kind < FILE_KINDS; kind++)
        fprintf(to, "  %-30s%9llu\n", file_kind_name((enum file_kind)kind), (unsigned long long)h->files[kind]);
    print_numbers(h, to);
    for (int call = 0; call < CALLS; call++)
        for (int number = 0; number < NUMBERS; number++)
            calls += h->met[call][number];
    fprintf(to, "%s and %s: %llu inputs, %llu calls of each, %llu cycles run: no difference\n", h->side[0]->name,
            h->side[1]->name, (unsigned long long)count, (unsigned long long)calls, (unsigned long long)h->cycles);
}

int compare_libraries(const library *tested, const library *reference, uint64_t count, uint64_t seed, FILE *differences,
                      FILE *counts)
{
    static harness h;
    memset(&h, 0, sizeof h);
    h.side[0] = tested;
    h.side[1] = reference;
    h.differences = differences;
    h.seed = seed;
    for (h.index = 0; h.index < count; h.index++) {
        h.random = random_from(seed, h.index);
        h.kind = random_file_kind(&h.random);
        generate_file(&h.random, h.kind, &h.made);
        h.files[h.kind]++;
        if (!compare_file(&h))
            return 1;
    }
    if (counts != NULL)
        print_counts(&h, counts, count);
    return 0;
}
