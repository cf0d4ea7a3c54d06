/* bench: times each call of the library under test and of the reference on a fixed set of files, and prints the ratios.
   Each time is the best of several repetitions. */
#define _POSIX_C_SOURCE 200809L
#include "harness.h"

#include <stdbool.h>
#include <string.h>
#include <time.h>

enum { REPETITIONS = 9, LEAST_NANOSECONDS = 2000000, FILE_ROOM = 16384, NETLIST_ROOM = 32768, ROW_ROOM = 4 * 64 };

typedef struct {
    const char *name;
    uint8_t bytes[NETLIST_ROOM];
    size_t length, variables;
} bench_file;

/* ---- Writing the files ---- */

static void put(bench_file *f, unsigned byte)
{
    f->bytes[f->length++] = (uint8_t)byte;
}

static size_t open_field(bench_file *f, unsigned tag)
{
    put(f, tag);
    put(f, 0);
    put(f, 0);
    return f->length - 3;
}

static void close_field(bench_file *f, size_t start)
{
    size_t length = f->length - start - 3;
    f->bytes[start + 1] = (uint8_t)(length >> 8);
    f->bytes[start + 2] = (uint8_t)length;
}

static void declare(bench_file *f, unsigned tag, unsigned width)
{
    size_t start = open_field(f, tag);
    put(f, width);
    for (int i = 0; i < (tag == 0x03 ? 4 : 0); i++)
        put(f, 0);
    put(f, 'a' + (unsigned)f->variables % 8);
    put(f, 'a' + (unsigned)f->variables / 8);
    close_field(f, start);
    f->variables++;
}

/* Inputs 0 of one bit and 1 of 8 bits, then registers of 8 bits; one process, left open. */
static size_t start_file(bench_file *f, const char *name, unsigned registers)
{
    f->name = name;
    f->length = f->variables = 0;
    open_field(f, 0x01);
    declare(f, 0x02, 1);
    declare(f, 0x02, 8);
    for (unsigned i = 0; i < registers; i++)
        declare(f, 0x03, 8);
    return open_field(f, 0x04);
}

static void end_file(bench_file *f, size_t process)
{
    close_field(f, process);
    close_field(f, 0);
}

static void put_read(bench_file *f, unsigned variable)
{
    size_t start = open_field(f, 0x21);
    put(f, variable);
    close_field(f, start);
}

/* variable = ~..~source */
static void put_assignment(bench_file *f, unsigned variable, unsigned source, unsigned nots)
{
    size_t start = open_field(f, 0x10), inner[28];
    put(f, variable);
    for (unsigned i = 0; i < nots; i++)
        inner[i] = open_field(f, 0x24);
    put_read(f, source);
    for (unsigned i = nots; i-- > 0;)
        close_field(f, inner[i]);
    close_field(f, start);
}

/* So many ifs on input 0, one in the other, around assignments to so many registers. */
static void put_nested_ifs(bench_file *f, unsigned ifs, unsigned registers)
{
    size_t starts[15], blocks[15];
    for (unsigned i = 0; i < ifs; i++) {
        starts[i] = open_field(f, 0x14);
        put_read(f, 0);
        blocks[i] = open_field(f, 0x17);
    }
    for (unsigned i = 0; i < registers; i++)
        put_assignment(f, 2 + i, 1, 0);
    for (unsigned i = ifs; i-- > 0;) {
        close_field(f, blocks[i]);
        close_field(f, open_field(f, 0x17));
        close_field(f, starts[i]);
    }
}

/* A case on input 1 with so many items that a row of zeros does not take; the default assigns so many registers. */
static void put_case(bench_file *f, unsigned items, unsigned registers)
{
    size_t start = open_field(f, 0x15);
    put_read(f, 1);
    for (unsigned i = 0; i < items; i++) {
        static const uint8_t item[] = {0x16, 0, 11, 0x20, 0, 5, 8, 0, 0, 0, 255, 0x17, 0, 0};
        memcpy(f->bytes + f->length, item, sizeof item);
        f->length += sizeof item;
    }
    size_t block = open_field(f, 0x17);
    for (unsigned i = 0; i < registers; i++)
        put_assignment(f, 2 + i, 1, 0);
    close_field(f, block);
    close_field(f, start);
}

/* ---- The files ---- */

static void write_smallest(bench_file *f)
{
    static const uint8_t bytes[] = {1, 0, 0};
    f->name = "smallest module";
    f->length = sizeof bytes;
    f->variables = 0;
    memcpy(f->bytes, bytes, sizeof bytes);
}

static void write_counter(bench_file *f)
{
    static const uint8_t bytes[] = {0x01, 0x00, 0x32, 0x02, 0x00, 0x03, 0x01, 0x65, 0x6E, 0x03, 0x00, 0x06, 0x04, 0x00,
                                    0x00, 0x00, 0x00, 0x6E, 0x04, 0x00, 0x20, 0x14, 0x00, 0x1D, 0x21, 0x00, 0x01, 0x00,
                                    0x17, 0x00, 0x13, 0x11, 0x00, 0x10, 0x01, 0x28, 0x00, 0x0C, 0x21, 0x00, 0x01, 0x01,
                                    0x20, 0x00, 0x05, 0x04, 0x00, 0x00, 0x00, 0x01, 0x17, 0x00, 0x00};
    f->name = "the counter of 01";
    f->length = sizeof bytes;
    f->variables = 2;
    memcpy(f->bytes, bytes, sizeof bytes);
}

static void write_typical(bench_file *f)
{
    size_t process = start_file(f, "typical, 1,178 bytes", 8);
    for (unsigned i = 0; i < 4; i++) {
        put_nested_ifs(f, 3, 4);
        put_assignment(f, 2 + i, 9 - i, 2);
        put_case(f, 10, 3);
        put_assignment(f, 6 + i, 2 + i, 1);
    }
    end_file(f, process);
}

static void write_smallest_statements(bench_file *f)
{
    size_t process = start_file(f, "smallest statements, full", 62);
    for (unsigned i = 0; f->length + 8 <= FILE_ROOM; i++)
        put_assignment(f, 2 + i % 62, 1, 0);
    end_file(f, process);
}

static void write_nested_ifs(bench_file *f)
{
    size_t process = start_file(f, "15 nested ifs, full", 1);
    while (f->length + 15 * 13 <= FILE_ROOM)
        put_nested_ifs(f, 15, 0);
    end_file(f, process);
}

static void write_long_case(bench_file *f)
{
    size_t process = start_file(f, "case of 1,000 items", 1);
    put_case(f, 1000, 0);
    end_file(f, process);
}

static void write_longer_case(bench_file *f)
{
    size_t process = start_file(f, "case of 1,100 items", 1);
    put_case(f, 1100, 1);
    end_file(f, process);
}

static void write_deep_expressions(bench_file *f)
{
    size_t process = start_file(f, "expressions 28 deep, full", 62);
    for (unsigned i = 0; f->length + 8 + 28 * 3 <= FILE_ROOM; i++)
        put_assignment(f, 2 + i % 62, 1, 28);
    end_file(f, process);
}

static void write_1024_nots(bench_file *f)
{
    size_t process = start_file(f, "1,024 cells by expressions", 62);
    for (unsigned i = 0; i < 1024 / 16; i++)
        put_assignment(f, 2 + i % 62, 1, 16);
    end_file(f, process);
}

static void write_1024_muxes(bench_file *f)
{
    size_t process = start_file(f, "1,024 cells by muxes", 32);
    for (unsigned i = 0; i < 32; i++)
        put_nested_ifs(f, 1, 32);
    end_file(f, process);
}

static void write_muxes_of_ifs(bench_file *f)
{
    size_t process = start_file(f, "15,624 muxes, 14 nested ifs", 62);
    for (unsigned i = 0; i < 18; i++)
        put_nested_ifs(f, 14, 62);
    end_file(f, process);
}

static void write_muxes_of_case(bench_file *f)
{
    size_t process = start_file(f, "63,000 cells, case of 1,000", 62);
    put_case(f, 1000, 62);
    end_file(f, process);
}

typedef void write_bench_file(bench_file *f);

static write_bench_file *const all_files[] = {
    write_smallest, write_counter, write_typical, write_smallest_statements, write_nested_ifs, write_long_case,
    write_longer_case, write_deep_expressions, write_1024_nots, write_1024_muxes, write_muxes_of_ifs, write_muxes_of_case,
};

/* The most cells that a netlist file holds, which is refused 12. */
static void write_largest_netlist(bench_file *f)
{
    static const uint8_t cell[] = {0x30, 0, 7, 1, 1, 1, 0, 0, 0, 0};
    f->name = "netlist of 3,276 cells";
    f->length = f->variables = 0;
    open_field(f, 0x81);
    size_t start = open_field(f, 0x02);
    put(f, 1);
    put(f, 'a');
    close_field(f, start);
    f->variables = 1;
    for (unsigned i = 0; i < 3276; i++) {
        memcpy(f->bytes + f->length, cell, sizeof cell);
        f->length += sizeof cell;
    }
    close_field(f, 0);
}

/* ---- Timing ---- */

enum call { CHECK, TRANSLATE, RUN_MODULE, RUN_NETLIST };

static reference_answer make_call(const library *by, enum call call, const bench_file *f)
{
    static const uint8_t row[ROW_ROOM];
    static uint8_t next[ROW_ROOM], out[NETLIST_ROOM];
    size_t row_length = 4 * f->variables;
    switch (call) {
    case CHECK:
        return by->check(f->bytes, f->length);
    case TRANSLATE:
        return by->translate(f->bytes, f->length, out, sizeof out);
    case RUN_MODULE:
        return by->run_module(f->bytes, f->length, row, row_length, next, row_length);
    default:
        return by->run_netlist(f->bytes, f->length, row, row_length, next, row_length);
    }
}

static double nanoseconds(void)
{
    struct timespec now;
    clock_gettime(CLOCK_MONOTONIC, &now);
    return 1e9 * (double)now.tv_sec + (double)now.tv_nsec;
}

/* The time of `times` calls. */
static double time_of(const library *by, enum call call, const bench_file *f, unsigned times)
{
    double start = nanoseconds();
    for (unsigned i = 0; i < times; i++)
        make_call(by, call, f);
    return nanoseconds() - start;
}

/* The best time of one call, each measured over enough calls to be seen. */
static double best_time(const library *by, enum call call, const bench_file *f)
{
    unsigned times = 1;
    while (time_of(by, call, f, times) < LEAST_NANOSECONDS)
        times *= 2;
    double best = time_of(by, call, f, times);
    for (int i = 1; i < REPETITIONS; i++) {
        double now = time_of(by, call, f, times);
        if (now < best)
            best = now;
    }
    return best / times;
}

static void time_call(const char *call_name, enum call call, const bench_file *f)
{
    reference_answer answer = make_call(&reference_library, call, f), tested = make_call(&tested_library, call, f);
    double by_reference = best_time(&reference_library, call, f), by_tested = best_time(&tested_library, call, f);
    bool same = answer.number == tested.number && answer.cells == tested.cells && answer.at == tested.at;
    printf("%-30s%7zu  %-12s%3lu%s%12.2f%12.2f%9.2f\n", f->name, f->length, call_name, (unsigned long)answer.number,
           same ? " " : "!", by_reference / 1e3, by_tested / 1e3, by_tested / by_reference);
}

int main(void)
{
    static bench_file f, netlist;
    printf("%-30s%7s  %-12s%3s %12s%12s%9s\n", "file", "bytes", "call", "no.", "reference/us", tested_library.name,
           "ratio");
    for (size_t i = 0; i < sizeof all_files / sizeof all_files[0]; i++) {
        all_files[i](&f);
        time_call("check", CHECK, &f);
        time_call("translate", TRANSLATE, &f);
        time_call("run_module", RUN_MODULE, &f);
        netlist.name = f.name;
        netlist.variables = f.variables;
        reference_answer answer = reference_translate(f.bytes, f.length, netlist.bytes, sizeof netlist.bytes);
        netlist.length = (size_t)answer.at;
        if (answer.number == 0)
            time_call("run_netlist", RUN_NETLIST, &netlist);
    }
    write_largest_netlist(&netlist);
    time_call("run_netlist", RUN_NETLIST, &netlist);
    return 0;
}
