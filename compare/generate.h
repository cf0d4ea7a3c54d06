/* Files and rows to try the two libraries on, made from a seed: the same seed gives the same bytes on every machine. */
#ifndef GENERATE_H
#define GENERATE_H

#include <stdbool.h>
#include <stddef.h>
#include <stdint.h>

typedef struct {
    uint64_t state;
} random_source;

random_source random_from(uint64_t seed, uint64_t index);
uint32_t random_below(random_source *random, uint32_t bound); /* 0 to bound - 1 */
uint32_t random_word(random_source *random);

enum { FILE_BYTES_MOST = 66000, ROW_BYTES_ROOM = 4 * 400 };

typedef struct {
    uint8_t bytes[FILE_BYTES_MOST];
    size_t length;
} generated_file;

typedef struct {
    uint8_t bytes[ROW_BYTES_ROOM];
    size_t length;
} generated_row;

enum file_kind {
    MODULE_TINY, MODULE_SMALL, MODULE_MIDDLE, MODULE_LARGE, MODULE_16384_BYTES,
    MODULE_NESTED, MODULE_DEEP_EXPRESSION, MODULE_LONG_CASE, MODULE_SIZED_BY_EXPRESSIONS, MODULE_SIZED_BY_MUXES,
    MODULE_SIZED_BY_ITEMS, MODULE_SIZED_MIXED, MODULE_MANY_MUXES,
    MODULE_BREAKS_1, MODULE_BREAKS_2, MODULE_BREAKS_3, MODULE_BREAKS_4, MODULE_BREAKS_5, MODULE_BREAKS_6,
    MODULE_BREAKS_7, MODULE_BREAKS_8, MODULE_BREAKS_9, MODULE_BREAKS_10, MODULE_BREAKS_11, MODULE_BREAKS_SEVERAL,
    MODULE_BYTES_CHANGED, MODULE_FIELDS_MOVED,
    NETLIST_TRANSLATED, NETLIST_BYTES_CHANGED, NETLIST_FIELDS_MOVED, NETLIST_SMALL, NETLIST_LARGE,
    NETLIST_BREAKS_1, NETLIST_BREAKS_2, NETLIST_BREAKS_3, NETLIST_BREAKS_4, NETLIST_BREAKS_5, NETLIST_BREAKS_6,
    NETLIST_BREAKS_7, NETLIST_BREAKS_8, NETLIST_BREAKS_12, NETLIST_BREAKS_SEVERAL,
    FILE_KINDS
};

const char *file_kind_name(enum file_kind kind);
bool file_kind_is_netlist(enum file_kind kind);
enum file_kind random_file_kind(random_source *random); /* the quick kinds more often than the large ones */
void generate_file(random_source *random, enum file_kind kind, generated_file *file);

enum row_kind { ROW_FITS, ROW_ONE_TOO_LARGE, ROW_WRONG_LENGTH };

/* How many variables a file declares, as far as its first fields can be read. */
size_t count_variables(const generated_file *file);
void generate_row(random_source *random, const generated_file *file, enum row_kind kind, generated_row *row);
/* Other numbers for the inputs in a row that a run wrote, for the cycle after it. */
void replace_inputs(random_source *random, const generated_file *file, generated_row *row);

#endif
