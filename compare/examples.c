/* examples [COUNT] [SEED]: prints modules that the reference accepts, one a line, for verilog.py: the file, then pairs of a
   row read and the row that the reference writes, all in hexadecimal. */
#include "generate.h"
#include "reference.h"

#include <stdio.h>
#include <stdlib.h>

enum { ROWS = 8 };

static void print_bytes(const uint8_t *bytes, size_t length)
{
    for (size_t i = 0; i < length; i++)
        printf("%02X", bytes[i]);
}

static void print_runs(random_source *random, const generated_file *file)
{
    static generated_row row, next;
    for (int i = 0; i < ROWS; i++) {
        generate_row(random, file, ROW_FITS, &row);
        reference_run_module(file->bytes, file->length, row.bytes, row.length, next.bytes, row.length);
        printf(" ");
        print_bytes(row.bytes, row.length);
        printf(" ");
        print_bytes(next.bytes, row.length);
    }
    printf("\n");
}

int main(int argc, char **argv)
{
    static const enum file_kind kinds[] = {MODULE_SMALL, MODULE_MIDDLE, MODULE_NESTED, MODULE_DEEP_EXPRESSION,
                                           MODULE_FIELDS_MOVED, MODULE_LONG_CASE};
    static generated_file file;
    uint64_t count = argc > 1 ? strtoull(argv[1], NULL, 10) : 200;
    uint64_t seed = argc > 2 ? strtoull(argv[2], NULL, 10) : 1;
    for (uint64_t i = 0; i < count; i++) {
        random_source random = random_from(seed, i);
        generate_file(&random, kinds[random_below(&random, 6)], &file);
        if (count_variables(&file) == 0 || reference_check(file.bytes, file.length).number != 0)
            continue;
        print_bytes(file.bytes, file.length);
        print_runs(&random, &file);
    }
    return 0;
}
