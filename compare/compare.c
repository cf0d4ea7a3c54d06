/* compare [COUNT] [SEED]: compares the library under test with the reference on COUNT generated inputs (100,000) made from
   SEED (1). Prints what was met; at the first difference prints the input and both answers, and exits with 1. */
#include "harness.h"

#include <stdlib.h>

int main(int argc, char **argv)
{
    uint64_t count = argc > 1 ? strtoull(argv[1], NULL, 10) : 100000;
    uint64_t seed = argc > 2 ? strtoull(argv[2], NULL, 10) : 1;
    return compare_libraries(&tested_library, &reference_library, count, seed, stdout, stdout);
}
