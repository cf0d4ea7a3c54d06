/* Compares two libraries that claim document 01's four calls, call by call and byte by byte. */
#ifndef HARNESS_H
#define HARNESS_H

#include "reference.h"

#include <stdint.h>
#include <stdio.h>

typedef struct {
    const char *name;
    reference_answer (*check)(const uint8_t *module, size_t module_len);
    reference_answer (*translate)(const uint8_t *module, size_t module_len, uint8_t *out, size_t out_len);
    reference_answer (*run_module)(const uint8_t *module, size_t module_len, const uint8_t *row, size_t row_len,
                                   uint8_t *next, size_t next_len);
    reference_answer (*run_netlist)(const uint8_t *netlist, size_t netlist_len, const uint8_t *row, size_t row_len,
                                    uint8_t *next, size_t next_len);
} library;

extern const library reference_library;

/* The library under test: proved.c gives the proved one, standin.c the reference once more, to try the programs without it. */
extern const library tested_library;

/* Compares the two on `count` generated files. Returns 0 if nothing differs; otherwise prints the first difference with the
   whole input and returns 1. `counts`, if not null, gets what was met. */
int compare_libraries(const library *tested, const library *reference, uint64_t count, uint64_t seed, FILE *differences,
                      FILE *counts);

#endif
