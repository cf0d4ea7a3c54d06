/* The proved library as the library under test. */
#include "harness.h"
#include "skodderym.h"

static reference_answer as_answer(skodderym_answer answer)
{
    return (reference_answer){answer.number, answer.cells, answer.at};
}

static reference_answer proved_check(const uint8_t *module, size_t module_len)
{
    return as_answer(skodderym_check(module, module_len));
}

static reference_answer proved_translate(const uint8_t *module, size_t module_len, uint8_t *out, size_t out_len)
{
    return as_answer(skodderym_translate(module, module_len, out, out_len));
}

static reference_answer proved_run_module(const uint8_t *module, size_t module_len, const uint8_t *row, size_t row_len,
                                          uint8_t *next, size_t next_len)
{
    return as_answer(skodderym_run_module(module, module_len, row, row_len, next, next_len));
}

static reference_answer proved_run_netlist(const uint8_t *netlist, size_t netlist_len, const uint8_t *row, size_t row_len,
                                           uint8_t *next, size_t next_len)
{
    return as_answer(skodderym_run_netlist(netlist, netlist_len, row, row_len, next, next_len));
}

const library tested_library = {"proved", proved_check, proved_translate, proved_run_module, proved_run_netlist};
