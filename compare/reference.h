/* An implementation of document 01 in plain C, written from the document and its readings alone, to compare the proved
   library with. Nothing here is proved. */
#ifndef REFERENCE_H
#define REFERENCE_H

#include <stddef.h>
#include <stdint.h>

typedef struct {
    uint32_t number; /* 0: accepted; otherwise the number of the refusal */
    uint32_t cells;  /* the cells of an accepted translation, otherwise 0 */
    uint64_t at;     /* the place of a refusal, or the length that a translation wrote, otherwise 0 */
} reference_answer;

reference_answer reference_check(const uint8_t *module, size_t module_len);
reference_answer reference_translate(const uint8_t *module, size_t module_len, uint8_t *out, size_t out_len);
reference_answer reference_run_module(const uint8_t *module, size_t module_len, const uint8_t *row, size_t row_len,
                                      uint8_t *next, size_t next_len);
reference_answer reference_run_netlist(const uint8_t *netlist, size_t netlist_len, const uint8_t *row, size_t row_len,
                                       uint8_t *next, size_t next_len);

#endif
