/* Skodderym: a proved compiler for a small Verilog subset. Four calls over byte slices; docs/FORMAT.md says what the bytes mean.
 *
 * What each call promises, for ANY bytes and lengths it is handed, is proved of the code behind it (docs/CONTRACTS.md). It is said
 * here in words. This header itself is written by hand: that it declares what the library exports is not proved.
 *
 * What a caller owes, since C cannot say it:
 *   - every pointer points to as many bytes as the length that follows it says; NULL is fine with length 0;
 *   - a slice that is written (out, next) overlaps no other slice of the same call;
 *   - stack: docs/GATE.md has how much each call takes at most.
 * The calls keep no state, allocate nothing and call nothing: they may be made from several threads at once.
 */
#ifndef SKODDERYM_H
#define SKODDERYM_H

#include <stddef.h>
#include <stdint.h>

#ifdef __cplusplus
extern "C" {
#endif

/* number 0: accepted. Else the refusal's number, 1 to 14, of docs/REFUSALS.md.
 * at: after a refusal its place, the offset of a field in the file; after an accepted translation the netlist's length; else 0.
 * cells: after an accepted translation how many cells the netlist has; else 0. */
typedef struct {
    uint32_t number;
    uint32_t cells;
    uint64_t at;
} skodderym_answer;

/* A buffer of this many bytes is never too short for skodderym_translate. */
#define SKODDERYM_LARGEST_NETLIST 25219

/* Is this the file of an accepted module? Refusals 1 to 11: the first number that holds anywhere, at the first field that breaks
 * its rule. Nothing is written. */
skodderym_answer skodderym_check(const uint8_t *module, size_t module_len);

/* Translates a module into a netlist. Refusals 1 to 11, then 12 (over 1,024 cells), then 13 (out is shorter than the netlist).
 * Accepted: the first `at` bytes of out are the netlist that the rules give, byte for byte; beyond them out is as it was.
 * Refused: out is as it was. */
skodderym_answer skodderym_translate(const uint8_t *module, size_t module_len, uint8_t *out, size_t out_len);

/* One clock cycle of a module. Refusals 1 to 11, then 14: row and next both need exactly four bytes for each variable, high byte
 * first, in the order of declaration, and each number of row has to fit its variable's width.
 * Accepted: next is the row after the cycle, inputs copied, registers new. Refused: next is as it was. */
skodderym_answer skodderym_run_module(const uint8_t *module, size_t module_len, const uint8_t *row, size_t row_len, uint8_t *next, size_t next_len);

/* One clock cycle of a netlist. Refusals 1 to 8 and 12, then 14, and the same of row and next.
 * For a netlist that skodderym_translate wrote, no cycle from a row that fits is ever refused, and next is what
 * skodderym_run_module gives for its module, in every cycle (docs/THEOREMS.md, demand 3). */
skodderym_answer skodderym_run_netlist(const uint8_t *netlist, size_t netlist_len, const uint8_t *row, size_t row_len, uint8_t *next, size_t next_len);

#ifdef __cplusplus
}
#endif

#endif
