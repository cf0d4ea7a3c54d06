/* A placement tool in small: it checks a module, translates it, runs the module and its netlist side by side for ten cycles from
 * the registers' initial values, and shows a refusal. scripts/c-program builds and runs it. */
#include <stdio.h>
#include <string.h>
#include "skodderym.h"

/* Input `en` (1 bit), register `n` (4 bits, at first 0); if (en) n <= n + 1. */
static const uint8_t counter[] = {
    0x01, 0x00, 0x32,
    0x02, 0x00, 0x03, 0x01, 'e', 'n',
    0x03, 0x00, 0x06, 0x04, 0x00, 0x00, 0x00, 0x00, 'n',
    0x04, 0x00, 0x20, 0x14, 0x00, 0x1D, 0x21, 0x00, 0x01, 0x00,
    0x17, 0x00, 0x13, 0x11, 0x00, 0x10, 0x01, 0x28, 0x00, 0x0C, 0x21, 0x00, 0x01, 0x01,
    0x20, 0x00, 0x05, 0x04, 0x00, 0x00, 0x00, 0x01, 0x17, 0x00, 0x00,
};

enum { VARIABLES = 2, EN = 0, N = 1 };

static void put_number(uint8_t *row, int variable, uint32_t number)
{
    row[4 * variable] = (uint8_t)(number >> 24);
    row[4 * variable + 1] = (uint8_t)(number >> 16);
    row[4 * variable + 2] = (uint8_t)(number >> 8);
    row[4 * variable + 3] = (uint8_t)number;
}

static uint32_t number_in(const uint8_t *row, int variable)
{
    const uint8_t *p = row + 4 * variable;
    return (uint32_t)p[0] << 24 | (uint32_t)p[1] << 16 | (uint32_t)p[2] << 8 | p[3];
}

/* The first row is the caller's: inputs as they are now, registers at their initial values. A declaration's field is a tag (02 an
 * input, 03 a register), two bytes of length, a width byte and, for a register, four bytes of its initial value. */
static void initial_row(const uint8_t *module, size_t length, uint8_t *row)
{
    size_t at = 3;
    for (int variable = 0; at < length && (module[at] == 0x02 || module[at] == 0x03); variable++) {
        if (module[at] == 0x03)
            memcpy(row + 4 * variable, module + at + 4, 4);
        else
            put_number(row, variable, 0);
        at += 3 + (size_t)module[at + 1] * 256 + module[at + 2];
    }
}

/* One cycle of both, each from its own row; 0 if both went on. */
static int cycle(const uint8_t *netlist, size_t length, uint8_t *module_row, uint8_t *netlist_row)
{
    uint8_t next[4 * VARIABLES];
    skodderym_answer answer = skodderym_run_module(counter, sizeof counter, module_row, 4 * VARIABLES, next, sizeof next);
    if (answer.number != 0)
        return 1;
    memcpy(module_row, next, sizeof next);
    answer = skodderym_run_netlist(netlist, length, netlist_row, 4 * VARIABLES, next, sizeof next);
    if (answer.number != 0)
        return 1;
    memcpy(netlist_row, next, sizeof next);
    return 0;
}

static int ten_cycles(const uint8_t *netlist, size_t length)
{
    uint8_t module_row[4 * VARIABLES], netlist_row[4 * VARIABLES];
    initial_row(counter, sizeof counter, module_row);
    memcpy(netlist_row, module_row, sizeof module_row);
    for (int time = 1; time <= 10; time++) {
        uint32_t enable = time % 4 != 0;
        put_number(module_row, EN, enable);
        put_number(netlist_row, EN, enable);
        if (cycle(netlist, length, module_row, netlist_row) != 0)
            return 1;
        printf("cycle %2d: en %u, n %2u in the module, %2u in the netlist\n", time, enable, number_in(module_row, N), number_in(netlist_row, N));
        if (memcmp(module_row, netlist_row, sizeof module_row) != 0)
            return 1;
    }
    return 0;
}

static void show_refusal(void)
{
    uint8_t broken[sizeof counter];
    memcpy(broken, counter, sizeof counter);
    broken[34] = 0x00; /* the assignment's target: now the input */
    skodderym_answer answer = skodderym_check(broken, sizeof broken);
    printf("with the input as target: refused %u at %llu\n", answer.number, (unsigned long long)answer.at);
}

int main(void)
{
    static uint8_t netlist[SKODDERYM_LARGEST_NETLIST];
    skodderym_answer answer = skodderym_check(counter, sizeof counter);
    if (answer.number != 0)
        return 1;
    answer = skodderym_translate(counter, sizeof counter, netlist, sizeof netlist);
    if (answer.number != 0)
        return 1;
    printf("a netlist of %llu bytes and %u cells\n", (unsigned long long)answer.at, answer.cells);
    if (ten_cycles(netlist, (size_t)answer.at) != 0)
        return 1;
    show_refusal();
    return 0;
}
