/* cycle FILE NUMBER ..: runs one cycle from the row of these numbers, one for each variable in the order of declaration. FILE is a
 * module, which is run beside its netlist, or a netlist. scripts/c-program examples/course/cycle.c -- FILE NUMBER .. builds it. */
#include <stdio.h>
#include <stdlib.h>
#include <string.h>
#include "skodderym.h"

enum { MOST_BYTES = 32768, MOST_NUMBERS = 64, FIRST_NUMBER = 2 };

static uint32_t number_in(const uint8_t *row, int variable)
{
    const uint8_t *p = row + 4 * variable;
    return (uint32_t)p[0] << 24 | (uint32_t)p[1] << 16 | (uint32_t)p[2] << 8 | p[3];
}

static void put_number(uint8_t *row, int variable, uint32_t number)
{
    for (int i = 0; i < 4; i++)
        row[4 * variable + i] = (uint8_t)(number >> (24 - 8 * i));
}

/* The names stand in the declarations of an accepted file: tag 02 or 03, two bytes of length, 1 or 5 fixed bytes, the name. */
static void show_names(const uint8_t *file, size_t length)
{
    printf("%-8s", "");
    for (size_t at = 3; at < length && (file[at] == 0x02 || file[at] == 0x03);) {
        int size = file[at + 1] * 256 + file[at + 2];
        int fixed = file[at] == 0x02 ? 1 : 5;
        printf(" %9.*s", size - fixed, (const char *)file + at + 3 + fixed);
        at += 3 + (size_t)size;
    }
    printf("\n");
}

static void show_row(const char *title, const uint8_t *row, int count)
{
    printf("%-8s", title);
    for (int variable = 0; variable < count; variable++)
        printf(" %9u", number_in(row, variable));
    printf("\n");
}

static int refused(skodderym_answer answer)
{
    if (answer.number != 0)
        printf("refused %u at %llu\n", answer.number, (unsigned long long)answer.at);
    return answer.number != 0;
}

int main(int count, char **words)
{
    static uint8_t file[MOST_BYTES + 1], netlist[SKODDERYM_LARGEST_NETLIST];
    uint8_t row[4 * MOST_NUMBERS], by_module[4 * MOST_NUMBERS], by_netlist[4 * MOST_NUMBERS];
    int numbers = count - FIRST_NUMBER;
    FILE *from = count >= FIRST_NUMBER && numbers <= MOST_NUMBERS ? fopen(words[1], "rb") : NULL;
    if (from == NULL) {
        fprintf(stderr, "cycle: give a file and a number for each of its variables\n");
        return 2;
    }
    size_t length = fread(file, 1, sizeof file, from), netlist_length = length, size = 4 * (size_t)numbers;
    fclose(from);
    for (int i = 0; i < numbers; i++)
        put_number(row, i, (uint32_t)strtoul(words[FIRST_NUMBER + i], NULL, 10));

    int is_netlist = length > 0 && file[0] == 0x81;
    if (!is_netlist) {
        skodderym_answer answer = skodderym_translate(file, length, netlist, sizeof netlist);
        if (refused(answer) || refused(skodderym_run_module(file, length, row, size, by_module, size)))
            return 1;
        netlist_length = (size_t)answer.at;
    }
    if (refused(skodderym_run_netlist(is_netlist ? file : netlist, netlist_length, row, size, by_netlist, size)))
        return 1;
    show_names(file, length);
    show_row("before", row, numbers);
    if (!is_netlist)
        show_row("module", by_module, numbers);
    show_row("netlist", by_netlist, numbers);
    return 0;
}
