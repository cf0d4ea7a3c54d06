/* stack: how much stack each of the four calls takes at most on generated files, nested in every form among them. Each call is made
   with the stack pointer at the top of a painted region; what it took reaches down to the lowest byte that is no longer paint. It
   counts the C function that makes the call, too. x86-64 only. */
#include "generate.h"
#include "skodderym.h"

#include <stdio.h>
#include <stdlib.h>
#include <string.h>

enum { REGION = 1 << 20, PAINT = 0xA5, OUT_ROOM = 32768, CALLS = 4 };

static const char *const call_names[CALLS] = {"check", "translate", "run_module", "run_netlist"};
static uint8_t region[REGION] __attribute__((aligned(64)));
static generated_file file;
static generated_row row;
static uint8_t out[OUT_ROOM], next_row[ROW_BYTES_ROOM];
static skodderym_answer answer;

static void call_check(void) { answer = skodderym_check(file.bytes, file.length); }
static void call_translate(void) { answer = skodderym_translate(file.bytes, file.length, out, OUT_ROOM); }
static void call_module(void) { answer = skodderym_run_module(file.bytes, file.length, row.bytes, row.length, next_row, row.length); }
static void call_netlist(void) { answer = skodderym_run_netlist(file.bytes, file.length, row.bytes, row.length, next_row, row.length); }

static void (*const calls[CALLS])(void) = {call_check, call_translate, call_module, call_netlist};

static size_t stack_taken(void (*call)(void))
{
    memset(region, PAINT, REGION);
    uint8_t *top = region + REGION - 64;
    __asm__ volatile("movq %%rsp, %%rbx\n\tmovq %0, %%rsp\n\tcall *%1\n\tmovq %%rbx, %%rsp"
                     :
                     : "r"(top), "r"(call)
                     : "rax", "rbx", "rcx", "rdx", "rsi", "rdi", "r8", "r9", "r10", "r11", "memory", "cc");
    size_t lowest = 0;
    while (lowest < REGION && region[lowest] == PAINT)
        lowest++;
    return (size_t)(top - (region + lowest));
}

int main(int argc, char **argv)
{
    unsigned long count = argc > 1 ? strtoul(argv[1], NULL, 10) : 4000;
    size_t most[CALLS] = {0};
    enum file_kind worst[CALLS] = {0};
    for (unsigned long index = 0; index < count; index++) {
        random_source random = random_from(1, index);
        enum file_kind kind = (enum file_kind)(index % FILE_KINDS);
        generate_file(&random, kind, &file);
        generate_row(&random, &file, ROW_FITS, &row);
        for (int c = 0; c < CALLS; c++) {
            if (index == 0)
                calls[c](); /* the dynamic linker finds what the call calls, on the other stack */
            size_t taken = stack_taken(calls[c]);
            if (taken > most[c]) {
                most[c] = taken;
                worst[c] = kind;
            }
        }
    }
    for (int c = 0; c < CALLS; c++)
        printf("%-12s %7zu bytes at most, on a file of the kind: %s\n", call_names[c], most[c], file_kind_name(worst[c]));
    return 0;
}
