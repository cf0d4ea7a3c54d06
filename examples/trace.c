/* trace MODULE.bin INPUTS.txt: runs a module and its netlist side by side and prints a table with a line for each cycle: the
 * inputs in that cycle, the registers after it in the module and in the netlist, and whether the two rows are the same. Each
 * run goes on from its own previous row. The first row has the registers' initial values, and 0 for every input.
 *
 * A line of INPUTS.txt is a cycle: the inputs' values in the order of declaration, decimal; `-` if the module has no inputs.
 * Two slashes begin a comment; empty lines do not count. Whether a value fits its input is for the calls to say.
 *
 * It exits 1 if a call refuses, after the line `refused N at P`, or if a row differs; 2 if a file cannot be read or a line is
 * not as said here.
 *
 *     scripts/c-program examples/trace.c -- examples/counter/counter.bin examples/counter/inputs.txt
 */
#include <errno.h>
#include <stdio.h>
#include <stdlib.h>
#include <string.h>
#include "skodderym.h"

enum { LONGEST_MODULE = 16384, MOST_VARIABLES = 64, LONGEST_NAME = 24, LONGEST_LINE = 1024 };
enum { INPUT = 0x02, REGISTER = 0x03 };
enum { AGREED = 0, NOT_AGREED = 1, NOT_READ = 2 };
static const char BLANKS[] = " \t\r\n";

typedef struct {
    int tag; /* INPUT or REGISTER */
    int columns;
    char name[LONGEST_NAME + 1];
} variable;

typedef struct {
    uint8_t module[LONGEST_MODULE + 1]; /* a byte more: a file that fills it is refused 1, as the longer file is */
    size_t module_length;
    uint8_t netlist[SKODDERYM_LARGEST_NETLIST];
    size_t netlist_length;
    variable variables[MOST_VARIABLES];
    int count;
    size_t row_length;
    uint8_t module_row[4 * MOST_VARIABLES];
    uint8_t netlist_row[4 * MOST_VARIABLES];
} design;

static uint32_t number_in(const uint8_t *row, int place)
{
    const uint8_t *p = row + 4 * place;
    return (uint32_t)p[0] << 24 | (uint32_t)p[1] << 16 | (uint32_t)p[2] << 8 | p[3];
}

static void put_number(uint8_t *row, int place, uint32_t number)
{
    for (int i = 0; i < 4; i++)
        row[4 * place + i] = (uint8_t)(number >> (24 - 8 * i));
}

static int refused(skodderym_answer answer)
{
    printf("refused %u at %llu\n", answer.number, (unsigned long long)answer.at);
    return NOT_AGREED;
}

static int not_read(const char *path)
{
    fprintf(stderr, "%s: %s\n", path, strerror(errno));
    return NOT_READ;
}

static int read_module(const char *path, design *d)
{
    FILE *file = fopen(path, "rb");
    if (file == NULL)
        return not_read(path);
    d->module_length = fread(d->module, 1, sizeof d->module, file);
    if (ferror(file)) {
        not_read(path);
        fclose(file);
        return NOT_READ;
    }
    fclose(file);
    return AGREED;
}

/* How many columns a variable takes: its name's, or those of the greatest number of its width. */
static int columns(const variable *v, int width)
{
    int digits = snprintf(NULL, 0, "%u", UINT32_MAX >> (32 - width));
    int letters = (int)strlen(v->name);
    return letters > digits ? letters : digits;
}

/* The names and the first row, from the declarations of an accepted module. A declaration's field is a tag, two bytes of
 * length, a width byte, for a register four bytes of its initial value, and the name. */
static void read_declarations(design *d)
{
    size_t at = 3;
    while (at < d->module_length && (d->module[at] == INPUT || d->module[at] == REGISTER)) {
        const uint8_t *field = d->module + at;
        size_t length = (size_t)field[1] * 256 + field[2];
        size_t before_name = field[0] == REGISTER ? 5 : 1;
        variable *v = &d->variables[d->count];
        v->tag = field[0];
        memcpy(v->name, field + 3 + before_name, length - before_name);
        v->columns = columns(v, field[3]);
        put_number(d->module_row, d->count, field[0] == REGISTER ? number_in(field + 4, 0) : 0);
        d->count++;
        at += 3 + length;
    }
    d->row_length = 4 * (size_t)d->count;
    memcpy(d->netlist_row, d->module_row, d->row_length);
}

/* The columns of a group's variables, with a blank before each. */
static int variables_columns(const design *d, int tag)
{
    int all = 0;
    for (int i = 0; i < d->count; i++)
        if (d->variables[i].tag == tag)
            all += 1 + d->variables[i].columns;
    return all;
}

/* The columns of a group: its variables' or its title's. */
static int group_columns(const design *d, int tag, const char *title)
{
    int all = variables_columns(d, tag), least = 1 + (int)strlen(title);
    return all > least ? all : least;
}

/* One group of a line, at the right of its columns: the names, or the numbers of a row. */
static void print_group(const design *d, int tag, const char *title, const uint8_t *row)
{
    printf(" |%*s", group_columns(d, tag, title) - variables_columns(d, tag), "");
    for (int i = 0; i < d->count; i++) {
        const variable *v = &d->variables[i];
        if (v->tag != tag)
            continue;
        if (row == NULL)
            printf(" %*s", v->columns, v->name);
        else
            printf(" %*u", v->columns, number_in(row, i));
    }
}

static void print_line(const design *d, const char *cycle, const uint8_t *module_row, const uint8_t *netlist_row,
                       const char *agree)
{
    printf("%5s", cycle);
    print_group(d, INPUT, "inputs", module_row);
    print_group(d, REGISTER, "module", module_row);
    print_group(d, REGISTER, "netlist", netlist_row);
    printf(" | %s\n", agree);
}

static void print_heading(const design *d)
{
    printf("%5s", "");
    printf(" | %-*s", group_columns(d, INPUT, "inputs") - 1, "inputs");
    printf(" | %-*s", group_columns(d, REGISTER, "module") - 1, "module");
    printf(" | %-*s |\n", group_columns(d, REGISTER, "netlist") - 1, "netlist");
    print_line(d, "cycle", NULL, NULL, "agree");
}

/* The rows as they are now; AGREED if they are the same, inputs included. */
static int print_rows(const design *d, const char *cycle)
{
    int same = memcmp(d->module_row, d->netlist_row, d->row_length) == 0;
    print_line(d, cycle, d->module_row, d->netlist_row, same ? "yes" : "no");
    return same ? AGREED : NOT_AGREED;
}

/* Puts a line's values into both rows; 0 if they are not one number for each input. */
static int take_inputs(design *d, char *line)
{
    char *word = strtok(line, BLANKS);
    if (word != NULL && strcmp(word, "-") == 0 && (word = strtok(NULL, BLANKS)) != NULL)
        return 0;
    for (int i = 0; i < d->count; i++) {
        if (d->variables[i].tag != INPUT)
            continue;
        if (word == NULL || word[strspn(word, "0123456789")] != '\0')
            return 0;
        unsigned long long number = strtoull(word, NULL, 10);
        if (number > UINT32_MAX)
            return 0;
        put_number(d->module_row, i, (uint32_t)number);
        put_number(d->netlist_row, i, (uint32_t)number);
        word = strtok(NULL, BLANKS);
    }
    return word == NULL;
}

/* One cycle of both, each from its own row. */
static skodderym_answer run_both(design *d)
{
    uint8_t module_next[sizeof d->module_row], netlist_next[sizeof d->netlist_row];
    size_t length = d->row_length;
    skodderym_answer answer = skodderym_run_module(d->module, d->module_length, d->module_row, length, module_next, length);
    if (answer.number != 0)
        return answer;
    answer = skodderym_run_netlist(d->netlist, d->netlist_length, d->netlist_row, length, netlist_next, length);
    if (answer.number != 0)
        return answer;
    memcpy(d->module_row, module_next, length);
    memcpy(d->netlist_row, netlist_next, length);
    return answer;
}

/* The line without its comment; 0 if nothing is left of it. */
static int cut_comment(char *line)
{
    char *comment = strstr(line, "//");
    if (comment != NULL)
        *comment = '\0';
    return line[strspn(line, BLANKS)] != '\0';
}

/* Every line of the list is a cycle. */
static int run_lines(design *d, FILE *file, const char *path)
{
    char line[LONGEST_LINE], cycle[16];
    int status = AGREED, cycles = 0;
    for (int number = 1; fgets(line, sizeof line, file) != NULL; number++) {
        int whole = strchr(line, '\n') != NULL || feof(file);
        if (whole && !cut_comment(line))
            continue;
        if (!whole || !take_inputs(d, line)) {
            fprintf(stderr, "%s:%d: expected a number for each input\n", path, number);
            return NOT_READ;
        }
        skodderym_answer answer = run_both(d);
        if (answer.number != 0)
            return refused(answer);
        snprintf(cycle, sizeof cycle, "%d", ++cycles);
        if (print_rows(d, cycle) != AGREED)
            status = NOT_AGREED;
    }
    return ferror(file) ? not_read(path) : status;
}

static int run_file(design *d, const char *path)
{
    FILE *file = fopen(path, "r");
    if (file == NULL)
        return not_read(path);
    print_heading(d);
    print_rows(d, "start");
    int status = run_lines(d, file, path);
    fclose(file);
    return status;
}

static int trace(design *d, const char *module, const char *inputs)
{
    if (read_module(module, d) != AGREED)
        return NOT_READ;
    skodderym_answer answer = skodderym_translate(d->module, d->module_length, d->netlist, sizeof d->netlist);
    if (answer.number != 0)
        return refused(answer);
    d->netlist_length = (size_t)answer.at;
    read_declarations(d);
    return run_file(d, inputs);
}

int main(int argc, char **argv)
{
    static design d;
    if (argc != 3) {
        fprintf(stderr, "usage: trace MODULE.bin INPUTS.txt\n");
        return NOT_READ;
    }
    int status = trace(&d, argv[1], argv[2]);
    if (fflush(stdout) != 0)
        return not_read("standard output");
    return status;
}
