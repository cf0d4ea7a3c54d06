/* selftest [COUNT] [SEED]: tries the reference on document 01's own examples and on places that the readings name, then the
   comparison itself: the reference against itself with every slice in memory of its exact size (under a sanitizer, a byte
   read or written outside is seen), and against libraries with one fault each, which the comparison must find. */
#include "generate.h"
#include "harness.h"

#include <stdbool.h>
#include <stdlib.h>
#include <string.h>

static int failures;

static void expect(bool holds, const char *what)
{
    if (!holds) {
        failures++;
        printf("FAILED: %s\n", what);
    }
}

/* ---- Files written as text ----

   A byte is two hexadecimal digits; TAG( .. ) is a field whose length is counted; .name. stands for the bytes of a name;
   # marks the place that a refusal should give. */

typedef struct {
    uint8_t bytes[FILE_BYTES_MOST];
    size_t length;
    uint64_t place;
} written_file;

static void write_file(const char *text, written_file *file)
{
    size_t open[40], depth = 0;
    file->length = 0;
    file->place = 0;
    for (const char *c = text; *c != 0; c++) {
        if (*c == '#') {
            file->place = file->length;
        } else if (*c == '(') {
            open[depth++] = file->length;
            file->length += 2;
        } else if (*c == ')') {
            size_t start = open[--depth], length = file->length - start - 2;
            file->bytes[start] = (uint8_t)(length >> 8);
            file->bytes[start + 1] = (uint8_t)length;
        } else if (*c == '.') {
            while (*++c != '.')
                file->bytes[file->length++] = (uint8_t)*c;
        } else if (*c != ' ') {
            char digits[3] = {c[0], c[1], 0};
            file->bytes[file->length++] = (uint8_t)strtoul(digits, NULL, 16);
            c++;
        }
    }
}

typedef struct {
    uint32_t number; /* the refusal expected, or 0 */
    const char *text;
} refusal_case;

#define NOT_1(x) "24(" x ")"
#define NOT_4(x) NOT_1(NOT_1(NOT_1(NOT_1(x))))
#define NOT_28(x) NOT_4(NOT_4(NOT_4(NOT_4(NOT_4(NOT_4(NOT_4(x)))))))
#define REGISTER_A "03(04 00000000 .a.)"
#define C_AND_A "02(01 .c.)03(04 00000000 .a.)"
#define A_GETS_1 "11(01 20(04 00000001))"
#define ONE_INPUT "02(01 .c.)"

static const refusal_case modules[] = {
    /* Either side of each line. */
    {0, "01()"}, {1, ""}, {1, "01 00 01"}, {1, "01"}, {1, "01 00"}, {1, "01 00 00 00"}, {2, "#02()"}, {2, "#81()"},
    {0, "01(02(08 .v.)02(03 .i.)03(01 00000000 .x.)04(10(02 23(00 21(01)))))"},
    {8, "01(02(08 .v.)02(04 .i.)03(01 00000000 .x.)04(10(02 #23(00 21(01)))))"},
    {0, "01(02(06 .v.)02(02 .i.)03(01 00000000 .x.)04(10(02 23(00 21(01)))))"},
    {8, "01(02(06 .v.)02(03 .i.)03(01 00000000 .x.)04(10(02 #23(00 21(01)))))"},
    {8, "01(02(01 .v.)02(01 .i.)03(01 00000000 .x.)04(10(02 #23(00 21(01)))))"},
    {8, "01(02(01 .v.)02(01 .i.)03(01 00000000 .x.)04(10(02 #23(00 20(01 00000000)))))"},
    {8, "01(02(20 .v.)02(20 .i.)03(01 00000000 .x.)04(10(02 #23(00 21(01)))))"},
    {0, "01(02(20 .v.)02(05 .i.)03(01 00000000 .x.)04(10(02 23(00 21(01)))))"},
    {0, "01(03(04 0000000F .a.))"}, {3, "01(#03(04 00000010 .a.))"},
    {0, "01(" REGISTER_A "04(10(00 " NOT_28("21(00)") ")))"},
    {2, "01(" REGISTER_A "04(10(00 " NOT_28("24(#21(00))") ")))"},
    /* Errors the course keeps meeting: the flag held by both kinds. */
    {9, "01(" C_AND_A "04(10(01 20(04 00000001)) 14(21(00) 17(#11(01 20(04 00000002))) 17())))"},
    /* Refusal 2. */
    {2, "01(" ONE_INPUT "04(14(#24() 17())))"},                            /* the inner field's before the missing else */
    {2, "01(" ONE_INPUT "04(#14(21(00) 17())))"},                          /* no else */
    {2, "01(" ONE_INPUT "04(#14(21(00) 17() 17() 17())))"},                /* bytes left over, whatever they look like */
    {2, "01(" ONE_INPUT "04(#14(21(00) 17() 17() 00)))"},
    {2, "01(" ONE_INPUT "04(14(21(00) 17() #17 00)))"},                    /* a header cut short */
    {2, "01(" ONE_INPUT "04(14(21(00) 17() #17)))"},
    {2, "01(" ONE_INPUT "04(14(21(00) 17() #17 00 01)))"},                 /* a payload beyond */
    {2, "01(" ONE_INPUT "04(14(21(00) 17(#17()) 17())))"},                 /* a block is no statement */
    {2, "01(" ONE_INPUT "04(14(21(00) 17(#21(00)) 17())))"},
    {2, "01(" ONE_INPUT "04(#15(21(00))))"},                               /* no default */
    {0, "01(" ONE_INPUT "04(15(21(00) 17())))"},                           /* a case without items */
    {2, "01(" ONE_INPUT "04(#15(21(00) 17() 17())))"},                     /* a second default */
    {2, "01(" ONE_INPUT "04(#15(21(00) 17() 16(20(01 00000000) 17()))))"}, /* an item after the default */
    {2, "01(" ONE_INPUT "04(15(21(00) 16(#21(00) 17()) 17())))"},          /* an item needs a constant */
    {2, "01(" ONE_INPUT "04(15(21(00) #16(20(01 00000000)) 17())))"},
    {2, "01(" ONE_INPUT "04(15(21(00) #16() 17())))"},
    {2, "01(" ONE_INPUT "04(15(21(00) 16(#20(01 000000) 17()) 17())))"},
    {2, "01(" ONE_INPUT "04(15(21(00) 16(#20(01 00000000 00) 17()) 17())))"},
    {2, "01(#02())"}, {2, "01(#03(04 000000))"}, {2, "01(#03(04))"}, {2, "01(#03())"},
    {4, "01(#02(01))"}, {4, "01(#03(04 00000000))"},                       /* an empty name is 4 */
    {2, "01(" ONE_INPUT "04() #02(01 .d.))"},                              /* a declaration after a process */
    {2, "01(#10(00 21(00)))"}, {2, "01(#00)"}, {2, "01(#02)"}, {2, "01(#02 00)"}, {2, "01(04() #04 00)"},
    {2, "01(" REGISTER_A "04(#10()))"}, {2, "01(" REGISTER_A "04(#10(00)))"}, {2, "01(" REGISTER_A "04(#12(00)))"},
    {2, "01(" REGISTER_A "04(#12(00 00)))"}, {2, "01(" REGISTER_A "04(10(00 #21())))"},
    {2, "01(" REGISTER_A "04(10(00 #21(00 00))))"}, {2, "01(" REGISTER_A "04(10(00 #22(00))))"},
    {2, "01(" REGISTER_A "04(10(00 #23(00))))"}, {2, "01(" REGISTER_A "04(10(00 #25(21(00)))))"},
    {2, "01(" REGISTER_A "04(10(00 25(21(00) #21))))"}, {2, "01(" REGISTER_A "04(#10(00 21(00) 21(00))))"},
    {2, "01(" REGISTER_A "04(10(00 #2B(21(00)))))"}, {2, "01(" REGISTER_A "04(10(00 #10(00 21(00)))))"},
    {2, "01(" REGISTER_A "04(10(00 " NOT_28("#24()") ")))"},               /* depth 32 and nothing inside: its own */
    {2, "01(" REGISTER_A "04(10(00 " NOT_28("24(#00)") ")))"},             /* depth 32 and a byte inside: the byte's */
    /* Refusals 3 and 4, and 2 before them. */
    {3, "01(#02(00 .a.))"}, {3, "01(#02(21 .a.))"}, {0, "01(02(20 .a.))"}, {0, "01(03(20 FFFFFFFF .a.))"},
    {2, "01(02(00 .a.) #05())"}, {3, "01(02(01 .1.)#02(00 .a.))"},
    {3, "01(" REGISTER_A "04(10(00 #20(04 00000010))))"}, {3, "01(" REGISTER_A "04(10(00 #20(00 00000000))))"},
    {3, "01(" ONE_INPUT "04(15(21(00) 16(#20(21 00000000) 17()) 17())))"},
    {4, "01(#02(01 .1.))"}, {4, "01(#02(01 .a b.))"}, {4, "01(02(01 .a.)#02(01 .a.))"}, {0, "01(02(01 .a.)02(01 .A.))"},
    {0, "01(02(01 .a23456789012345678901234.))"}, {4, "01(#02(01 .a234567890123456789012345.))"}, {0, "01(02(01 ._.))"},
    {4, "01(02(01 .ab.)03(04 00000000 .a.)#03(01 00000000 .ab.))"}, {4, "01(#02(01 C1))"},
    /* Refusal 5. */
    {0, "01(04()04()04()04()04()04()04()04())"}, {5, "01(04()04()04()04()04()04()04()04()#04()04())"},
    /* Refusal 6: outer fields before inner ones. */
    {6, "01(" REGISTER_A "04(#10(01 21(02))))"}, {6, "01(" REGISTER_A "04(10(00 #21(01))))"},
    {6, "01(" ONE_INPUT "04(#10(00 21(00))))"}, {6, "01(" REGISTER_A "04(10(00 #22(01 00))))"},
    {6, "01(" REGISTER_A "04(10(00 #23(FF 21(00)))))"}, {6, "01(" C_AND_A "04(" A_GETS_1 "#13(00 00 21(00))))"},
    /* Refusal 7. */
    {7, "01(" C_AND_A "04(#10(01 21(00))))"}, {7, "01(" C_AND_A "04(#12(01 00 21(01))))"},
    {7, "01(" C_AND_A "04(#14(21(01) 17() 17())))"}, {7, "01(" C_AND_A "04(10(01 #25(21(01) 21(00)))))"},
    {7, "01(" C_AND_A "04(#10(01 25(21(00) 21(01)))))"},                   /* the first operand's width, and the outer first */
    {7, "01(" C_AND_A "04(15(21(01) 16(20(04 00000000) 17(#10(01 21(00)))) 16(20(01 00000000) 17()) 17())))"},
    {7, "01(" C_AND_A "04(15(21(01) #16(20(01 00000000) 17(10(01 21(00)))) 17())))"},
    {7, "01(" C_AND_A "04(15(21(01) 16(20(04 00000000) 17(15(21(00) 16(20(01 00000000) 17()) 17()))) "
        "#16(20(01 00000000) 17()) 17())))"},
    {7, "01(" C_AND_A "04(12(01 00 #29(21(01) 21(00)))))"}, {0, "01(" C_AND_A "04(12(01 00 29(21(01) 21(01)))))"},
    /* Refusal 8, and 7 before it. */
    {8, "01(" C_AND_A "04(#12(01 04 21(00))))"}, {0, "01(" C_AND_A "04(12(01 03 21(00))))"},
    {8, "01(" C_AND_A "04(12(01 00 #22(01 04))))"}, {8, "01(" C_AND_A "04(12(01 00 #22(00 01))))"},
    {7, "01(" C_AND_A "04(12(01 04 21(00)) #14(21(01) 17() 17())))"},
    /* Refusals 9 to 11. */
    {9, "01(" C_AND_A "04(" A_GETS_1 ")04(#12(01 00 21(00))))"},           /* 9 before 10 */
    {10, "01(" C_AND_A "04(" A_GETS_1 ")04(14(21(00) 17() 17(#" A_GETS_1 "))))"},
    {10, "01(" C_AND_A "04(10(01 21(01)))04(#10(01 21(01))))"},            /* 10 before 11 */
    {11, "01(" C_AND_A "03(04 00000000 .b.)04(11(02 #21(01)))04(10(01 20(04 00000001))))"}, /* the reader stands first */
    {11, "01(" C_AND_A "04(12(01 00 21(00)))04(14(#22(01 00) 17() 17())))"},
    {11, "01(" C_AND_A "04(12(01 00 21(00)))04(15(#21(01) 17())))"},
    {11, "01(" C_AND_A "04(12(01 00 21(00)))04(15(#23(01 20(02 00000000)) 17())))"},
    {0, "01(" C_AND_A "04(" A_GETS_1 ")04(15(21(01) 17())))"},
};

#define CELLS_A "81(" C_AND_A
#define DRIVE_A "40(01 0104 00000001)"
#define NOT_A "30(04 0104 00000001)"

static const refusal_case netlists[] = {
    {0, "81()"}, {1, ""}, {1, "81 00 01"}, {2, "#01()"}, {0, CELLS_A DRIVE_A ")"}, {0, CELLS_A NOT_A DRIVE_A ")"},
    {2, CELLS_A "#30(04 0304 00000001)" DRIVE_A ")"}, {2, CELLS_A "#40(01 0304 00000001))"},
    {2, CELLS_A "#30(04 0104 000000)" DRIVE_A ")"}, {2, CELLS_A "#30(04 0104 00000001 00)" DRIVE_A ")"},
    {2, CELLS_A "#30()" DRIVE_A ")"}, {2, CELLS_A "#3B(04 0104 00000001)" DRIVE_A ")"},
    {2, CELLS_A DRIVE_A "#" NOT_A ")"}, {2, CELLS_A NOT_A "#02(01 .d.)" DRIVE_A ")"}, {2, CELLS_A DRIVE_A "#02(01 .d.))"},
    {2, CELLS_A DRIVE_A "#40)"}, {2, CELLS_A "#41(01 0104 00000001))"}, {2, CELLS_A DRIVE_A "#04())"},
    {2, CELLS_A "30(00 0100 00000001) #31(04 0104 00000001)" DRIVE_A ")"}, /* 2 before 3 */
    {3, CELLS_A "#30(00 0104 00000001)" DRIVE_A ")"}, {3, CELLS_A "#30(04 0121 00000001)" DRIVE_A ")"},
    {3, CELLS_A "#30(04 0004 00000010)" DRIVE_A ")"}, {0, CELLS_A "30(04 0004 0000000F)" DRIVE_A ")"},
    {3, CELLS_A "#40(01 0004 00000010))"}, {3, CELLS_A "#40(01 0100 00000001))"}, {3, "81(#02(00 .a.))"},
    {4, "81(02(01 .a.)#02(02 .a.))"}, {4, "81(#02(01))"},
    {6, CELLS_A "#30(04 0104 00000002)" DRIVE_A ")"}, {6, CELLS_A "#30(04 0204 00000000)" DRIVE_A ")"},
    {6, CELLS_A "#30(04 0104 00000101)" DRIVE_A ")"},                      /* compared whole */
    {6, CELLS_A NOT_A "#30(04 0204 00000001)" DRIVE_A ")"}, {0, CELLS_A NOT_A "30(04 0204 00000000)" DRIVE_A ")"},
    {6, CELLS_A NOT_A "#40(01 0204 00000001))"}, {0, CELLS_A NOT_A "40(01 0204 00000000))"},
    {6, CELLS_A "#40(00 0101 00000000)" DRIVE_A ")"}, {6, CELLS_A "#40(02 0101 00000000)" DRIVE_A ")"},
    {6, CELLS_A DRIVE_A "#" DRIVE_A ")"}, {6, "#" CELLS_A ")"},            /* a register without a drive: place 0 */
    {6, CELLS_A "#30(04 0104 00000002))"},                                 /* .. after every other break of 6 */
    {6, "#81(03(01 00000000 .a.)03(01 00000000 .b.)40(00 0101 00000000))"},
    {6, "81(03(01 00000000 .a.)03(01 00000000 .b.)#40(01 0101 00000000)40(00 0101 00000000))"},
    {7, CELLS_A "#30(03 0104 00000001)" DRIVE_A ")"}, {7, CELLS_A "#30(03 0103 00000001)" DRIVE_A ")"},
    {7, CELLS_A NOT_A "#30(03 0203 00000000)" DRIVE_A ")"}, {7, CELLS_A "#40(01 0101 00000000))"},
    {7, CELLS_A "#40(01 0103 00000001))"}, {7, CELLS_A "#31(04 0104 00000001 0003 00000001)" DRIVE_A ")"},
    {7, CELLS_A "#35(04 0104 00000001 0104 00000001)" DRIVE_A ")"}, {0, CELLS_A "35(01 0104 00000001 0104 00000001)" DRIVE_A ")"},
    {7, CELLS_A "#35(01 0104 00000001 0003 00000001)" DRIVE_A ")"},
    {7, CELLS_A "#36(04 0104 00000001 0104 00000001 0104 00000001)" DRIVE_A ")"},
    {0, CELLS_A "36(04 0101 00000000 0104 00000001 0104 00000001)" DRIVE_A ")"},
    {7, CELLS_A "#36(04 0101 00000000 0104 00000001 0003 00000001)" DRIVE_A ")"},
    {7, CELLS_A "#37(04 0104 00000001 00 0104 00000001)" DRIVE_A ")"}, {0, CELLS_A "37(04 0104 00000001 03 0101 00000000)" DRIVE_A ")"},
    {7, CELLS_A "#38(04 0104 00000001 00)" DRIVE_A ")"}, {7, CELLS_A "#3A(04 0104 00000001)" DRIVE_A ")"},
    {7, CELLS_A "#39(04 0104 00000001 0002 00000001)" DRIVE_A ")"}, {0, CELLS_A "39(01 0104 00000001 0002 00000001)" DRIVE_A ")"},
    {8, CELLS_A "#37(04 0104 00000001 04 0101 00000000)" DRIVE_A ")"}, {8, CELLS_A "#38(01 0104 00000001 04)" DRIVE_A ")"},
    {8, CELLS_A "#39(01 0104 00000001 0003 00000001)" DRIVE_A ")"}, {8, CELLS_A "#39(01 0020 00000001 0020 00000001)" DRIVE_A ")"},
    {0, CELLS_A "38(01 0020 FFFFFFFF 1F)" DRIVE_A ")"}, {8, CELLS_A "#38(01 0001 00000001 01)" DRIVE_A ")"},
};

static void try_refusals(void)
{
    static written_file file;
    uint8_t row[400] = {0}, next[400];
    for (size_t i = 0; i < sizeof modules / sizeof modules[0]; i++) {
        write_file(modules[i].text, &file);
        reference_answer answer = reference_check(file.bytes, file.length);
        bool right = answer.number == modules[i].number && answer.at == file.place && answer.cells == 0;
        expect(right, modules[i].text);
        if (!right)
            printf("  gave %u at %llu\n", (unsigned)answer.number, (unsigned long long)answer.at);
    }
    for (size_t i = 0; i < sizeof netlists / sizeof netlists[0]; i++) {
        write_file(netlists[i].text, &file);
        generated_file copy = {.length = file.length};
        memcpy(copy.bytes, file.bytes, file.length);
        size_t length = 4 * count_variables(&copy);
        reference_answer answer = reference_run_netlist(file.bytes, file.length, row, length, next, length);
        bool right = answer.number == netlists[i].number && answer.at == file.place && answer.cells == 0;
        expect(right, netlists[i].text);
        if (!right)
            printf("  gave %u at %llu\n", (unsigned)answer.number, (unsigned long long)answer.at);
    }
}

/* The 64th and 65th variable, in a module and in a netlist. */
static void try_variable_limit(void)
{
    for (size_t count = 64; count <= 66; count++)
        for (int is_netlist = 0; is_netlist < 2; is_netlist++) {
            uint8_t file[3 + 66 * 6] = {is_netlist ? 0x81 : 0x01, (uint8_t)(count * 6 >> 8), (uint8_t)(count * 6)};
            for (size_t v = 0; v < count; v++) {
                uint8_t declaration[6] = {2, 0, 3, 1, (uint8_t)('a' + v % 8), (uint8_t)('A' + v / 8)};
                memcpy(file + 3 + 6 * v, declaration, 6);
            }
            uint8_t row[66 * 4] = {0}, next[66 * 4];
            size_t length = 3 + 6 * count;
            reference_answer answer = is_netlist ? reference_run_netlist(file, length, row, 4 * count, next, 4 * count)
                                                 : reference_check(file, length);
            expect(count == 64 ? answer.number == 0 : answer.number == 5 && answer.at == 3 + 64 * 6, "the 65th variable");
        }
}

/* A register and so many statements a <= ~a, of one cell and 11 bytes each. */
static size_t write_nots(uint8_t *file, size_t name_length, size_t statements)
{
    static const uint8_t statement[11] = {0x11, 0, 8, 0, 0x24, 0, 4, 0x21, 0, 1, 0};
    size_t declaration = 8 + name_length, length = 3 + declaration + 3 + sizeof statement * statements;
    memset(file, 0, 3 + declaration + 3);
    file[0] = 0x01;
    file[1] = (uint8_t)((length - 3) >> 8);
    file[2] = (uint8_t)(length - 3);
    file[3] = 0x03;
    file[5] = (uint8_t)(5 + name_length);
    file[6] = 4;
    memset(file + 11, 'a', name_length);
    uint8_t *process = file + 3 + declaration;
    process[0] = 0x04;
    process[1] = (uint8_t)(sizeof statement * statements >> 8);
    process[2] = (uint8_t)(sizeof statement * statements);
    for (size_t i = 0; i < statements; i++)
        memcpy(process + 3 + sizeof statement * i, statement, sizeof statement);
    return length;
}

/* 1,024 cells and one more, with 12 before 13; 16,384 bytes and one more. */
static void try_size_limits(void)
{
    static uint8_t file[17000], out[32768];
    uint8_t row[4] = {0, 0, 0, 5}, next[4];
    size_t length = write_nots(file, 1, 1024), made = 3 + 9 + 1024 * 10 + 10;
    reference_answer answer = reference_translate(file, length, out, made);
    expect(answer.number == 0 && answer.cells == 1024 && answer.at == made, "1,024 cells");
    expect(reference_run_netlist(out, made, row, 4, next, 4).number == 0 && next[3] == 10, "1,024 cells run");
    expect(reference_translate(file, length, out, made - 1).number == 13, "1,024 cells and a byte too few");
    length = write_nots(file, 1, 1025);
    expect(reference_translate(file, length, out, sizeof out).number == 12, "1,025 cells");
    expect(reference_translate(file, length, out, 0).number == 12, "1,025 cells and no room");
    expect(reference_check(file, length).number == 0, "1,025 cells checked");
    expect(reference_run_module(file, length, row, 4, next, 4).number == 0 && next[3] == 10, "1,025 cells run");
    length = write_nots(file, 2, 1488);
    expect(length == 16384 && reference_check(file, length).number == 0, "16,384 bytes");
    length = write_nots(file, 3, 1488);
    answer = reference_check(file, length);
    expect(length == 16385 && answer.number == 1 && answer.at == 0, "16,385 bytes");
}

/* ---- Runs and translations ---- */

typedef struct {
    const char *text;
    size_t variables;
    uint32_t row[4], next[4];
} run_case;

#define A_AND_B "03(04 00000000 .a.)03(04 00000000 .b.)"
#define COUNTER "01(02(01 .en.)03(04 00000000 .n.)04(14(21(00) 17(11(01 28(21(01) 20(04 00000001)))) 17())))"
#define X_AND_Y "02(04 .s.)03(04 00000000 .x.)03(04 00000000 .y.)"

static const run_case runs[] = {
    {COUNTER, 2, {1, 15}, {1, 0}},
    {COUNTER, 2, {0, 7}, {0, 7}},
    {"01(" A_AND_B "04(10(00 21(01)) 10(01 21(00))))", 2, {1, 2}, {2, 2}},
    {"01(" A_AND_B "04(11(00 21(01)) 11(01 21(00))))", 2, {1, 2}, {2, 1}},
    {"01(" A_AND_B "04(11(00 21(01)))04(11(01 21(00))))", 2, {1, 2}, {2, 1}},
    {"01(" X_AND_Y "04(15(21(00) 16(20(04 00000002) 17(10(01 20(04 00000001)))) 16(20(04 00000002) 17(10(01 20(04 00000005)))) "
     "17())))", 3, {2, 9, 0}, {2, 1, 0}},
    {"01(" X_AND_Y "04(15(21(00) 16(20(04 00000002) 17(10(01 20(04 00000001)))) 17(10(02 20(04 00000007))))))",
     3, {3, 9, 0}, {3, 9, 7}},
    {"01(" X_AND_Y "04(12(01 00 2A(21(00)))))", 3, {11, 0, 0}, {11, 1, 0}},
    {"01(02(20 .s.)03(01 00000000 .x.)04(10(01 2A(21(00)))))", 2, {0xFFFFFFFF, 1}, {0xFFFFFFFF, 0}},
    {"01(02(20 .s.)03(20 00000000 .x.)04(10(01 28(21(00) 21(01)))))", 2, {0xFFFFFFFF, 3}, {0xFFFFFFFF, 2}},
    /* The else block starts from the operands before the if. */
    {"01(02(01 .c.)" A_AND_B "04(14(21(00) 17(10(01 20(04 00000009))) 17(10(02 21(01))))))", 3, {0, 3, 5}, {0, 3, 3}},
    {"01(02(01 .c.)" A_AND_B "04(14(21(00) 17(10(01 20(04 00000009))) 17(10(02 21(01))))))", 3, {1, 3, 5}, {1, 9, 5}},
    /* A non-blocking value is not read back in its cycle. */
    {"01(" A_AND_B "04(11(00 20(04 00000007)) 11(01 21(00))))", 2, {1, 2}, {7, 1}},
    /* .. nor by a one-bit assignment of its own kind, which adds to the pending value. */
    {"01(" A_AND_B "04(11(00 20(04 00000008)) 13(00 00 20(01 00000001)) 11(01 21(00))))", 2, {1, 2}, {9, 1}},
    /* The selector is evaluated once. */
    {"01(" A_AND_B "04(15(21(00) 16(20(04 00000001) 17(10(00 20(04 00000002)))) 16(20(04 00000002) 17(10(01 20(04 00000005)))) "
     "17())))", 2, {1, 3}, {2, 3}},
    {"01(02(03 .i.)02(08 .v.)03(01 00000000 .x.)04(10(02 23(01 21(00)))))", 3, {5, 0x20, 0}, {5, 0x20, 1}},
    {"01(" A_AND_B "04(10(00 24(27(21(00) 25(21(01) 26(21(00) 20(04 00000003))))))))", 2, {5, 14}, {12, 14}},
};

static void put_row(const uint32_t *numbers, size_t count, uint8_t *row)
{
    for (size_t i = 0; i < 4 * count; i++)
        row[i] = (uint8_t)(numbers[i / 4] >> (24 - 8 * (i % 4)));
}

/* Each run of the module, and of the netlist it is translated to. */
static void try_runs(void)
{
    static written_file file;
    static uint8_t netlist[32768];
    uint8_t row[16], wanted[16], next[16];
    for (size_t i = 0; i < sizeof runs / sizeof runs[0]; i++) {
        size_t length = 4 * runs[i].variables;
        write_file(runs[i].text, &file);
        put_row(runs[i].row, runs[i].variables, row);
        put_row(runs[i].next, runs[i].variables, wanted);
        reference_answer ran = reference_run_module(file.bytes, file.length, row, length, next, length);
        expect(ran.number == 0 && memcmp(next, wanted, length) == 0, runs[i].text);
        reference_answer made = reference_translate(file.bytes, file.length, netlist, sizeof netlist);
        memset(next, 0xA5, sizeof next);
        ran = reference_run_netlist(netlist, (size_t)made.at, row, length, next, length);
        expect(made.number == 0 && ran.number == 0 && memcmp(next, wanted, length) == 0, "the netlist of the run above");
    }
    write_file("01(" A_AND_B "04(10(00 #21(01)))04(10(01 21(00))))", &file);
    reference_answer swapped = reference_check(file.bytes, file.length);
    expect(swapped.number == 11 && swapped.at == file.place, "a = b and b = a in two processes");
}

typedef struct {
    uint32_t cells;
    const char *module, *netlist;
} translation_case;

static const translation_case translations[] = {
    {0, "01 00 00", "81 00 00"},
    {2, "01 00 32 02 00 03 01 65 6E 03 00 06 04 00 00 00 00 6E 04 00 20 14 00 1D 21 00 01 00 17 00 13 11 00 10 01 28 00 0C "
        "21 00 01 01 20 00 05 04 00 00 00 01 17 00 00",
        "81 00 3F 02 00 03 01 65 6E 03 00 06 04 00 00 00 00 6E 34 00 0D 04 01 04 00 00 00 01 00 04 00 00 00 01 36 00 13 04 "
        "01 01 00 00 00 00 02 04 00 00 00 00 01 04 00 00 00 01 40 00 07 01 02 04 00 00 00 01"},
    /* A constant condition makes muxes; current ones before pending ones; b's is pending, a's current. */
    {2, "01(03(04 00000000 .b.)03(04 00000000 .a.)04(14(20(01 00000001) 17(11(00 20(04 00000001)) 10(01 20(04 00000002))) 17())))",
        "81(03(04 00000000 .b.)03(04 00000000 .a.)36(04 0001 00000001 0004 00000002 0104 00000001)"
        "36(04 0001 00000001 0004 00000001 0104 00000000)40(00 0204 00000001)40(01 0204 00000000))"},
    /* eq, block, eq, block, default, then the muxes, those of the last item first; a put on a current operand. */
    {6, "01(02(02 .s.)03(04 00000000 .a.)04(15(21(00) 16(20(02 00000001) 17(12(01 03 20(01 00000001)))) "
        "16(20(02 00000001) 17(10(01 24(21(01))))) 17())))",
        "81(02(02 .s.)03(04 00000000 .a.)35(01 0102 00000000 0002 00000001)37(04 0104 00000001 03 0001 00000001)"
        "35(01 0102 00000000 0002 00000001)30(04 0104 00000001)36(04 0201 00000002 0204 00000003 0104 00000001)"
        "36(04 0201 00000000 0204 00000001 0204 00000004)40(01 0204 00000005))"},
    /* Equal operands in both blocks: no mux. A fixed bit of a constant; the index's cells first. */
    {4, "01(02(01 .c.)03(08 00000000 .a.)03(01 00000000 .x.)04(14(21(00) 17(10(01 20(08 000000AA))) 17(10(01 20(08 000000AA)))) "
        "11(02 27(22(01 05) 23(01 24(21(00)))))))",
        "81(02(01 .c.)03(08 00000000 .a.)03(01 00000000 .x.)38(01 0008 000000AA 05)30(01 0101 00000000)"
        "39(01 0008 000000AA 0201 00000001)33(01 0201 00000000 0201 00000002)40(01 0008 000000AA)40(02 0201 00000003))"},
};

static void try_translations(void)
{
    static written_file module, netlist;
    static uint8_t out[32768];
    for (size_t i = 0; i < sizeof translations / sizeof translations[0]; i++) {
        write_file(translations[i].module, &module);
        write_file(translations[i].netlist, &netlist);
        reference_answer answer = reference_translate(module.bytes, module.length, out, netlist.length);
        expect(answer.number == 0 && answer.cells == translations[i].cells && answer.at == netlist.length
               && memcmp(out, netlist.bytes, netlist.length) == 0, translations[i].module);
        answer = reference_translate(module.bytes, module.length, out, netlist.length - 1);
        expect(answer.number == 13 && answer.at == 0 && answer.cells == 0, "one byte too few");
    }
}

/* ---- The reference with slices of their exact size ---- */

static uint8_t *exact_copy(const uint8_t *bytes, size_t length)
{
    uint8_t *copy = malloc(length > 0 ? length : 1);
    if (copy == NULL)
        abort();
    memcpy(copy, bytes, length);
    return copy;
}

static reference_answer exact_check(const uint8_t *module, size_t module_len)
{
    uint8_t *file = exact_copy(module, module_len);
    reference_answer answer = reference_check(file, module_len);
    free(file);
    return answer;
}

static reference_answer exact_translate(const uint8_t *module, size_t module_len, uint8_t *out, size_t out_len)
{
    uint8_t *file = exact_copy(module, module_len), *made = exact_copy(out, out_len);
    reference_answer answer = reference_translate(file, module_len, made, out_len);
    memcpy(out, made, out_len);
    free(file);
    free(made);
    return answer;
}

typedef reference_answer run(const uint8_t *, size_t, const uint8_t *, size_t, uint8_t *, size_t);

static reference_answer exact_run(run *by, const uint8_t *bytes, size_t length, const uint8_t *row, size_t row_len,
                                  uint8_t *next, size_t next_len)
{
    uint8_t *file = exact_copy(bytes, length), *read = exact_copy(row, row_len), *made = exact_copy(next, next_len);
    reference_answer answer = by(file, length, read, row_len, made, next_len);
    memcpy(next, made, next_len);
    free(file);
    free(read);
    free(made);
    return answer;
}

static reference_answer exact_run_module(const uint8_t *module, size_t module_len, const uint8_t *row, size_t row_len,
                                         uint8_t *next, size_t next_len)
{
    return exact_run(reference_run_module, module, module_len, row, row_len, next, next_len);
}

static reference_answer exact_run_netlist(const uint8_t *netlist, size_t netlist_len, const uint8_t *row, size_t row_len,
                                          uint8_t *next, size_t next_len)
{
    return exact_run(reference_run_netlist, netlist, netlist_len, row, row_len, next, next_len);
}

static const library exact_library = {"reference in exact memory", exact_check, exact_translate, exact_run_module,
                                      exact_run_netlist};

/* ---- Libraries with one fault each ---- */

static reference_answer refuses_all(const uint8_t *module, size_t module_len)
{
    reference_answer answer = reference_check(module, module_len);
    return answer.number != 0 ? answer : (reference_answer){2, 0, 0};
}

static reference_answer misplaces(const uint8_t *module, size_t module_len)
{
    reference_answer answer = reference_check(module, module_len);
    answer.at += answer.number == 11;
    return answer;
}

static reference_answer alters_its_file(const uint8_t *module, size_t module_len)
{
    reference_answer answer = reference_check(module, module_len);
    if (answer.number == 5)
        ((uint8_t *)(uintptr_t)module)[module_len - 1] ^= 1;
    return answer;
}

static reference_answer miscounts(const uint8_t *module, size_t module_len, uint8_t *out, size_t out_len)
{
    reference_answer answer = reference_translate(module, module_len, out, out_len);
    answer.cells += answer.cells == 1024;
    return answer;
}

static reference_answer writes_beyond(const uint8_t *module, size_t module_len, uint8_t *out, size_t out_len)
{
    reference_answer answer = reference_translate(module, module_len, out, out_len);
    if (answer.number == 0)
        out[answer.at] ^= 1; /* the guard, if the buffer is just enough */
    return answer;
}

static reference_answer writes_though_refused(const uint8_t *module, size_t module_len, uint8_t *out, size_t out_len)
{
    reference_answer answer = reference_translate(module, module_len, out, out_len);
    if (answer.number == 13 && out_len > 0)
        out[0] = 0x81;
    return answer;
}

static reference_answer leaves_its_row(const uint8_t *module, size_t module_len, const uint8_t *row, size_t row_len,
                                       uint8_t *next, size_t next_len)
{
    reference_answer answer = reference_run_module(module, module_len, row, row_len, next, next_len);
    if (answer.number == 0)
        memcpy(next, row, next_len);
    return answer;
}

static reference_answer writes_before(const uint8_t *netlist, size_t netlist_len, const uint8_t *row, size_t row_len,
                                      uint8_t *next, size_t next_len)
{
    reference_answer answer = reference_run_netlist(netlist, netlist_len, row, row_len, next, next_len);
    if (answer.number == 12)
        next[-1] ^= 0x80;
    return answer;
}

static void try_faulty_libraries(uint64_t seed)
{
    library faulty[8];
    for (int i = 0; i < 8; i++)
        faulty[i] = reference_library;
    faulty[0].check = refuses_all;
    faulty[1].check = misplaces;
    faulty[2].check = alters_its_file;
    faulty[3].translate = miscounts;
    faulty[4].translate = writes_beyond;
    faulty[5].translate = writes_though_refused;
    faulty[6].run_module = leaves_its_row;
    faulty[7].run_netlist = writes_before;
    for (int i = 0; i < 8; i++)
        expect(compare_libraries(&faulty[i], &reference_library, 5000, seed, NULL, NULL) == 1, "a fault was not found");
}

int main(int argc, char **argv)
{
    uint64_t count = argc > 1 ? strtoull(argv[1], NULL, 10) : 100000;
    uint64_t seed = argc > 2 ? strtoull(argv[2], NULL, 10) : 1;
    try_refusals();
    try_variable_limit();
    try_size_limits();
    try_runs();
    try_translations();
    try_faulty_libraries(seed);
    printf("%zu refusals, %zu runs, %zu translations, 8 faulty libraries: %d failed\n",
           sizeof modules / sizeof modules[0] + sizeof netlists / sizeof netlists[0], sizeof runs / sizeof runs[0],
           sizeof translations / sizeof translations[0], failures);
    if (compare_libraries(&exact_library, &reference_library, count, seed, stdout, stdout) != 0)
        failures++;
    return failures == 0 ? 0 : 1;
}
