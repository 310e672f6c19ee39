/* A par list is loaded and copied, the copy is written, and both are looked at: the list is as it was. A sheet tells what each step
 * cost. Then the same by a file of imports. Then one function out of two compilers, which number the operators differently. */
#include <inttypes.h>
#include <stdio.h>
#include <stdlib.h>

#include "crms.h"

/* What shelves are short of: global 8 less global 9, where that is above 0, into global 9. A compiler has its own first bytes for the
 * operators. */
#define SHORTFALL(difference, less, product)                                                              \
    0x00, 0x00, 0x00, 0x00,       /* header: no arguments, no lines, */                                   \
    0x00, 0x00, 0x00, 0x05,       /* no locals, 5 words of code */                                        \
    0xD0, 0x09, 0xD0, 0x08,       /* LONGGLOBAL 9 and 8: an operator's first operand is pushed last */    \
    difference, 0x91, 0xD0, 0x09, /* ASSIGN_NO_RESULT to global 9: the gap */                             \
    0xD0, 0x09, 0x40, 0x00, less, /* whether 0 is less than the gap: 1 or 0 */                            \
    0xD0, 0x09, product,          /* the gap, or 0 */                                                     \
    0x91, 0xD0, 0x09, 0xB0        /* ASSIGN_NO_RESULT to global 9; RETURN */

/* A compiler that numbers the operators by their names, from A to Z. */
static const uint8_t by_name[CRMS_OPERATORS] = {
    CRMS_OPERATOR_CEILING, CRMS_OPERATOR_CONVERT, CRMS_OPERATOR_DIFFERENCE, CRMS_OPERATOR_EQUAL, CRMS_OPERATOR_FLOOR,
    CRMS_OPERATOR_IDENTITY, CRMS_OPERATOR_LESS, CRMS_OPERATOR_LOGICAL_PRODUCT, CRMS_OPERATOR_LOGICAL_SUM, CRMS_OPERATOR_MAGNITUDE,
    CRMS_OPERATOR_NEGATIVE, CRMS_OPERATOR_NOT, CRMS_OPERATOR_PRODUCT, CRMS_OPERATOR_QUOTIENT, CRMS_OPERATOR_SUM,
    CRMS_OPERATOR_TEST_NUMBER
};

/* A procedure segment of three functions, as a compiler writes it. */
static const uint8_t functions[] = {
    0x00, 0x00, 0x00, 0x04,       /* a directory of four entries: itself, and */
    0x00, 0x04, 0x00, 0x06,       /* function 1, which starts at word 4 and is 6 words long, */
    0x00, 0x0A, 0x00, 0x07,       /* function 2, from word 10 on, 7 words, */
    0x00, 0x11, 0x00, 0x07,       /* function 3, from word 17 on, 7 words */
    0x00, 0x00, 0x00, 0x00,       /* the header of function 1: no arguments, no lines, */
    0x00, 0x00, 0x00, 0x04,       /* no locals, 4 words of code */
    0xD0, 0x08,                   /* LONGGLOBAL 8: the list */
    0x91, 0xD0, 0x09,             /* ASSIGN_NO_RESULT to global 9: its copy, which shares the list's block */
    0x40, 0x00, 0x40, 0x02,       /* 0, and the place 2 */
    0x81, 0xD0, 0x09,             /* ASSIGN_INDEXED into global 9 */
    0xA1,                         /* EAT1: the result is not wanted */
    0xB0,                         /* RETURN: in the bottom frame this is the end, trap (3,13) */
    0xB2, 0xB2,                   /* NO_OPERATION fills up the word */
    SHORTFALL(0x69, 0x6E, 0x6A),  /* function 2, by the manual's numbers */
    SHORTFALL(0x62, 0x66, 0x6C)   /* function 3, by the numbers of by_name */
};

/* The alternate procedure segment has no functions. */
static const uint8_t unused[] = {0x00, 0x00, 0x00, 0x01};

/* A file of imports, as a depot stores it. */
static const uint8_t imports[] = {
    0, 8, 1, 3, 10, 20, 30,       /* at 0: load a vector of 3 elements into global 8 */
    1, 6,                         /* at 7: run 6 instructions */
    0, 8, 1, 2, 0xAC, 0x02, 5,    /* at 9: load 300 and 5 into global 8; 300 is 0x2C + 2 * 128 */
    1, 1                          /* at 16: run 1 instruction */
};

/* A data segment: 8 state words, 2 globals, 24 array words, and the stack in what is left. */
#define WORDS 64
#define LIST 8
#define COPY 9

/* Both procedure segments with their lengths, as every call is lent them. */
#define PROCEDURES functions, sizeof functions, unused, sizeof unused

static void expect(const char *operation, uint32_t status, uint32_t expected)
{
    if (status != expected) {
        printf("%s: status %" PRIu32 "\n", operation, status);
        exit(EXIT_FAILURE);
    }
}

/* The magnitude stands in bits 22-0, the sign in bit 31. */
static int32_t integer(uint32_t word)
{
    int32_t magnitude = (int32_t)(word & 0x7FFFFF);
    return word >> 31 ? -magnitude : magnitude;
}

/* The elements are read where they stand in the segment. */
static void print_list(const char *name, const uint32_t *data, uint32_t global)
{
    uint64_t seen = crms_look(data, WORDS, PROCEDURES, global);
    uint32_t first = crms_first_of(seen);
    uint32_t i;

    expect("look", crms_status_of(seen), CRMS_DONE);
    printf("  %s", name);
    for (i = 0; i < crms_count_of(seen); i++)
        printf(" %" PRId32, integer(data[first + i]));
    printf("\n");
}

/* Where the words of array storage went. */
static void print_sheet(const uint32_t *data)
{
    uint32_t counts[CRMS_SHEET_COUNTS];

    expect("sheet", crms_sheet(data, WORDS, PROCEDURES, counts), CRMS_DONE);
    printf("  %" PRIu32 " words of arrays, %" PRIu32 " of slop, %" PRIu32 " free, %" PRIu32 " at the end: %" PRIu32 "\n",
           counts[CRMS_SHEET_ARRAYS], counts[CRMS_SHEET_SLOP], counts[CRMS_SHEET_FREE], counts[CRMS_SHEET_END],
           counts[CRMS_SHEET_TOTAL]);
}

/* So many instructions, then both lists. */
static void run(const char *what, uint32_t *data, uint32_t budget)
{
    uint64_t ran = crms_run(data, WORDS, PROCEDURES, budget);

    expect("run", crms_status_of(ran), CRMS_BUDGET);
    printf("%s, %" PRIu32 " instructions\n", what, crms_steps_of(ran));
    print_list("list", data, LIST);
    print_list("copy", data, COPY);
    print_sheet(data);
}

static void lay_out(uint32_t *data)
{
    expect("lay out", crms_lay_out(data, WORDS, PROCEDURES, 0, 1, 2, 24), CRMS_DONE);
}

/* So many bytes of the file, on a fresh segment; then both lists, and what was counted. */
static void replay(uint32_t *data, size_t bytes, uint32_t expected)
{
    uint32_t tally[CRMS_FAMILIES];
    uint64_t halted;

    lay_out(data);
    halted = crms_replay(data, WORDS, PROCEDURES, imports, bytes, tally);
    expect("replay", crms_status_of(halted), expected);
    printf("replayed up to %" PRIu32 ", status %" PRIu32 "\n", crms_place_of(halted), expected);
    print_list("list", data, LIST);
    print_list("copy", data, COPY);
    printf("  SHORTCONST %" PRIu32 ", MEMREF %" PRIu32 ", ETC %" PRIu32 ", LONGGLOBAL %" PRIu32 "\n", tally[CRMS_FAMILY_SHORTCONST],
           tally[CRMS_FAMILY_MEMREF], tally[CRMS_FAMILY_ETC], tally[CRMS_FAMILY_LONGGLOBAL]);
}

/* A fresh segment with more array words for a shortfall: 10 20 30 is to be there, and 4 25 13 is. */
static void stock(uint32_t *data, uint32_t function)
{
    const uint32_t lengths[] = {3};
    const uint32_t par[] = {10, 20, 30};
    const uint32_t there[] = {4, 25, 13};

    expect("lay out", crms_lay_out(data, WORDS, PROCEDURES, 0, function, 2, 36), CRMS_DONE);
    expect("load", crms_load(data, WORDS, PROCEDURES, LIST, lengths, 1, par, 3), CRMS_DONE);
    expect("load", crms_load(data, WORDS, PROCEDURES, COPY, lengths, 1, there, 3), CRMS_DONE);
}

/* The ten instructions of a shortfall: function 2 by the manual's table, function 3 by the one that is lent. */
static void shortfall(uint32_t *data)
{
    static const uint8_t run_record[] = {1, 10};
    uint32_t tally[CRMS_FAMILIES];

    stock(data, 2);
    expect("run", crms_status_of(crms_run(data, WORDS, PROCEDURES, 10)), CRMS_BUDGET);
    printf("shortfall by the manual's numbers\n");
    print_list("short", data, COPY);

    stock(data, 3);
    expect("run", crms_status_of(crms_run_with(data, WORDS, PROCEDURES, by_name, sizeof by_name, 10)), CRMS_BUDGET);
    printf("shortfall by the chain's numbers\n");
    print_list("short", data, COPY);

    stock(data, 3);
    expect("replay", crms_status_of(crms_replay_with(data, WORDS, PROCEDURES, by_name, sizeof by_name, run_record, 2, tally)),
           CRMS_DONE);
    printf("the same by a file, with %" PRIu32 " operators\n", tally[CRMS_FAMILY_GENSCALAR]);
    print_list("short", data, COPY);

    expect("run", crms_status_of(crms_run_with(data, WORDS, PROCEDURES, by_name, 15, 10)), CRMS_TABLE);
    printf("a table of 15 bytes: status %d\n", CRMS_TABLE);
}

int main(void)
{
    uint32_t data[WORDS];
    const uint32_t lengths[] = {3};
    const uint32_t par[] = {10, 20, 30};
    uint64_t end;

    lay_out(data);
    expect("load", crms_load(data, WORDS, PROCEDURES, LIST, lengths, 1, par, 3), CRMS_DONE);
    printf("loaded\n");
    print_list("list", data, LIST);
    print_sheet(data);

    run("copied", data, 2);
    run("written", data, 4);

    end = crms_run(data, WORDS, PROCEDURES, 1);
    expect("run", crms_status_of(end), CRMS_TRAP);
    printf("ended by trap (%" PRIu32 ",%" PRIu32 ")\n", crms_trap_class(data), crms_trap_number(data));

    replay(data, 12, CRMS_MALFORMED);
    replay(data, sizeof imports, CRMS_TRAP);
    if (data[3] != CRMS_TRAP_BOTTOM)
        return EXIT_FAILURE;

    shortfall(data);
    return EXIT_SUCCESS;
}
