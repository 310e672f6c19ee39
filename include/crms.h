/* The engine of the CRMS APL processor: six operations on a lent data segment and both procedure segments, two of them, run and
 * replay, under the manual's table of operators or one that is lent.
 *
 * The data segment is `n` words of 32 bits; the procedure segments are `nr` and `na` bytes, the most significant byte of a word
 * first. An unused procedure segment is the one word 0x00000001. A call that is refused changes nothing; a replay that halts leaves
 * what its earlier records did. Nothing is kept between calls and nothing is allocated; bindings/README.md says how much of the
 * stack a call takes. docs/FAULTS.md says what to do about each number.
 *
 * What the caller sees to: a pointer is never null, is aligned for its type, and leads to as many elements as the length after it
 * says (where that is 0, to none), a tally to eight, the counts of a sheet to five; what a call writes (`data`, a tally, counts)
 * overlaps no other part that the same call is lent, so what a look found in the segment is copied before it is loaded; and nobody
 * else writes these parts during the call. Calls on different segments may run at once. */
#ifndef CRMS_H
#define CRMS_H

#include <stddef.h>
#include <stdint.h>

#ifdef __cplusplus
extern "C" {
#endif

/* ---- status numbers: tests go in this order, save that 26 comes after 12 and before 13, 20 before 19, and 25 before the others for
 * its record */
enum crms_status {
    CRMS_DONE = 0,              /* lay out, load, look, sheet: done; replay: every record was done */
    CRMS_BUDGET = 2,            /* run: as many instructions as asked were done; with 0 asked, none */
    CRMS_TRAP = 3,              /* run, replay: a trap; word 3 of the data segment has its class (bits 15-8) and number (bits 7-0) */
    CRMS_DATA_LENGTH = 10,      /* the data segment is not 32 to 16,384 words long */
    CRMS_PROCEDURE_LENGTH = 11, /* a procedure segment is not 4 to 32,768 bytes long, or not whole words */
    CRMS_PROCEDURE = 12,        /* a directory or a function's header is wrong */
    CRMS_STATE = 13,            /* words 0-7: an unnamed bit, BLOCKPTR below 8, under 3 array words, or the stack past the end */
    CRMS_BLOCKS = 14,           /* array storage: the blocks do not fill it, or a tag, size, length or element is wrong */
    CRMS_RING = 15,             /* the ring of free blocks or ROVER is wrong */
    CRMS_FRAMES = 16,           /* a frame of the stack is wrong, or its function is not in the directory */
    CRMS_CELLS = 17,            /* a cell holds a word that may not stand there, or an indirect word with a wrong target */
    CRMS_COUNTS = 18,           /* an array's count is zero or not the number of cells that point to it */
    CRMS_PARTS = 19,            /* lay out: more than 4,088 globals, fewer than 6 array words, or too few words lent */
    CRMS_FUNCTION = 20,         /* lay out: the bottom function is not there, or it takes arguments */
    CRMS_NO_GLOBAL = 21,        /* load, look: the address is no global: below 8, or BLOCKPTR and above */
    CRMS_UNDEFINED = 22,        /* look: the global is undefined */
    CRMS_NO_VALUE = 23,         /* load: rank above 15, a length above 65,535, a count that is not the product, or a word no scalar */
    CRMS_FULL = 24,             /* load: no free block is 2 + rank + elements words long */
    CRMS_MALFORMED = 25,        /* replay: what stands at the place is no record */
    CRMS_TABLE = 26             /* run, replay: the table of operators is not 16 bytes long, a byte is above 15, or one is repeated */
};

/* ---- traps, as word 3 of the data segment has them: class * 256 + number. The instruction has not happened, save for the first
 * three of class 2, which come after a finished and counted instruction. */
enum crms_trap {
    /* class 1, storage */
    CRMS_TRAP_STACK_FULL = 0x0101,       /* no word is left for a further cell, or for the locals and two words of a CALL */
    CRMS_TRAP_STORAGE_FULL = 0x0102,     /* no free block is long enough for the array that the instruction makes */
    /* class 2, debugging */
    CRMS_TRAP_STEP = 0x0201,             /* after: an instruction finished while STEP is set */
    CRMS_TRAP_CALL_TRACE = 0x0202,       /* after: a CALL finished while FCNCTRC is set, and the function has CALLTRACE */
    CRMS_TRAP_RETURN_TRACE = 0x0203,     /* after: a function with RTNTRACE was left while FCNRTRC is set */
    CRMS_TRAP_BREAKPOINT = 0x0204,       /* BREAKPOINT; raise PCTR by one to go past it */
    /* class 3, system errors: faults of the compiler or of the words that were lent, save 13 */
    CRMS_TRAP_CODE_ADDRESS = 0x0301,     /* a place outside the function's code, or CALL of a function that is not there */
    CRMS_TRAP_LOCAL_ADDRESS = 0x0302,    /* a local address outside the frame's arguments and locals */
    CRMS_TRAP_GLOBAL_ADDRESS = 0x0303,   /* a global address below 8, or BLOCKPTR and above */
    CRMS_TRAP_OPERANDS = 0x0304,         /* too few temporaries for the operands, or CALL's NARGS is not the header's */
    CRMS_TRAP_KIND = 0x0305,             /* an undefined or indirect word where a value is wanted, or a constant that is no scalar */
    CRMS_TRAP_INDIRECT = 0x0306,         /* an indirect word leads to another one; not expected */
    CRMS_TRAP_ADDRESS_FORM = 0x0307,     /* the address of a MEMREF instruction is in none of the three forms */
    CRMS_TRAP_MEMREF = 0x0308,           /* undefined MEMREF suboperation: 0, or 20 to 31 */
    CRMS_TRAP_GENSCALAR = 0x0309,        /* undefined GENSCALAR suboperation: 16 to 31 */
    CRMS_TRAP_RESUMED = 0x030A,          /* cannot occur: there is no saved array state */
    CRMS_TRAP_ETC = 0x030B,              /* undefined ETC suboperation, 21 to 31, or a first byte F0 to FF */
    CRMS_TRAP_TEMPORARIES = 0x030C,      /* RETURN, or a BRANCH that leaves, with temporaries still in the frame */
    CRMS_TRAP_BOTTOM = 0x030D,           /* RETURN, or a BRANCH that leaves, in the bottom frame: how a function that is done ends */
    /* class 4, attention */
    CRMS_TRAP_ATTENTION = 0x0400,        /* ATTENTION: the program asks for something outside the processor */
    /* classes 5 to 7, operands */
    CRMS_TRAP_RANK = 0x0500,             /* a rank that does not serve */
    CRMS_TRAP_LENGTH = 0x0600,           /* a length that does not serve */
    CRMS_TRAP_CHARACTER = 0x0700,        /* a character where a number is wanted */
    /* class 8, values */
    CRMS_TRAP_INTEGER_OVERFLOW = 0x0801, /* the result of two integers is above 8,388,607 in magnitude */
    CRMS_TRAP_FLOAT_UNDERFLOW = 0x0802,  /* a float result, not zero, is below 2^-128 in magnitude */
    CRMS_TRAP_FLOAT_OVERFLOW = 0x0803,   /* a float result is 2^128 or more in magnitude after rounding */
    CRMS_TRAP_DIVISION = 0x0804,         /* QUOTIENT with zero as its second operand */
    CRMS_TRAP_VALUE = 0x0805,            /* any other value that does not serve */
    /* class 9, subscripts */
    CRMS_TRAP_SUBSCRIPTS = 0x0901,       /* the number of subscripts is not the array's rank */
    CRMS_TRAP_SUBSCRIPT = 0x0902,        /* a subscript is outside its length */
    /* class 10, variables */
    CRMS_TRAP_UNDEFINED = 0x0A00         /* an undefined variable is loaded, or a function is left while its result is undefined */
};

/* ---- the operators of GENSCALAR, by their places in the manual's table: the bytes of a table that is lent */
enum crms_operator {
    /* of one operand */
    CRMS_OPERATOR_IDENTITY = 0,
    CRMS_OPERATOR_NEGATIVE = 1,
    CRMS_OPERATOR_FLOOR = 2,
    CRMS_OPERATOR_CEILING = 3,
    CRMS_OPERATOR_MAGNITUDE = 4,
    CRMS_OPERATOR_NOT = 5,
    CRMS_OPERATOR_TEST_NUMBER = 6,
    CRMS_OPERATOR_CONVERT = 7,
    /* of two operands */
    CRMS_OPERATOR_SUM = 8,
    CRMS_OPERATOR_DIFFERENCE = 9,
    CRMS_OPERATOR_PRODUCT = 10,
    CRMS_OPERATOR_QUOTIENT = 11,
    CRMS_OPERATOR_LOGICAL_PRODUCT = 12,
    CRMS_OPERATOR_LOGICAL_SUM = 13,
    CRMS_OPERATOR_LESS = 14,
    CRMS_OPERATOR_EQUAL = 15,
    CRMS_OPERATORS = 16 /* how many there are: the length of a table */
};

/* ---- the counts of a tally, by the family of an instruction's first byte */
enum crms_family {
    CRMS_FAMILY_SHORTLOCAL = 0, /* 00-3F */
    CRMS_FAMILY_SHORTCONST = 1, /* 40-5F */
    CRMS_FAMILY_GENSCALAR = 2,  /* 60-7F */
    CRMS_FAMILY_MEMREF = 3,     /* 80-9F */
    CRMS_FAMILY_ETC = 4,        /* A0-BF */
    CRMS_FAMILY_LONGLOCAL = 5,  /* C0-CF */
    CRMS_FAMILY_LONGGLOBAL = 6, /* D0-DF */
    CRMS_FAMILY_INDEX = 7,      /* E0-EF */
    CRMS_FAMILIES = 8           /* how many there are */
};

/* ---- the counts of a sheet, in words of array storage; the first four add up to the fifth */
enum crms_sheet_count {
    CRMS_SHEET_ARRAYS = 0, /* SIZE of the arrays, each once, however many cells share it */
    CRMS_SHEET_SLOP = 1,   /* words given to an array beyond its SIZE */
    CRMS_SHEET_FREE = 2,   /* SIZE of the free blocks: an array that needs more words than these finds storage full */
    CRMS_SHEET_END = 3,    /* the three words of the dummy block */
    CRMS_SHEET_TOTAL = 4,  /* all words of array storage */
    CRMS_SHEET_COUNTS = 5  /* how many there are */
};

/* A fresh data segment, whose bottom frame runs function `function` of procedure segment `segment` (0 regular, 1 alternate), with
 * `globals` globals, which start at address 8, and `array_words` words of array storage. Gives the status. */
uint32_t crms_lay_out(uint32_t *data, size_t n, const uint8_t *regular, size_t nr, const uint8_t *alternate, size_t na,
                      uint32_t segment, uint32_t function, uint32_t globals, uint32_t array_words);

/* At most `budget` instructions. Gives status * 2^32 + the number of instructions that finished. */
uint64_t crms_run(uint32_t *data, size_t n, const uint8_t *regular, size_t nr, const uint8_t *alternate, size_t na, uint32_t budget);

/* The same under a table for code that numbers the operators in its own way: byte i is the operator, by enum crms_operator, that
 * suboperation i of GENSCALAR means, whose first byte is 0x60 + i. Each operator stands in it once, those of one operand where they
 * like. Suboperations 16 to 31 mean nothing under any table. crms_run is this under the manual's table, 0 to 15. */
uint64_t crms_run_with(uint32_t *data, size_t n, const uint8_t *regular, size_t nr, const uint8_t *alternate, size_t na,
                       const uint8_t *table, size_t nt, uint32_t budget);

/* The value of these lengths and element words becomes the value of a global; rank 0 is one scalar. Gives the status. */
uint32_t crms_load(uint32_t *data, size_t n, const uint8_t *regular, size_t nr, const uint8_t *alternate, size_t na, uint32_t global,
                   const uint32_t *lengths, size_t rank, const uint32_t *elements, size_t count);

/* The loads and runs of a file of imports, as if each were called by itself, up to the first trap or refusal. Gives status * 2^32 +
 * the place, from 0, of the first byte of the record that halted it, where the status is not CRMS_DONE; a run that did as many
 * instructions as asked goes on. Of a place the low 32 bits are told: all of it in a file of at most 2^32 bytes.
 *
 * A record is numbers in groups of seven bits, the low group first, a top bit meaning that another group follows; at most four
 * groups, and the last of several is not 0. A load is 0, the global's address, the rank, the lengths, then the elements, each an
 * integer up to 8,388,607; a run is 1 and its budget. A record with a rank above 15 or over 16,384 elements is none.
 *
 * The tally is zeroed; then each finished instruction counts in its family, enum crms_family. A count stays at 4,294,967,295. */
uint64_t crms_replay(uint32_t *data, size_t n, const uint8_t *regular, size_t nr, const uint8_t *alternate, size_t na,
                     const uint8_t *file, size_t nf, uint32_t tally[CRMS_FAMILIES]);

/* The same with every run under a table, as crms_run_with is. A table that is refused halts it at the first record that runs. */
uint64_t crms_replay_with(uint32_t *data, size_t n, const uint8_t *regular, size_t nr, const uint8_t *alternate, size_t na,
                          const uint8_t *table, size_t nt, const uint8_t *file, size_t nf, uint32_t tally[CRMS_FAMILIES]);

/* What a global holds. Gives status * 2^32 + rank * 2^28 + first * 2^14 + count: `first` is the address in the data segment of the
 * first of `count` element words (a scalar: rank 0, the global's own address, count 1); the lengths are the `rank` words before it. */
uint64_t crms_look(const uint32_t *data, size_t n, const uint8_t *regular, size_t nr, const uint8_t *alternate, size_t na,
                   uint32_t global);

/* Where the words of array storage went. Gives the status; where it is CRMS_DONE, the counts are those of enum crms_sheet_count, and
 * else they are as they were. */
uint32_t crms_sheet(const uint32_t *data, size_t n, const uint8_t *regular, size_t nr, const uint8_t *alternate, size_t na,
                    uint32_t counts[CRMS_SHEET_COUNTS]);

/* ---- the parts of what run, replay and look give */
static inline uint32_t crms_status_of(uint64_t answer) { return (uint32_t)(answer >> 32); }
static inline uint32_t crms_steps_of(uint64_t answer) { return (uint32_t)(answer & 0xFFFFFFFFu); }
static inline uint32_t crms_place_of(uint64_t answer) { return (uint32_t)(answer & 0xFFFFFFFFu); }
static inline uint32_t crms_rank_of(uint64_t answer) { return (uint32_t)((answer >> 28) & 15); }
static inline uint32_t crms_first_of(uint64_t answer) { return (uint32_t)((answer >> 14) & 16383); }
static inline uint32_t crms_count_of(uint64_t answer) { return (uint32_t)(answer & 16383); }

/* ---- the parts of word 3 after a trap */
static inline uint32_t crms_trap_class(const uint32_t *data) { return (data[3] >> 8) & 255; }
static inline uint32_t crms_trap_number(const uint32_t *data) { return data[3] & 255; }

#ifdef __cplusplus
}
#endif

#endif
