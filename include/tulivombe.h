/* The heap with baggy bounds and the runner of takes, for the device's C and C++ code.
 *
 * Link with crates/cabi/out/libcabi.a, which `rt lib --cpu=x86-64` in crates/cabi makes for any x86-64. It needs
 * memset and memmove of the C library.
 *
 * Lent buffers. The heap owns no memory: each call is lent the arena (a power of two from 32 to 65,536
 * bytes) and the table (one byte for each 16 bytes of the arena) and keeps neither. A buffer of n bytes
 * is passed as a pointer and then n. Any length and any content may be passed and is judged, but:
 *   - the pointer is not null and its n bytes can be read (and written, where it is not const);
 *   - no two buffers of one call overlap, where one of them is not const;
 *   - no other thread writes them during the call.
 * The same holds of lent registers, a pointer to one struct.
 *
 * The table. A free slot has the entry 0. Each slot of a block of 2^e bytes has the entry e, or e + 128 where the
 * block is locked. A table that stands for no set of blocks in this way is damaged.
 *
 * Pointers. A pointer into the heap is a number: the arena's first byte has the address 65536. With the
 * top bit set (TULIVOMBE_MARK) it is marked: it lies up to 8 bytes outside its block, and only
 * tulivombe_step takes it. Its block is sought one slot of 16 bytes back (address mod 16 below 8) or on
 * (else); that of a plain pointer is sought at its own address.
 *
 * Answers. `number` is 0 or says why the call was refused; a refused call has value 0 and changes
 * nothing. Where several reasons apply, the first of the call's list ("Refused: ..") is given, which need not be
 * the smallest number: 27 is judged before 22, and 13 after both. So of a marked pointer whose block is gone,
 * that is told first.
 *
 * Locks. On a locked block write, fill, copy into it and give are refused 28, judged last. Anyone may unlock it: a
 * lock keeps a block from being edited or given back by accident, and no more (docs/MANUAL.md, "Locked blocks").
 *
 * Repeats. A take may go back to an earlier record (operation 11), so a run is given a budget: how many records
 * it may carry out, each counted as often as it is carried out. It says whether it stopped for it
 * (docs/MANUAL.md, "A take").
 *
 * Guests. The bytes of one block can be kept from a guest who makes calls on the same heap: docs/MANUAL.md,
 * "A hidden block", says which calls to hold back.
 */
#ifndef TULIVOMBE_H
#define TULIVOMBE_H

#include <stdbool.h>
#include <stddef.h>
#include <stdint.h>

#ifdef __cplusplus
extern "C" {
#endif

#define TULIVOMBE_BASE UINT32_C(65536)
#define TULIVOMBE_MARK UINT32_C(2147483648)
#define TULIVOMBE_REGISTERS 16
#define TULIVOMBE_SCREENFUL 64
#define TULIVOMBE_MOST_STEPS 4096   /* records that a run carries out at most */
#define TULIVOMBE_LONGEST_FILE 8192 /* bytes of a take */
#define TULIVOMBE_ANSWER_LENGTH 5   /* bytes of an answer: number, then value big-endian */
#define TULIVOMBE_CALL_LENGTH 14    /* bytes of a call in a replay */

/* What `number` can say. 1 to 13, 26, 29 and 30 speak of the input, 20 to 25, 27 and 28 of the heap's state; a call's
 * 13 is judged among the latter. */
enum tulivombe_number {
    TULIVOMBE_OK = 0,
    TULIVOMBE_VERSION = 1,           /* file empty, or its first byte is not 01 */
    TULIVOMBE_SIZE = 2,              /* size byte missing, or not 5 to 16 */
    TULIVOMBE_FILE_TOO_LONG = 3,     /* file longer than TULIVOMBE_LONGEST_FILE bytes */
    TULIVOMBE_RECORD_LENGTH = 4,     /* record length 0, or more than the bytes left */
    TULIVOMBE_OPERATION = 5,         /* operation not 1 to 13; in a replay, not 1 to 10 or 13 */
    TULIVOMBE_OPERATION_LENGTH = 6,  /* length wrong for the operation */
    TULIVOMBE_REGISTER = 7,          /* register above 15 */
    TULIVOMBE_LENGTHS = 8,           /* arena or table of a wrong length */
    TULIVOMBE_ROOM = 9,              /* answer or output slice too short */
    TULIVOMBE_GET_SIZE = 10,         /* get: n is 0 or above the arena's length */
    TULIVOMBE_WIDTH = 11,            /* width not 1, 2 or 4 */
    TULIVOMBE_VALUE_TOO_WIDE = 12,   /* v does not fit w bytes */
    TULIVOMBE_MARKED = 13,           /* marked pointer in any call but step, its block being there */
    TULIVOMBE_DAMAGED = 20,          /* the table stands for no set of blocks */
    TULIVOMBE_NO_FREE_RANGE = 21,    /* get: no free range is large enough */
    TULIVOMBE_FREE_SLOT = 22,        /* a pointer is sought at a free slot: its block is given back, or was never got */
    TULIVOMBE_NOT_THE_START = 23,    /* give: not the block's start */
    TULIVOMBE_BEYOND_REACH = 24,     /* step: more than 8 bytes outside the block */
    TULIVOMBE_PAST_THE_END = 25,     /* read, write, grid: the last byte lies outside the block */
    TULIVOMBE_TOO_MANY_RECORDS = 26, /* front panel: more than TULIVOMBE_SCREENFUL records */
    TULIVOMBE_OUTSIDE = 27,          /* a pointer is sought outside the arena: it never was one into this heap */
    TULIVOMBE_LOCKED = 28,           /* write, fill, copy into, give: the block is locked */
    TULIVOMBE_NOT_BACK = 29,         /* again: its k is not below the record's own index */
    TULIVOMBE_NOT_IN_GRID = 30       /* grid: the row is not below the rows, or the column not below the columns */
};

/* A call's answer. */
typedef struct {
    uint32_t number;
    uint32_t value;
} tulivombe_answer;

/* A part of the lent arena: `length` bytes from arena + `offset`. Refused, both are 0. */
typedef struct {
    uint32_t number;
    uint32_t offset;
    uint32_t length;
} tulivombe_part;

/* Registers of the caller's own, laid out as those of a run's result. */
typedef struct {
    uint32_t values[TULIVOMBE_REGISTERS];
} tulivombe_registers;

/* A run's result. Refused, registers and count are 0, and it has not stopped. */
typedef struct {
    uint32_t number;
    uint32_t registers[TULIVOMBE_REGISTERS];
    uint32_t count; /* records carried out */
    bool stopped;   /* a record was still due when the budget was spent */
} tulivombe_ran;

/* One record of a take. The comment names the operations that have the field; the reader sets the others to
 * 0, and the writer ignores them. */
typedef struct {
    uint8_t operation; /* 1 get, 2 give, 3 step, 4 read, 5 write, 6 left, 7 copy, 8 fill, 9 lock, 10 unlock,
                          11 again, 12 set, 13 grid */
    uint8_t d;         /* register for the value: get, step, read, left, copy, fill, set, grid; counted down: again */
    uint8_t a;         /* register of p: all but get, again and set */
    uint8_t b;         /* register of q: copy */
    uint8_t byte;      /* w: read, write; v: fill */
    uint16_t index;    /* k: again */
    uint32_t word;     /* n: get, copy, fill, set; i in two's complement: step; v: write */
    uint8_t rows;      /* this and the next three: grid alone */
    uint8_t columns;
    uint8_t row;
    uint8_t column;
} tulivombe_record;

/* What the reader gives. Refused, next is 0 and all fields of the record are 0. */
typedef struct {
    uint32_t number;
    tulivombe_record record;
    size_t next; /* the place after the record */
} tulivombe_place;

/* Makes the heap fresh: arena and table all zero. Refused: 8. Value: 0. */
tulivombe_answer tulivombe_fresh(uint8_t *arena, size_t arena_len, uint8_t *table, size_t table_len);

/* Gets a block of the smallest power of two, from 16 up, that holds n bytes. All bytes of the block become 0,
 * whatever they held, and no other byte of the arena changes; it is not locked. Refused: 8, 10, 20, 21. Value: the
 * block's start. */
tulivombe_answer tulivombe_get(uint8_t *arena, size_t arena_len, uint8_t *table, size_t table_len, uint32_t n);

/* Gives the block that starts at p back. Its bytes stay as they are until a get makes a block of them or the heap
 * is made fresh, as by a run or a replay too. Refused: 8, 20, 27, 22, 13, 23, 28. Value: 0. */
tulivombe_answer tulivombe_give(const uint8_t *arena, size_t arena_len, uint8_t *table, size_t table_len,
                                uint32_t p);

/* Steps from p, plain or marked, by i bytes, a signed number in two's complement. Refused: 8, 20, 27, 22, 24.
 * Value: the sum, marked if it lies up to 8 bytes before or past p's block. */
tulivombe_answer tulivombe_step(const uint8_t *arena, size_t arena_len, const uint8_t *table, size_t table_len,
                                uint32_t p, uint32_t i);

/* Reads w bytes (1, 2 or 4) at p. Refused: 8, 11, 20, 27, 22, 13, 25. Value: the bytes as a big-endian number. */
tulivombe_answer tulivombe_read(const uint8_t *arena, size_t arena_len, const uint8_t *table, size_t table_len,
                                uint32_t p, uint8_t w);

/* Writes v as w bytes (1, 2 or 4), big-endian, at p. Refused: 8, 11, 12, 20, 27, 22, 13, 25, 28. Value: 0. */
tulivombe_answer tulivombe_write(uint8_t *arena, size_t arena_len, const uint8_t *table, size_t table_len,
                                 uint32_t p, uint8_t w, uint32_t v);

/* Counts the bytes from p to the end of its block. Refused: 8, 20, 27, 22, 13. Value: the count. */
tulivombe_answer tulivombe_left(const uint8_t *arena, size_t arena_len, const uint8_t *table, size_t table_len,
                                uint32_t p);

/* Copies up to n bytes from q to p, cut short at the end of either block. Where the two ranges overlap, as with
 * memmove, p gets what q's bytes were before the call. One pointer outside the arena is enough for 27, then one
 * at a free slot for 22, then one that is marked for 13, whichever of the two it is. p's block must not be locked,
 * also if n is 0; q's may be. Refused: 8, 20, 27, 22, 13, 28. Value: the count of bytes copied. */
tulivombe_answer tulivombe_copy(uint8_t *arena, size_t arena_len, const uint8_t *table, size_t table_len,
                                uint32_t p, uint32_t q, uint32_t n);

/* Sets up to n bytes from p to v, cut short at the end of the block, which must not be locked, also if n is 0.
 * Refused: 8, 20, 27, 22, 13, 28. Value: the count of bytes set. */
tulivombe_answer tulivombe_fill(uint8_t *arena, size_t arena_len, const uint8_t *table, size_t table_len,
                                uint32_t p, uint8_t v, uint32_t n);

/* Locks the block that holds p: until it is unlocked, write, fill, copy into it and give are refused. Making
 * the heap fresh asks for no lock. A second lock changes nothing. Refused: 8, 20, 27, 22, 13. Value: 0. */
tulivombe_answer tulivombe_lock(const uint8_t *arena, size_t arena_len, uint8_t *table, size_t table_len,
                                uint32_t p);

/* Unlocks the block that holds p. Where it is not locked, this changes nothing. Refused: 8, 20, 27, 22, 13.
 * Value: 0. */
tulivombe_answer tulivombe_unlock(const uint8_t *arena, size_t arena_len, uint8_t *table, size_t table_len,
                                  uint32_t p);

/* Gives the address of a place in a grid of rows by columns bytes that starts at p: p + row * columns + column, with
 * row and column counted from 0. The whole grid must lie in p's block, which may be locked; nothing is changed.
 * Refused: 8, 30, 20, 27, 22, 13, 25. Value: the address. */
tulivombe_answer tulivombe_grid(const uint8_t *arena, size_t arena_len, const uint8_t *table, size_t table_len,
                                uint32_t p, uint8_t rows, uint8_t columns, uint8_t row, uint8_t column);

/* Checks whether the sum of h, a plain pointer, and i, signed in two's complement, lies in h's block.
 * Refused: 8, 20, 27, 22, 13. Value: 1 or 0. */
tulivombe_answer tulivombe_check(const uint8_t *arena, size_t arena_len, const uint8_t *table, size_t table_len,
                                 uint32_t h, uint32_t i);

/* Shows the bytes from p to the end of its block, without a copy: the part lies in the lent arena. Refused:
 * 8, 20, 27, 22, 13, as left is, and then the part is empty. */
tulivombe_part tulivombe_show(const uint8_t *arena, size_t arena_len, const uint8_t *table, size_t table_len,
                              uint32_t p);

/* Runs a take, an upload from a computer, on a heap that it first makes fresh. The arena must have 2^m
 * bytes, m the file's size byte. At most `budget` records are carried out; a budget above TULIVOMBE_MOST_STEPS
 * counts as TULIVOMBE_MOST_STEPS. The answer slice must hold TULIVOMBE_ANSWER_LENGTH bytes for each record of the
 * budget, whatever the file has, and gets them for each record carried out: number, then value big-endian; its
 * bytes past them stay. A file without operation 11 needs a budget of as many records as it has. The file is judged
 * whole before any call, its records in their order, each for 4 to 7 and then 29; a refused record ends nothing.
 * Refused: 1 to 7 and 29, 8, 9, and then nothing is changed. */
tulivombe_ran tulivombe_run(const uint8_t *file, size_t file_len, uint8_t *arena, size_t arena_len,
                            uint8_t *table, size_t table_len, uint8_t *answers, size_t answers_len,
                            uint32_t budget);

/* Runs a take from the front panel, whose screen can list TULIVOMBE_SCREENFUL records: a good file of more is
 * refused 26, whatever is lent. In every other case the outcome is that of tulivombe_run, refusals included.
 * Refused: 1 to 7 and 29, 26, 8, 9, and then nothing is changed. */
tulivombe_ran tulivombe_run_panel(const uint8_t *file, size_t file_len, uint8_t *arena, size_t arena_len,
                                  uint8_t *table, size_t table_len, uint8_t *answers, size_t answers_len,
                                  uint32_t budget);

/* Puts v in register d of lent registers, and changes no other. Refused: 7, and then nothing is changed. Returns
 * the number. */
uint32_t tulivombe_put_register(tulivombe_registers *registers, uint8_t d, uint32_t v);

/* Makes a list of calls on a heap that it first makes fresh, and stores TULIVOMBE_ANSWER_LENGTH bytes a call in
 * `out`, as a run does; its bytes past them stay. A call is TULIVOMBE_CALL_LENGTH bytes: the operation as in a
 * record, a byte x, and three numbers a, b, c in 4 bytes each, big-endian:
 *     1 get a, 2 give a, 3 step a b, 4 read a x, 5 write a x b, 6 left a, 7 copy a b c, 8 fill a x c,
 *     9 lock a, 10 unlock a, 13 grid a with the four bytes of b, in their order, for rows, columns, row and column
 * with the arguments in the order of the calls above; what a call does not name is not looked at.
 * There may be any number of calls. Refused: 4 (no whole number of calls), 5 (in any of them), 8, 9, and then
 * nothing is changed. Returns the number. */
uint32_t tulivombe_replay(uint8_t *arena, size_t arena_len, uint8_t *table, size_t table_len,
                          const uint8_t *calls, size_t calls_len, uint8_t *out, size_t out_len);

/* Reads the record at a place of a file. The first record is at 2; any place may be asked for, and one at the
 * file's end or past it is refused 4. The head and the rest of the file are not judged, nor whether an again goes
 * back (29), which a run does. Refused: 4 to 7. */
tulivombe_place tulivombe_read_record(const uint8_t *file, size_t file_len, size_t at);

/* Stores the two head bytes of a file for an arena of 2^m bytes. Refused: 2, 9. Value: 2. */
tulivombe_answer tulivombe_write_head(uint8_t *out, size_t out_len, uint32_t m);

/* Stores one record; `out` starts where it shall stand, and bytes past it stay. Fields are stored as they
 * are; only the operation and the registers are judged. Refused: 5, 7, 9. Value: the count of bytes. */
tulivombe_answer tulivombe_write_record(uint8_t *out, size_t out_len, tulivombe_record record);

#ifdef __cplusplus
}
#endif

#endif
