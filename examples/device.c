/* A device's session: direct calls on a heap of 64 bytes, a take written record by record, and its run by both callers. */

#include <stdio.h>

#include "tulivombe.h"

static uint8_t arena[64];
static uint8_t table[4];

static void print_answer(const char *call, tulivombe_answer answer)
{
    printf("%-30s %2u %u\n", call, (unsigned)answer.number, (unsigned)answer.value);
}

static void direct_calls(void)
{
    tulivombe_answer block, past;
    tulivombe_part part;

    print_answer("fresh", tulivombe_fresh(arena, sizeof arena, table, sizeof table));
    block = tulivombe_get(arena, sizeof arena, table, sizeof table, 20);
    print_answer("get 20", block);
    print_answer("write 4 bytes at the start",
                 tulivombe_write(arena, sizeof arena, table, sizeof table, block.value, 4, 0xDECAFBADu));
    print_answer("read 2 of them", tulivombe_read(arena, sizeof arena, table, sizeof table, block.value + 1, 2));
    print_answer("fill 9, cut short", tulivombe_fill(arena, sizeof arena, table, sizeof table, block.value + 28, 7, 9));
    print_answer("copy 4", tulivombe_copy(arena, sizeof arena, table, sizeof table, block.value + 8, block.value, 4));
    past = tulivombe_step(arena, sizeof arena, table, sizeof table, block.value, 32);
    print_answer("step to the byte past the end", past);
    print_answer("read there", tulivombe_read(arena, sizeof arena, table, sizeof table, past.value, 1));
    print_answer("step back by 5",
                 tulivombe_step(arena, sizeof arena, table, sizeof table, past.value, (uint32_t)-5));
    print_answer("left from there", tulivombe_left(arena, sizeof arena, table, sizeof table, block.value + 27));
    print_answer("check 31", tulivombe_check(arena, sizeof arena, table, sizeof table, block.value, 31));
    print_answer("check 32", tulivombe_check(arena, sizeof arena, table, sizeof table, block.value, 32));
    print_answer("grid of 4 by 8, row 3 column 7",
                 tulivombe_grid(arena, sizeof arena, table, sizeof table, block.value, 4, 8, 3, 7));
    print_answer("grid of 5 by 8, too large",
                 tulivombe_grid(arena, sizeof arena, table, sizeof table, block.value, 5, 8, 0, 0));
    part = tulivombe_show(arena, sizeof arena, table, sizeof table, block.value + 26);
    printf("show %u:", (unsigned)part.number);
    for (uint32_t k = 0; k < part.length; k++) {
        printf(" %02x", (unsigned)arena[part.offset + k]);
    }
    printf("\n");
    print_answer("give", tulivombe_give(arena, sizeof arena, table, sizeof table, block.value));
    print_answer("give again", tulivombe_give(arena, sizeof arena, table, sizeof table, block.value));
}

/* Document 01's take. It repeats nothing, so a budget of as many records carries out all of it. */
static const tulivombe_record records[] = {
    {1, 0, 0, 0, 0, 0, 20, 0, 0, 0, 0},           /* get d0 20 */
    {1, 1, 0, 0, 0, 0, 16, 0, 0, 0, 0},           /* get d1 16 */
    {3, 2, 0, 0, 0, 0, 32, 0, 0, 0, 0},           /* step d2 a0 32 */
    {4, 3, 2, 0, 1, 0, 0, 0, 0, 0, 0},            /* read d3 a2 1 */
    {3, 2, 2, 0, 0, 0, (uint32_t)-1, 0, 0, 0, 0}, /* step d2 a2 -1 */
    {1, 4, 0, 0, 0, 0, 32, 0, 0, 0, 0},           /* get d4 32 */
    {2, 0, 0, 0, 0, 0, 0, 0, 0, 0, 0},            /* give a0 */
};
#define RECORDS (sizeof records / sizeof records[0])

static size_t write_take(uint8_t *file, size_t room)
{
    size_t at = tulivombe_write_head(file, room, 6).value;
    for (size_t k = 0; k < RECORDS; k++) {
        at += tulivombe_write_record(file + at, room - at, records[k]).value;
    }
    return at;
}

static void run_take(const uint8_t *file, size_t length)
{
    uint8_t answers[TULIVOMBE_ANSWER_LENGTH * RECORDS];
    tulivombe_ran ran =
        tulivombe_run(file, length, arena, sizeof arena, table, sizeof table, answers, sizeof answers, RECORDS);
    size_t at = 2;

    printf("take of %u bytes: number %u, %u records, register 2 holds %u\n", (unsigned)length,
           (unsigned)ran.number, (unsigned)ran.count, (unsigned)ran.registers[2]);
    for (uint32_t k = 0; k < ran.count; k++) {
        const uint8_t *b = answers + TULIVOMBE_ANSWER_LENGTH * k;
        tulivombe_place place = tulivombe_read_record(file, length, at);
        uint32_t value = (uint32_t)b[1] << 24 | (uint32_t)b[2] << 16 | (uint32_t)b[3] << 8 | b[4];
        printf("%u: operation %u, next record at %u: %u %u\n", (unsigned)k, (unsigned)place.record.operation,
               (unsigned)place.next, (unsigned)b[0], (unsigned)value);
        at = place.next;
    }
    ran = tulivombe_run_panel(file, length, arena, sizeof arena, table, sizeof table, answers, sizeof answers,
                              RECORDS);
    printf("from the panel: number %u, %u records, register 2 holds %u\n", (unsigned)ran.number,
           (unsigned)ran.count, (unsigned)ran.registers[2]);
    ran = tulivombe_run(file, length, arena, sizeof arena, table, sizeof table, answers, sizeof answers, 3);
    printf("with a budget of 3: number %u, %u records, %s\n", (unsigned)ran.number, (unsigned)ran.count,
           ran.stopped ? "stopped" : "ended");
    ran = tulivombe_run(file, length - 1, arena, sizeof arena, table, sizeof table, answers, sizeof answers, RECORDS);
    printf("cut short: number %u, %u records\n", (unsigned)ran.number, (unsigned)ran.count);
}

static void replay_calls(void)
{
    static const uint8_t calls[] = {
        1, 0, 0, 0, 0, 64, 0, 0, 0, 0, 0, 0, 0, 0, /* get 64 */
        6, 0, 0, 1, 0, 60, 0, 0, 0, 0, 0, 0, 0, 0, /* left 65596 */
        2, 0, 0, 1, 0, 1, 0, 0, 0, 0, 0, 0, 0, 0,  /* give 65537 */
    };
    uint8_t out[sizeof calls / TULIVOMBE_CALL_LENGTH * TULIVOMBE_ANSWER_LENGTH];
    uint32_t number =
        tulivombe_replay(arena, sizeof arena, table, sizeof table, calls, sizeof calls, out, sizeof out);
    printf("replay %u: numbers %u %u %u, left %u\n", (unsigned)number, (unsigned)out[0],
           (unsigned)out[TULIVOMBE_ANSWER_LENGTH], (unsigned)out[2 * TULIVOMBE_ANSWER_LENGTH],
           (unsigned)out[2 * TULIVOMBE_ANSWER_LENGTH - 1]);
}

int main(void)
{
    uint8_t file[64];

    direct_calls();
    run_take(file, write_take(file, sizeof file));
    replay_calls();
    return 0;
}
