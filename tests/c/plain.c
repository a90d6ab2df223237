/* Four calls of document 01, with the landed requests of document 02, in plain C: what a device's makers would write by hand. */

#include <stdbool.h>
#include <stddef.h>
#include <stdint.h>
#include <string.h>

#define BASE UINT32_C(65536)      /* the arena's first address */
#define MARK UINT32_C(0x80000000) /* marks a pointer that lies outside its block */
#define REACH 8                   /* how far outside it may lie */
#define LOCK 0x80                 /* the bit of an entry that locks the block; the others are its order */
#define SLOT 16
#define SLOT_ORDER 4
#define LARGEST_ORDER 16

enum refusal {
    NONE = 0,
    LENGTHS = 8,
    GET_SIZE = 10,
    MARKED = 13,
    DAMAGED = 20,
    NO_FREE_RANGE = 21,
    FREE_SLOT = 22,
    NOT_THE_START = 23,
    BEYOND_REACH = 24,
    OUTSIDE = 27,
    LOCKED = 28
};

typedef struct {
    uint32_t number;
    uint32_t value;
} plain_answer;

/* A live block, by its offset in the arena. */
struct block {
    uint32_t start;
    uint32_t size;
};

static plain_answer accepted(uint32_t value)
{
    return (plain_answer){0, value};
}

static plain_answer refused(enum refusal number)
{
    return (plain_answer){number, 0};
}

static size_t slots_of(unsigned order)
{
    return (size_t)1 << (order - SLOT_ORDER);
}

static bool lengths_fit(size_t arena_len, size_t table_len)
{
    bool power_of_two = (arena_len & (arena_len - 1)) == 0;
    return power_of_two && arena_len >= 32 && arena_len <= 65536 && table_len == arena_len / SLOT;
}

static unsigned order_of(uint8_t entry)
{
    return entry & ~LOCK;
}

/* Its slots must agree in order and lock. */
static bool block_is_good(const uint8_t *table, size_t slots, size_t first)
{
    unsigned order = order_of(table[first]);
    if (order < SLOT_ORDER || order > LARGEST_ORDER)
        return false;
    size_t count = slots_of(order);
    if (count > slots || (first & (count - 1)) != 0)
        return false;
    for (size_t slot = first + 1; slot < first + count; slot++)
        if (table[slot] != table[first])
            return false;
    return true;
}

static bool damaged(const uint8_t *table, size_t slots)
{
    size_t slot = 0;
    while (slot < slots) {
        if (table[slot] == 0) {
            slot++;
        } else {
            if (!block_is_good(table, slots, slot))
                return true;
            slot += slots_of(order_of(table[slot]));
        }
    }
    return false;
}

/* Finds the block that holds a plain address, or says which way it is missing. */
static enum refusal block_at(const uint8_t *table, size_t slots, uint32_t address, struct block *block)
{
    uint32_t offset = address - BASE;
    size_t slot = offset / SLOT;
    if (slot >= slots)
        return OUTSIDE;
    if (table[slot] == 0)
        return FREE_SLOT;
    block->size = UINT32_C(1) << order_of(table[slot]);
    block->start = offset & ~(block->size - 1);
    return NONE;
}

/* Finds the block that a pointer belongs to: a marked one lies in the half of a slot that is next to it. */
static enum refusal referent(const uint8_t *table, size_t slots, uint32_t p, struct block *block)
{
    uint32_t address = p & ~MARK;
    if (p == address)
        return block_at(table, slots, address, block);
    return block_at(table, slots, address % SLOT < REACH ? address - SLOT : address + SLOT, block);
}

/* The slots of the largest aligned range that starts at a slot and has room there. */
static size_t range_at(size_t slot, size_t room)
{
    size_t size = 1;
    while ((slot & size) == 0 && 2 * size <= room)
        size *= 2;
    return size;
}

/* The first slot of the smallest free range of at least `wanted` slots, of equals the lowest; else `slots`. */
static size_t find_place(const uint8_t *table, size_t slots, size_t wanted)
{
    size_t best = slots, best_size = SIZE_MAX;
    size_t slot = 0;
    while (slot < slots) {
        if (table[slot] != 0) {
            slot += slots_of(order_of(table[slot]));
            continue;
        }
        size_t end = slot;
        while (end < slots && table[end] == 0)
            end++;
        while (slot < end) {
            size_t size = range_at(slot, end - slot);
            if (size == wanted)
                return slot;
            if (size > wanted && size < best_size) {
                best = slot;
                best_size = size;
            }
            slot += size;
        }
    }
    return best;
}

plain_answer plain_get(uint8_t *arena, size_t arena_len, uint8_t *table, size_t table_len, uint32_t n)
{
    if (!lengths_fit(arena_len, table_len))
        return refused(LENGTHS);
    if (n == 0 || n > arena_len)
        return refused(GET_SIZE);
    if (damaged(table, table_len))
        return refused(DAMAGED);
    unsigned order = SLOT_ORDER;
    while (UINT32_C(1) << order < n)
        order++;
    size_t slot = find_place(table, table_len, slots_of(order));
    if (slot == table_len)
        return refused(NO_FREE_RANGE);
    size_t start = slot * SLOT;
    memset(table + slot, (int)order, slots_of(order));
    memset(arena + start, 0, (size_t)1 << order);
    return accepted(BASE + (uint32_t)start);
}

plain_answer plain_give(const uint8_t *arena, size_t arena_len, uint8_t *table, size_t table_len, uint32_t p)
{
    (void)arena;
    if (!lengths_fit(arena_len, table_len))
        return refused(LENGTHS);
    if (damaged(table, table_len))
        return refused(DAMAGED);
    struct block block;
    enum refusal missing = referent(table, table_len, p, &block);
    if (missing)
        return refused(missing);
    if (p & MARK)
        return refused(MARKED);
    if (p - BASE != block.start)
        return refused(NOT_THE_START);
    if (table[block.start / SLOT] & LOCK)
        return refused(LOCKED);
    memset(table + block.start / SLOT, 0, block.size / SLOT);
    return accepted(0);
}

plain_answer plain_step(const uint8_t *arena, size_t arena_len, const uint8_t *table, size_t table_len, uint32_t p,
                        uint32_t i)
{
    (void)arena;
    if (!lengths_fit(arena_len, table_len))
        return refused(LENGTHS);
    if (damaged(table, table_len))
        return refused(DAMAGED);
    struct block block;
    enum refusal missing = referent(table, table_len, p, &block);
    if (missing)
        return refused(missing);
    int64_t address = (int64_t)(p & ~MARK) + (int32_t)i;
    int64_t start = (int64_t)BASE + block.start;
    int64_t end = start + block.size;
    if (address >= start && address < end)
        return accepted((uint32_t)address);
    if (address >= start - REACH && address < end + REACH)
        return accepted((uint32_t)address | MARK);
    return refused(BEYOND_REACH);
}

plain_answer plain_left(const uint8_t *arena, size_t arena_len, const uint8_t *table, size_t table_len, uint32_t p)
{
    (void)arena;
    if (!lengths_fit(arena_len, table_len))
        return refused(LENGTHS);
    if (damaged(table, table_len))
        return refused(DAMAGED);
    struct block block;
    enum refusal missing = referent(table, table_len, p, &block);
    if (missing)
        return refused(missing);
    if (p & MARK)
        return refused(MARKED);
    return accepted(block.start + block.size - (p - BASE));
}
