/*
 * A store, written and read as docs/LAYOUT.md says, without any of the library's code.
 */
#ifndef TESTS_C_STORE_H
#define TESTS_C_STORE_H

#include "jobtree.h"

#include <stdlib.h>
#include <string.h>

/* The words of a store. File number n has three, NUMBER_WORDS * n behind those of number 0. */
enum {
    MOST_AT = 0,
    ROOM_AT = 1,
    COUNT_AT = 2,
    MASK_AT = 3,
    HERE_AT = 4,
    HOLDER_AT = 5,
    POSITION_AT = 6,
    KEPT_AT = 7,
    NUMBER_WORDS = 3,
    EXTENT_AT = 101
};

/* The lengths of words and paths, the file numbers, and the umask of a fresh store. */
enum { WORDS = 102, CELL = 1024, PATHS = 33 * CELL, NUMBERS = 32, UMASK = 0666 };

/* An entry. A file without a path has lost its name: it has a slot and no record. */
struct row {
    const char *path;
    enum jobtree_kind kind;
    uint32_t mode;
    int64_t times[4];
    const char *bytes;
    uint64_t length;
};

/* A text and its length. */
#define TEXT(s) (s), sizeof(s) - 1

static uint64_t kind_in_store(enum jobtree_kind kind)
{
    return kind == JOBTREE_DIRECTORY ? 1 : kind == JOBTREE_FILE ? 2 : 3;
}

static uint64_t depth_of(uint64_t record) { return record & 0xffff; }
static uint64_t name_length(uint64_t record) { return record >> 16 & 0xff; }
static uint64_t slot_of(uint64_t record) { return record >> 24; }
static uint64_t length_of(uint64_t head) { return head & 0xffffff; }

static uint64_t record_word(uint64_t depth, uint64_t length, uint64_t slot) { return slot << 24 | length << 16 | depth; }
static uint64_t head_word(uint64_t length, uint64_t kind, uint64_t mode) { return mode << 32 | kind << 24 | length; }

/* The words of a store without entries. */
static void write_fresh(struct jobtree *tree, uint64_t most, uint64_t room)
{
    memset(tree->words, 0, WORDS * sizeof(uint64_t));
    tree->words[MOST_AT] = most;
    tree->words[ROOM_AT] = room;
    tree->words[MASK_AT] = UMASK;
}

/* The order of a walk is that of the paths with `/` below every byte of a name. */
static int walk_order(const char *a, const char *b)
{
    while (*a != 0 && *a == *b)
        a++, b++;
    if (*a == 0 || *b == 0)
        return (*a != 0) - (*b != 0);
    if (*a == '/' || *b == '/')
        return *a == '/' ? -1 : 1;
    return (uint8_t)*a < (uint8_t)*b ? -1 : 1;
}

static const struct row *const *compared;

static int by_walk(const void *a, const void *b)
{
    return walk_order((*compared)[*(const uint32_t *)a].path, (*compared)[*(const uint32_t *)b].path);
}

/* The entries, with row k in slot k. */
static void write_rows(struct jobtree *tree, const struct row *rows, uint64_t count)
{
    static uint32_t order[JOBTREE_MOST_ENTRIES];
    uint64_t i, k, named = 0, left = 0, right = tree->words[ROOM_AT];
    for (k = 0; k < count; k++)
        if (rows[k].path != NULL)
            order[named++] = (uint32_t)k;
    compared = &rows;
    qsort(order, named, sizeof order[0], by_walk);
    for (i = 0; i < named; i++) {
        const char *path = rows[order[i]].path, *name = strrchr(path, '/') + 1, *at;
        const uint64_t length = strlen(name);
        uint64_t depth = 0;
        for (at = path; *at != 0; at++)
            depth += *at == '/';
        if (length == 0)
            depth = 0; /* the root, whose path is `/` */
        tree->records[i] = record_word(depth, length, order[i]);
        memcpy(tree->bytes + left, name, length);
        left += length;
    }
    for (k = count; k-- > 0;) {
        right -= rows[k].length;
        memcpy(tree->bytes + right, rows[k].bytes, rows[k].length);
        tree->heads[k] = head_word(rows[k].length, kind_in_store(rows[k].kind), rows[k].mode);
        memcpy(tree->times + 4 * k, rows[k].times, sizeof rows[k].times);
    }
    tree->words[COUNT_AT] = named;
    tree->words[EXTENT_AT] = count;
}

static void write_current_dir(struct jobtree *tree, const char *path)
{
    const size_t length = strlen(path);
    memcpy(tree->paths, path, length);
    tree->words[HERE_AT] = length;
}

static void write_number(struct jobtree *tree, uint32_t n, uint64_t slot, uint64_t position, const char *path)
{
    uint64_t *words = tree->words + NUMBER_WORDS * n;
    const size_t length = strlen(path);
    words[HOLDER_AT] = slot + 1;
    words[POSITION_AT] = position;
    words[KEPT_AT] = length;
    memcpy(tree->paths + CELL * (n + 1), path, length);
}

static uint64_t word_of(const struct jobtree *tree, uint32_t n, int at) { return tree->words[NUMBER_WORDS * n + (uint32_t)at]; }

/* The bytes of a slot: those of all slots lie in their order and end at the byte limit. */
static const uint8_t *contents_of(const struct jobtree *tree, uint64_t slot)
{
    uint64_t k, at = tree->words[ROOM_AT];
    for (k = tree->words[EXTENT_AT]; k-- > slot;)
        at -= length_of(tree->heads[k]);
    return tree->bytes + at;
}

static uint64_t bytes_used(const struct jobtree *tree)
{
    uint64_t i, sum = 0;
    for (i = 0; i < tree->words[COUNT_AT]; i++)
        sum += name_length(tree->records[i]);
    for (i = 0; i < tree->words[EXTENT_AT]; i++)
        sum += length_of(tree->heads[i]);
    return sum;
}

/* The record that has the slot of file number n, or the number of records where that file has no name. */
static uint64_t record_held(const struct jobtree *tree, uint32_t n)
{
    uint64_t i = 0;
    while (i < tree->words[COUNT_AT] && slot_of(tree->records[i]) + 1 != word_of(tree, n, HOLDER_AT))
        i++;
    return i;
}

static int same_slot(const struct jobtree *a, uint64_t i, const struct jobtree *b, uint64_t k)
{
    return a->heads[i] == b->heads[k] && memcmp(a->times + 4 * i, b->times + 4 * k, 4 * sizeof(int64_t)) == 0
           && memcmp(contents_of(a, i), contents_of(b, k), length_of(a->heads[i])) == 0;
}

static int same_kept(const struct jobtree *a, const struct jobtree *b, uint32_t cell, uint64_t length_a, uint64_t length_b)
{
    return length_a == length_b && memcmp(a->paths + CELL * cell, b->paths + CELL * cell, length_a) == 0;
}

static int same_number(const struct jobtree *a, const struct jobtree *b, uint32_t n)
{
    const uint64_t on_a = word_of(a, n, HOLDER_AT), on_b = word_of(b, n, HOLDER_AT);
    uint32_t m;
    if (on_a == 0 || on_b == 0)
        return on_a == on_b;
    for (m = 0; m < n; m++)
        if ((word_of(a, m, HOLDER_AT) == on_a) != (word_of(b, m, HOLDER_AT) == on_b))
            return 0;
    return word_of(a, n, POSITION_AT) == word_of(b, n, POSITION_AT)
           && same_kept(a, b, n + 1, word_of(a, n, KEPT_AT), word_of(b, n, KEPT_AT)) && record_held(a, n) == record_held(b, n)
           && same_slot(a, on_a - 1, b, on_b - 1);
}

/* Whether the two hold the same tree, open files, current directory, umask and limits: all that is read back of a store. */
static int same_state(const struct jobtree *a, const struct jobtree *b)
{
    uint64_t i, left = 0;
    uint32_t n;
    if (memcmp(a->words, b->words, HERE_AT * sizeof(uint64_t)) != 0 || !same_kept(a, b, 0, a->words[HERE_AT], b->words[HERE_AT]))
        return 0;
    for (i = 0; i < a->words[COUNT_AT]; i++) {
        const uint64_t x = a->records[i], y = b->records[i];
        if (depth_of(x) != depth_of(y) || name_length(x) != name_length(y) || !same_slot(a, slot_of(x), b, slot_of(y))
            || memcmp(a->bytes + left, b->bytes + left, name_length(x)) != 0)
            return 0;
        left += name_length(x);
    }
    for (n = 0; n < NUMBERS; n++)
        if (!same_number(a, b, n))
            return 0;
    return 1;
}

#endif
