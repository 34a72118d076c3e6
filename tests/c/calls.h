/*
 * A call, what it is lent, and what it is held to.
 *
 * Each call is held to its refusal, its answer, its link count, and every byte of what it was lent: what lies behind an answer stays,
 * and both working buffers are zero, over their whole length and no further. A call that asks, and one that is refused, leaves every
 * byte of the six slices as it was, the spare elements behind them too. Of a call that changes the store, the slices that it is lent to
 * read stay byte by byte, and what is read back of the store (the tree, open files, current directory, umask, limits) is what is due:
 * how the bytes of a store lie is the library's choice.
 */
#ifndef TESTS_C_CALLS_H
#define TESTS_C_CALLS_H

#include "store.h"

#include <pthread.h>
#include <stdarg.h>
#include <stdio.h>
#include <sys/mman.h>
#include <unistd.h>

/* ---- the store that is called, and the one that is due */

/* Elements that each slice has beyond what the limits ask. */
enum { SPARE = 3 };

enum { MEMORY = (WORDS + 6 * 4096 + 5 * 32 + 4 * SPARE) * 8 + PATHS + 1048576 + 2 * 8 * SPARE };

static uint64_t got_memory[MEMORY / 8], due_memory[MEMORY / 8];
static struct jobtree got, due;
static size_t in_use;

/* Cuts memory into slices with spare elements behind what the limits ask. */
static void lay(struct jobtree *tree, uint64_t *memory, uint64_t most, uint64_t room)
{
    tree->words = memory;
    tree->words_count = WORDS + SPARE;
    tree->records = tree->words + tree->words_count;
    tree->records_count = most + SPARE;
    tree->heads = tree->records + tree->records_count;
    tree->heads_count = most + NUMBERS + SPARE;
    tree->times = (int64_t *)(tree->heads + tree->heads_count);
    tree->times_count = 4 * (most + NUMBERS) + SPARE;
    tree->paths = (uint8_t *)(tree->times + tree->times_count);
    tree->paths_count = PATHS + 8 * SPARE;
    tree->bytes = tree->paths + tree->paths_count;
    tree->bytes_count = room + SPARE;
    in_use = (size_t)(tree->bytes + tree->bytes_count - (uint8_t *)memory);
}

/* A store without entries, in memory that holds nothing lawful. */
static void new_store(uint64_t most, uint64_t room)
{
    lay(&due, due_memory, most, room);
    lay(&got, got_memory, most, room);
    memset(got_memory, '?', in_use);
    write_fresh(&got, most, room);
}

/* ---- a call, and what it is lent */

enum call {
    SET_UP,
    METADATA,
    SYMLINK_METADATA,
    CANONICALIZE,
    READ,
    READ_LINK,
    LIST,
    SET_CURRENT_DIR,
    SET_UMASK,
    CLOSE,
    READ_NUMBER,
    SEEK,
    SET_LENGTH,
    SET_MODE_NUMBER,
    SET_TIMES_NUMBER,
    METADATA_NUMBER,
    CURRENT_DIR,
    USAGE,
    NUMBER,
    CALLS
};

/* The slices that a call is lent to write. */
enum slice { IN_WORDS = 1, IN_RECORDS = 2, IN_HEADS = 4, IN_TIMES = 8, IN_PATHS = 16, IN_BYTES = 32 };

static const struct {
    const char *name;
    int walks, takes_number, writes;
} about[CALLS] = {
    [SET_UP] = {"set up", 0, 0, IN_WORDS | IN_RECORDS | IN_HEADS | IN_TIMES | IN_PATHS | IN_BYTES},
    [METADATA] = {"metadata", 1, 0, 0},
    [SYMLINK_METADATA] = {"symlink metadata", 1, 0, 0},
    [CANONICALIZE] = {"canonicalize", 1, 0, 0},
    [READ] = {"read", 1, 0, 0},
    [READ_LINK] = {"read link", 1, 0, 0},
    [LIST] = {"list", 1, 0, 0},
    [SET_CURRENT_DIR] = {"set current directory", 1, 0, IN_WORDS | IN_PATHS},
    [SET_UMASK] = {"set umask", 0, 0, IN_WORDS},
    [CLOSE] = {"close", 0, 1, IN_WORDS | IN_HEADS | IN_BYTES},
    [READ_NUMBER] = {"read by number", 0, 1, IN_WORDS},
    [SEEK] = {"seek", 0, 1, IN_WORDS},
    [SET_LENGTH] = {"set length", 0, 1, IN_HEADS | IN_BYTES},
    [SET_MODE_NUMBER] = {"set mode by number", 0, 1, IN_HEADS},
    [SET_TIMES_NUMBER] = {"set times by number", 0, 1, IN_TIMES},
    [METADATA_NUMBER] = {"metadata by number", 1, 1, 0},
    [CURRENT_DIR] = {"current directory read back", 0, 0, 0},
    [USAGE] = {"usage read back", 0, 0, 0},
    [NUMBER] = {"number read back", 0, 1, 0},
};

/* The arguments. */
static struct given {
    const char *path;
    uint64_t path_count;
    uint64_t most, room, offset, size;
    uint32_t n, origin, mask, mode, flags;
    int64_t accessed, modified;
} given;

/* What is lent beside the store: how it was left, and how it is due. It is longer than what the call is told. */
enum { WORK = 1024, LONGEST_OUT = 40960, LONGEST_ROWS = 7 * 4100, BEHIND = 40 };

struct lent {
    uint8_t first[WORK + BEHIND], second[WORK + BEHIND], out[LONGEST_OUT];
    int64_t rows[LONGEST_ROWS];
    uint64_t numbers[8], number, position, length, links;
};

static struct lent left_in, due_in;
static uint64_t first_count, second_count, out_count, rows_count, numbers_count;

static void lend_enough(void)
{
    first_count = WORK;
    second_count = WORK + 7;
    out_count = LONGEST_OUT - BEHIND;
    rows_count = LONGEST_ROWS - BEHIND;
    numbers_count = 6;
}

#define SIX                                                                                                            \
    got.words, got.words_count, got.records, got.records_count, got.heads, got.heads_count, got.times,                 \
        got.times_count, got.paths, got.paths_count, got.bytes, got.bytes_count
#define WORKING left_in.first, first_count, left_in.second, second_count
#define PATH (const uint8_t *)given.path, given.path_count
#define OUT left_in.out, out_count
#define ROWS left_in.rows, rows_count
#define LINKS &left_in.links

/* The names stand in parentheses, so these are the library's functions and not the header's inline ones. */
static uint32_t make(enum call call)
{
    switch (call) {
    case SET_UP: return (jobtree_set_up)(SIX, given.most, given.room);
    case METADATA: return (jobtree_metadata)(SIX, WORKING, PATH, ROWS, LINKS);
    case SYMLINK_METADATA: return (jobtree_symlink_metadata)(SIX, WORKING, PATH, ROWS, LINKS);
    case CANONICALIZE: return (jobtree_canonicalize)(SIX, WORKING, PATH, OUT, &left_in.number, LINKS);
    case READ: return (jobtree_read)(SIX, WORKING, PATH, OUT, &left_in.number, LINKS);
    case READ_LINK: return (jobtree_read_link)(SIX, WORKING, PATH, OUT, &left_in.number, LINKS);
    case LIST: return (jobtree_list)(SIX, WORKING, PATH, OUT, ROWS, &left_in.number, LINKS);
    case SET_CURRENT_DIR: return (jobtree_set_current_dir)(SIX, WORKING, PATH, LINKS);
    case SET_UMASK: return (jobtree_set_umask)(SIX, given.mask, &left_in.number);
    case CLOSE: return (jobtree_close)(SIX, given.n);
    case READ_NUMBER: return (jobtree_read_number)(SIX, given.n, OUT, &left_in.number);
    case SEEK: return (jobtree_seek)(SIX, given.n, given.origin, given.offset, &left_in.number);
    case SET_LENGTH: return (jobtree_set_length)(SIX, given.n, given.size);
    case SET_MODE_NUMBER: return (jobtree_set_mode_number)(SIX, given.n, given.mode);
    case SET_TIMES_NUMBER: return (jobtree_set_times_number)(SIX, given.n, given.flags, given.accessed, given.modified);
    case METADATA_NUMBER: return (jobtree_metadata_number)(SIX, WORKING, given.n, ROWS, LINKS);
    case CURRENT_DIR: return (jobtree_current_dir)(SIX, OUT, &left_in.number);
    case USAGE: return (jobtree_usage)(SIX, left_in.numbers, numbers_count);
    case NUMBER: return (jobtree_number)(SIX, given.n, OUT, &left_in.position, &left_in.length);
    default: abort();
    }
}

#undef SIX
#undef WORKING
#undef PATH
#undef OUT
#undef ROWS
#undef LINKS

/* ---- what a call is held to */

static unsigned calls, differences, differences_before;
static const char *case_name = "";

/* Of a case that goes wrong everywhere the first differences are enough. */
static int silent(void) { return differences - differences_before > 20; }

__attribute__((format(printf, 1, 2))) static void differ(const char *form, ...)
{
    va_list words;
    differences++;
    if (silent())
        return;
    printf("DIFFERENT  %s: ", case_name);
    va_start(words, form);
    vprintf(form, words);
    va_end(words);
    printf("\n");
}

static void expect(int holds, const char *what)
{
    if (!holds)
        differ("%s", what);
}

static void say_call(enum call call)
{
    if (silent())
        return;
    printf("           in %s", about[call].name);
    if (about[call].walks && !about[call].takes_number)
        printf(" of `%.*s`", given.path_count > 60 ? 60 : (int)given.path_count, given.path);
    if (about[call].takes_number)
        printf(" %lu", (unsigned long)given.n);
    printf("\n");
}

/* The first byte in which two parts differ, or their length. */
static size_t first_difference(const void *a, const void *b, size_t length)
{
    const uint8_t *x = (const uint8_t *)a, *y = (const uint8_t *)b;
    size_t i = 0;
    if (memcmp(a, b, length) == 0)
        return length;
    while (x[i] == y[i])
        i++;
    return i;
}

static void hold(const char *what, const void *is, const void *is_due, size_t length)
{
    const size_t at = first_difference(is, is_due, length);
    if (at < length)
        differ("%s differs from byte %zu of %zu on", what, at, length);
}

static void hold_number(const char *what, uint64_t is, uint64_t is_due)
{
    if (is != is_due)
        differ("%s is %llu, due is %llu", what, (unsigned long long)is, (unsigned long long)is_due);
}

/* From here on a call is due to change nothing, until a test writes into due and due_in. */
static void nothing_due(void)
{
    memcpy(due_memory, got_memory, in_use);
    memset(&due_in, 0xc3, sizeof due_in);
}

/* What the store is after an accepted call: due byte by byte, or by what is read back of it. */
enum how { EXACT, ALIKE };

static void hold_slices(enum how how, int writes)
{
    const struct {
        const char *name;
        const void *is, *is_due;
        size_t length;
        int slice;
    } slices[6] = {
        {"words", got.words, due.words, got.words_count * sizeof(uint64_t), IN_WORDS},
        {"records", got.records, due.records, got.records_count * sizeof(uint64_t), IN_RECORDS},
        {"heads", got.heads, due.heads, got.heads_count * sizeof(uint64_t), IN_HEADS},
        {"times", got.times, due.times, got.times_count * sizeof(int64_t), IN_TIMES},
        {"paths", got.paths, due.paths, got.paths_count, IN_PATHS},
        {"bytes", got.bytes, due.bytes, got.bytes_count, IN_BYTES},
    };
    int i;
    for (i = 0; i < 6; i++)
        if (how == EXACT || !(writes & slices[i].slice))
            hold(slices[i].name, slices[i].is, slices[i].is_due, slices[i].length);
    if (how == EXACT) {
        /* The counts may have been lowered for the call; this is the whole memory. */
        hold("memory", got_memory, due_memory, in_use);
        return;
    }
    if (!same_state(&got, &due))
        differ("what is read back of the store differs");
    hold("words behind the limits", got.words + WORDS, due.words + WORDS, SPARE * sizeof(uint64_t));
    hold("heads behind the limits", got.heads + got.heads_count - SPARE, due.heads + due.heads_count - SPARE, SPARE * sizeof(uint64_t));
    hold("times behind the limits", got.times + got.times_count - SPARE, due.times + due.times_count - SPARE, SPARE * sizeof(int64_t));
    hold("paths behind the limits", got.paths + PATHS, due.paths + PATHS, 8 * SPARE);
    hold("bytes behind the limits", got.bytes + got.bytes_count - SPARE, due.bytes + due.bytes_count - SPARE, SPARE);
}

/* Makes the call and compares everything; answers whether nothing differs. */
static int made(enum call call, uint32_t refusal, enum how how)
{
    const unsigned before = differences;
    uint32_t answered;
    memset(&left_in, 0xc3, sizeof left_in);
    if (about[call].walks) {
        memset(due_in.first, 0, first_count);
        memset(due_in.second, 0, second_count);
    }
    answered = make(call);
    if (answered != refusal)
        differ("answered %lu (%s), due is %lu (%s)", (unsigned long)answered, jobtree_refusal_text(answered), (unsigned long)refusal,
               jobtree_refusal_text(refusal));
    hold("first working buffer", left_in.first, due_in.first, sizeof due_in.first);
    hold("second working buffer", left_in.second, due_in.second, sizeof due_in.second);
    hold("output of bytes", left_in.out, due_in.out, sizeof due_in.out);
    hold("output of rows", left_in.rows, due_in.rows, sizeof due_in.rows);
    hold("output of numbers", left_in.numbers, due_in.numbers, sizeof due_in.numbers);
    hold_number("number", left_in.number, due_in.number);
    hold_number("position", left_in.position, due_in.position);
    hold_number("length", left_in.length, due_in.length);
    hold_number("link count", left_in.links, due_in.links);
    hold_slices(how, about[call].writes);
    calls++;
    if (differences != before)
        say_call(call);
    nothing_due();
    return differences == before;
}

/* ---- calls with what is due of them */

static void at_bytes(const char *path, uint64_t count)
{
    given.path = path;
    given.path_count = count;
}

static void at(const char *path) { at_bytes(path, strlen(path)); }

static void refused(enum call call, uint32_t refusal) { made(call, refusal, EXACT); }

/* Every call with a path is refused alike. */
static void all_refused(uint32_t refusal)
{
    int call;
    for (call = METADATA; call <= SET_CURRENT_DIR; call++)
        refused((enum call)call, refusal);
}

/* Every call with a path that has to find what the path leads to, a last link followed. */
static void following_refused(uint32_t refusal)
{
    refused(METADATA, refusal);
    refused(CANONICALIZE, refusal);
    refused(READ, refusal);
    refused(LIST, refusal);
    refused(SET_CURRENT_DIR, refusal);
}

static void due_row(uint64_t place, const struct row *row)
{
    int64_t *numbers = due_in.rows + 7 * place;
    numbers[0] = row->kind;
    numbers[1] = row->kind == JOBTREE_FILE ? (int64_t)row->length : 0;
    numbers[2] = row->mode;
    memcpy(numbers + 3, row->times, sizeof row->times);
}

static void shows(enum call call, const struct row *row, uint64_t links)
{
    due_row(0, row);
    due_in.links = links;
    made(call, 0, EXACT);
}

static void gives(enum call call, const char *bytes, uint64_t length, uint64_t links)
{
    memcpy(due_in.out, bytes, length);
    due_in.number = length;
    due_in.links = links;
    made(call, 0, EXACT);
}

/* The names with a zero byte behind each, and for each its row. */
static void lists(const char *names, uint64_t length, const struct row *const *rows, uint64_t count, uint64_t links)
{
    uint64_t i;
    memcpy(due_in.out, names, length);
    for (i = 0; i < count; i++)
        due_row(i, rows[i]);
    due_in.number = count;
    due_in.links = links;
    made(LIST, 0, EXACT);
}

/* A path as it is shown: `/` for the root, which is kept as no byte. */
static uint64_t due_path(const uint8_t *cell, uint64_t length)
{
    if (length == 0) {
        due_in.out[0] = '/';
        return 1;
    }
    memcpy(due_in.out, cell, length);
    return length;
}

/* Everything that can be read back by calls, against the slices. */
static void reads_back(void)
{
    const uint32_t n = given.n;
    due_in.numbers[0] = got.words[MASK_AT];
    due_in.numbers[1] = got.words[MOST_AT];
    due_in.numbers[2] = got.words[ROOM_AT];
    due_in.numbers[3] = got.words[COUNT_AT];
    due_in.numbers[4] = bytes_used(&got);
    made(USAGE, 0, EXACT);
    due_in.number = due_path(got.paths, got.words[HERE_AT]);
    made(CURRENT_DIR, 0, EXACT);
    for (given.n = 0; given.n < NUMBERS; given.n++) {
        if (word_of(&got, given.n, HOLDER_AT) == 0) {
            refused(NUMBER, JOBTREE_BAD_NUMBER);
            continue;
        }
        due_in.position = word_of(&got, given.n, POSITION_AT);
        due_in.length = due_path(got.paths + CELL * (given.n + 1), word_of(&got, given.n, KEPT_AT));
        made(NUMBER, 0, EXACT);
    }
    given.n = n;
}

/* A call that changes the store into the one that is due. */
static void changes(enum call call)
{
    const int as_due = made(call, 0, ALIKE);
    lend_enough();
    if (as_due)
        reads_back();
}

/* The number of the arguments is open no more. */
static void closes(void)
{
    due.words[NUMBER_WORDS * given.n + HOLDER_AT] = 0;
    changes(CLOSE);
}

static void goes_to(const char *path, uint64_t links)
{
    write_current_dir(&due, path);
    due_in.links = links;
    changes(SET_CURRENT_DIR);
}

static void seeks(uint32_t origin, uint64_t offset, uint64_t position)
{
    given.origin = origin;
    given.offset = offset;
    due.words[NUMBER_WORDS * given.n + POSITION_AT] = position;
    due_in.number = position;
    changes(SEEK);
}

static void seek_refused(uint32_t origin, uint64_t offset)
{
    given.origin = origin;
    given.offset = offset;
    refused(SEEK, JOBTREE_BAD_SEEK);
}

static void reads_on(uint64_t lent, const char *bytes, uint64_t length)
{
    out_count = lent;
    memcpy(due_in.out, bytes, length);
    due_in.number = length;
    due.words[NUMBER_WORDS * given.n + POSITION_AT] += length;
    changes(READ_NUMBER);
}

/* ---- all cases of a program */

struct test_case {
    const char *name, *what;
    void (*run)(void);
};

struct test_run {
    const struct test_case *cases;
    unsigned count, calls;
};

static void *run_cases(void *argument)
{
    struct test_run *const run = (struct test_run *)argument;
    unsigned i;
    for (i = 0; i < run->count; i++) {
        calls = 0;
        differences_before = differences;
        case_name = run->cases[i].name;
        memset(&given, 0, sizeof given);
        at("");
        lend_enough();
        run->cases[i].run();
        printf("%-8s %5u calls  %s%s\n", case_name, calls, run->cases[i].what, differences == differences_before ? "" : ": DIFFERENT");
        fflush(stdout);
        run->calls += calls;
    }
    return NULL;
}

/* Runs all cases on a stack of 1 MiB with an unmapped page below it. Answers how much of it was ever written, 0 where there is none. */
static size_t run_on_small_stack(struct test_run *run)
{
    enum { STACK = 1048576, MARK = 0xa5 };
    const size_t guard = (size_t)sysconf(_SC_PAGESIZE);
    uint8_t *const memory = (uint8_t *)mmap(NULL, guard + STACK, PROT_READ | PROT_WRITE, MAP_PRIVATE | MAP_ANONYMOUS, -1, 0);
    pthread_attr_t attributes;
    pthread_t thread;
    size_t untouched = 0;
    if (memory == MAP_FAILED || mprotect(memory, guard, PROT_NONE) != 0)
        return 0;
    memset(memory + guard, MARK, STACK);
    if (pthread_attr_init(&attributes) != 0 || pthread_attr_setstack(&attributes, memory + guard, STACK) != 0
        || pthread_create(&thread, &attributes, run_cases, run) != 0 || pthread_join(thread, NULL) != 0)
        return 0;
    while (untouched < STACK && memory[guard + untouched] == MARK)
        untouched++;
    return STACK - untouched;
}

/* What main returns. */
static int run_all(const struct test_case *cases, unsigned count)
{
    struct test_run run = {cases, count, 0};
    const size_t stack = run_on_small_stack(&run);
    if (stack == 0) {
        printf("no stack of 1 MiB to run on\n");
        return 2;
    }
    printf("%u cases, %u calls, %u differences; of 1 MiB of stack %zu bytes were used\n", count, run.calls, differences, stack);
    return differences == 0 ? 0 : 1;
}

#endif
