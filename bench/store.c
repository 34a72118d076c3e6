/* How long the test of refusal 1 takes (`lawful`, by way of the static library `test_probe`), on stores that are written
   here as docs/LAYOUT.md says. Each line is the best of several runs. */
#include <stdint.h>
#include <stdio.h>
#include <string.h>
#include <time.h>

uint32_t probe_store(const uint64_t *, size_t, const uint64_t *, size_t, const uint64_t *, size_t, const int64_t *,
                     size_t, const uint8_t *, size_t, const uint8_t *, size_t);

enum { RUNS = 200, MOST = 4096, SPARE = 32, NAME = 10, CELLS = 33792, ROOM = 1048576 };
enum { DIRECTORY = 1, FILE_KIND = 2, LINK = 3 };

static uint64_t words[102], records[MOST], heads[MOST + SPARE];
static int64_t times[4 * (MOST + SPARE)];
static uint8_t paths[CELLS], bytes[ROOM];
static size_t slots[MOST + SPARE]; /* the slot of each entry */
static size_t limit, held; /* held: the bytes that the slots have so far */
static volatile uint64_t sink;

static double now(void) {
    struct timespec t;
    clock_gettime(CLOCK_MONOTONIC, &t);
    return (double)t.tv_sec * 1e9 + (double)t.tv_nsec;
}

/* A fresh store. What stands in the words of slots that it does not have is not 0. */
static void set_up(size_t entries) {
    memset(words, 0, sizeof words);
    memset(heads, 0xff, sizeof heads);
    words[0] = limit = entries;
    words[1] = ROOM;
    words[3] = 0666;
    held = 0;
    for (size_t i = 0; i < MOST + SPARE; i++)
        slots[i] = i;
}

/* Slots in no order: the last is the first entry's, and the others are mixed. */
static void scatter(void) {
    size_t last = limit + SPARE - 1;
    uint32_t x = 1;
    for (size_t i = last; i > 1; i--) {
        x = x * 1664525u + 1013904223u;
        size_t j = (x >> 8) % i, s = slots[i - 1];
        slots[i - 1] = slots[j];
        slots[j] = s;
    }
    slots[last] = slots[0];
    slots[0] = last;
}

/* The next entry in the order of a walk. */
static void entry(uint64_t depth, uint64_t kind, uint64_t length) {
    uint64_t i = words[2]++, name = depth ? NAME : 0;
    char s[NAME + 1];
    records[i] = depth | name << 16 | (uint64_t)slots[i] << 24;
    for (; words[101] <= slots[i]; words[101]++)
        heads[words[101]] = 0;
    heads[slots[i]] = length | kind << 24 | (uint64_t)0755 << 32;
    if (!depth)
        return;
    snprintf(s, sizeof s, "table%05u", (unsigned)i);
    memcpy(bytes + (i - 1) * NAME, s, NAME);
    held += length;
}

/* The bytes of the slots, at the right: every target and all contents are the same 8 letters. */
static void slots_right(void) {
    for (size_t at = ROOM - held; at < ROOM; at += 8)
        memcpy(bytes + at, "contents", 8);
}

/* What entry i is where it need not hold others: by turns two directories, a file, a link. */
static uint64_t kind_of(size_t i) {
    return i % 4 == 2 ? FILE_KIND : i % 4 == 3 ? LINK : DIRECTORY;
}

static void leaf(uint64_t depth, size_t i) {
    uint64_t kind = kind_of(i);
    entry(depth, kind, kind == DIRECTORY ? 0 : 8);
}

/* n entries, all in the root. */
static void in_the_root(size_t n) {
    entry(0, DIRECTORY, 0);
    for (size_t i = 1; i < n; i++)
        leaf(1, i);
    slots_right();
}

/* The same under an entry limit that may be higher. */
static void flat(size_t n, size_t entries) {
    set_up(entries);
    in_the_root(n);
}

/* The same with their slots in no order, free ones among them up to the last. */
static void scattered(size_t n, size_t entries) {
    set_up(entries);
    scatter();
    in_the_root(n);
}

/* Directories in the root, each with 15 entries: 16 with itself. */
static void sixteens(size_t n) {
    set_up(n);
    entry(0, DIRECTORY, 0);
    for (size_t i = 1; i < n; i++)
        if (i % 16 == 1)
            entry(1, DIRECTORY, 0);
        else
            leaf(2, i);
    slots_right();
}

/* All in the root, and links. */
static void links(size_t n) {
    set_up(n);
    entry(0, DIRECTORY, 0);
    for (size_t i = 1; i < n; i++)
        entry(1, LINK, 8);
    slots_right();
}

/* Each in the one before: directories only, but for the last, which is a file. */
static void chain(size_t n) {
    set_up(n);
    entry(0, DIRECTORY, 0);
    for (size_t i = 1; i < n; i++)
        entry(i, i + 1 < n ? DIRECTORY : FILE_KIND, i + 1 < n ? 0 : 8);
    slots_right();
}

static uint32_t test(void) {
    return probe_store(words, 102, records, limit, heads, limit + SPARE, times, 4 * (limit + SPARE), paths, CELLS,
                       bytes, ROOM);
}

static double run(long count) {
    double t = now();
    for (long k = 0; k < count; k++)
        sink += test();
    return now() - t;
}

static int missed;

/* goal: nanoseconds an entry; 0: none is set. */
static void line(const char *name, double goal) {
    long count = 4;
    double best = 1e18;
    if (test() != 0) {
        printf("| %-40s | refused\n", name);
        missed++;
        return;
    }
    while (run(count) < 1e6)
        count *= 2;
    for (int r = 0; r < RUNS; r++) {
        double t = run(count) / (double)count;
        if (t < best)
            best = t;
    }
    size_t n = (size_t)words[2];
    double each = n ? best / (double)n : 0;
    printf("| %-40s | %7zu | %5zu | %9.1f |", name, n, limit, best);
    if (n)
        printf(" %8.2f |", each);
    else
        printf(" %8s |", "-");
    if (goal > 0)
        printf(" %4.1f %-6s |\n", goal, each <= goal ? "met" : "MISSED");
    else
        printf(" %-11s |\n", "-");
    if (goal > 0 && each > goal)
        missed++;
}

/* Stores that are full: as many entries as the limit. */
static void full(size_t n) {
    flat(n, n);
    line("all in the root", 10);
    sixteens(n);
    line("directories of 16", 10);
    chain(n);
    line("a chain", 10);
}

/* What the slots cost that no entry has, and links. */
static void others(void) {
    set_up(511);
    line("no entry", 0);
    set_up(MOST);
    line("no entry", 0);
    flat(511, MOST);
    line("all in the root, the limit not reached", 0);
    scattered(512, MOST);
    line("all in the root, slots scattered", 0);
    links(511);
    line("all in the root, links only", 0);
}

int main(void) {
    printf("| %-40s | %7s | %5s | %9s | %8s | %-11s |\n", "", "entries", "limit", "ns", "ns/entry", "goal");
    printf("|:-----------------------------------------|--------:|------:|----------:|---------:|:------------|\n");
    full(511);
    full(MOST);
    others();
    printf("\ngoals missed: %d\n", missed);
    return 0;
}
