/* How long edits of a store take (`edit_entry` and `edit_slot`, by way of the static library `test_timed`), on stores
   that are written here as docs/LAYOUT.md says. Each call makes an edit many times and tests the store once; the time
   of that test is left out. Each line is the best of several runs. */
#include <stdint.h>
#include <stdio.h>
#include <string.h>
#include <time.h>

#define STORE                                                                                                          \
    uint64_t *, size_t, uint64_t *, size_t, uint64_t *, size_t, int64_t *, size_t, const uint8_t *, size_t, uint8_t *, \
        size_t
size_t timed_place(STORE, size_t, const uint8_t *, size_t, const uint8_t *, size_t);
size_t timed_insert(STORE, size_t, const uint8_t *, size_t, const uint8_t *, size_t);
size_t timed_remove(STORE, size_t, size_t);
size_t timed_contents(STORE, size_t, const uint8_t *, size_t, const uint8_t *, size_t, size_t);

enum { RUNS = 200, MOST = 4096, SPARE = 32, NAME = 10, CELLS = 33792, ROOM = 1048576, EDITS = 64, KIB = 1024 };
enum { DIRECTORY = 1, FILE_KIND = 2 };

struct store {
    uint64_t words[102], records[MOST], heads[MOST + SPARE];
    int64_t times[4 * (MOST + SPARE)];
    uint8_t paths[CELLS], bytes[ROOM];
};
static struct store made, st;
#define LENT                                                                                                           \
    st.words, 102, st.records, MOST, st.heads, MOST + SPARE, st.times, 4 * (MOST + SPARE), st.paths, CELLS, st.bytes,  \
        ROOM

static uint8_t names[EDITS * NAME], text[KIB], other[KIB];

static double now(void) {
    struct timespec t;
    clock_gettime(CLOCK_MONOTONIC, &t);
    return (double)t.tv_sec * 1e9 + (double)t.tv_nsec;
}

/* The next entry in the order of a walk. Its slot has the same number. */
static void entry(uint64_t depth, uint64_t kind, uint64_t length, unsigned number) {
    uint64_t i = made.words[2]++, name = depth ? NAME : 0;
    char s[NAME + 1];
    made.records[i] = depth | name << 16 | i << 24;
    made.words[101] = i + 1;
    made.heads[i] = length | kind << 24 | (uint64_t)0755 << 32;
    if (!depth)
        return;
    snprintf(s, sizeof s, "table%05u", number);
    memcpy(made.bytes + (i - 1) * NAME, s, NAME);
}

/* n entries, all but one files in the root: the first with `first` bytes, the others with `each`, the last with `last`. */
static void files(size_t n, uint64_t first, uint64_t each, uint64_t last) {
    memset(&made, 0, sizeof made);
    memset(made.bytes, 'a', ROOM);
    made.words[0] = MOST;
    made.words[1] = ROOM;
    made.words[3] = 0666;
    entry(0, DIRECTORY, 0, 0);
    for (size_t i = 1; i < n; i++)
        entry(1, FILE_KIND, i == 1 ? first : i + 1 == n ? last : each, (unsigned)(10 * i));
}

/* The names of the files to be made: before those that are there, among them in the middle, or behind them. */
static void new_names(unsigned from) {
    char s[NAME + 1];
    for (unsigned i = 0; i < EDITS; i++) {
        snprintf(s, sizeof s, "table%05u", from + (from < 50000 ? i / 9 * 10 + i % 9 + 1 : i));
        memcpy(names + i * NAME, s, NAME);
    }
}

static size_t at, bytes_each; /* of which record, and with how many bytes */

static size_t insert(size_t n) {
    return timed_insert(LENT, 0, names, n * NAME, text, bytes_each);
}

/* The same without the edit. */
static size_t place(size_t n) {
    return timed_place(LENT, 0, names, n * NAME, text, bytes_each);
}

static size_t take_out(size_t n) {
    return timed_remove(LENT, at, n);
}

static size_t replace(size_t n) {
    return 2 * timed_contents(LENT, at, text, bytes_each, other, KIB, n / 2);
}

static int missed;

static double best_of(size_t (*edit)(size_t), size_t n) {
    double best = 1e18;
    for (int r = 0; r < RUNS; r++) {
        st = made;
        double t = now();
        size_t k = edit(n);
        t = now() - t;
        if (k != n)
            return -1;
        if (t < best)
            best = t;
    }
    return best;
}

/* Of n edits one, in microseconds; what `before` takes for m is left out. */
static double each(size_t (*edit)(size_t), size_t n, size_t (*before)(size_t), size_t m) {
    double all = best_of(edit, n), rest = best_of(before, m);
    return all < 0 || rest < 0 ? -1 : (all - rest) / (double)n / 1000;
}

/* goal: microseconds an edit; 0: none is set. */
static void say(const char *name, double us, double goal) {
    if (us < 0) {
        printf("| %-58s | refused\n", name);
        missed++;
        return;
    }
    printf("| %-58s | %7.2f |", name, us);
    if (goal > 0)
        printf(" %5.1f %-6s |\n", goal, us <= goal ? "met" : "MISSED");
    else
        printf(" %-12s |\n", "-");
    if (goal > 0 && us > goal)
        missed++;
}

static void line(const char *name, size_t (*edit)(size_t), double goal) {
    say(name, each(edit, EDITS, edit, 0), goal);
}

/* An insertion whole, and what of it is finding the place and the room. */
static void insertion(const char *name) {
    say(name, each(insert, EDITS, insert, 0), 15);
    say("of it, finding the place and the room", each(place, EDITS, place, 0), 0);
}

/* Files of 8 bytes: 64 entries are made in 4,032, so that the tree is full, or taken out of 4,096. */
static void full_tree(void) {
    bytes_each = 8;
    files(MOST - EDITS, 8, 8, 8);
    new_names(0);
    insertion("insert an entry before all others");
    new_names(20000);
    insertion("insert an entry in the middle");
    new_names(90000);
    insertion("insert an entry behind all others");
    files(MOST, 8, 8, 8);
    at = 1;
    line("remove the first entry of the root", take_out, 15);
    at = MOST / 2;
    line("remove the entry in the middle", take_out, 15);
    at = MOST - EDITS;
    line("remove an entry at the end", take_out, 15);
}

/* The same where contents fill the byte limit, so that bytes move too: those of the slots before the entry's. */
static void full_bytes(void) {
    uint64_t rest = ROOM - (MOST - 1) * NAME - KIB - (MOST - 3) * 8;
    files(MOST, rest, 8, KIB);
    at = MOST - EDITS;
    line("remove an entry, 970 KB of contents stand before its own", take_out, 0);
    at = MOST - 1;
    bytes_each = KIB;
    line("replace 1 KiB, 1 MiB full, by as much", replace, 100);
    bytes_each = KIB - 1;
    line("replace 1 KiB, 1 MiB full, by a byte less and back", replace, 100);
}

int main(void) {
    memset(text, 't', KIB);
    memset(other, 'o', KIB);
    printf("| %-58s | %7s | %-12s |\n", "", "us", "goal");
    printf("|:-----------------------------------------------------------|--------:|:-------------|\n");
    full_tree();
    full_bytes();
    printf("\ngoals missed: %d\n", missed);
    return 0;
}
