/* How long each call of the static library `jobtree` takes on a job's tree, how much of that is the test of refusal 1, and
   how long the Rust that is ported takes for the same on the same tree (calls.rs). The store is written by the tests' writer
   (tests/c/store.h). Each of many rounds times the test alone and then the call; a line is the median of those rounds that were
   disturbed least. */
#define _POSIX_C_SOURCE 200809L
#include "../tests/c/store.h"

#include <alloca.h>
#include <stdarg.h>
#include <stdio.h>
#include <time.h>

enum { PASSES = 8, IN_PASS = 500, ROUNDS = PASSES * IN_PASS, BEST = ROUNDS / 4 }; /* of each line */
enum { SMALL = 511, LARGE = 4000, LONGEST = 64, PICTURES = 30, MORE = 100 };

/* ---- the Rust; what it is asked for has the same numbers in calls.rs */

enum {
    RUST_CANONICALIZE,
    RUST_SET_CURRENT_DIR,
    RUST_SET_UMASK,
    RUST_READ,
    RUST_METADATA,
    RUST_SYMLINK_METADATA,
    RUST_READ_LINK,
    RUST_LIST,
    RUST_CLOSE,
    RUST_CLOSE_REMOVED,
    RUST_READ_NUMBER,
    RUST_SEEK,
    RUST_SET_LENGTH,
    RUST_SET_LENGTH_MORE,
    RUST_SET_MODE,
    RUST_SET_TIMES,
    RUST_METADATA_NUMBER,
    RUST_SET_UP,
    RUST_CURRENT_DIR,
    NO_RUST
};

#ifdef WITH_RUST
void *rust_new(void);
void rust_add(void *, uint32_t kind, const char *path, size_t len, const char *bytes, size_t length);
void rust_begin(void *, const char *here, size_t len, const char *opened, size_t opened_len);
double rust_time(void *, uint32_t which, const char *path, size_t len, uint64_t *answer);
#else
/* Without the Rust its columns stay empty. */
static void *rust_new(void) { return NULL; }
static void rust_add(void *job, uint32_t kind, const char *path, size_t len, const char *bytes, size_t length)
{
    (void)job, (void)kind, (void)path, (void)len, (void)bytes, (void)length;
}
static void rust_begin(void *job, const char *here, size_t len, const char *opened, size_t opened_len)
{
    (void)job, (void)here, (void)len, (void)opened, (void)opened_len;
}
static double rust_time(void *job, uint32_t which, const char *path, size_t len, uint64_t *answer)
{
    (void)job, (void)which, (void)path, (void)len, (void)answer;
    return 0;
}
#endif

/* ---- the tree */

static struct row rows[JOBTREE_MOST_ENTRIES];
static char paths[JOBTREE_MOST_ENTRIES][LONGEST], contents[512];
static uint64_t count, wanted;

/* The next entry, as long as some are wanted. */
__attribute__((format(printf, 4, 5))) static void add(enum jobtree_kind kind, const char *bytes, uint64_t length,
                                                      const char *form, ...)
{
    const struct row row = {paths[count], kind, 0644, {4, 3, 2, 1}, bytes, length};
    va_list words;
    if (count == wanted)
        return;
    va_start(words, form);
    vsnprintf(paths[count], LONGEST, form, words);
    va_end(words);
    rows[count++] = row;
}

static void add_directory(const char *path) { add(JOBTREE_DIRECTORY, "", 0, "%s", path); }
static void add_link(const char *path, const char *target) { add(JOBTREE_LINK, target, strlen(target), "%s", path); }

/* Lengths of 40 to 300 bytes, so that about half of the byte limit is used. */
static void add_file(const char *path) { add(JOBTREE_FILE, contents, 40 + count * 37 % 261, "%s", path); }

/* A time zone: two tables, which are the deepest entries. */
static void add_zone(const char *area, const char *zone)
{
    char path[LONGEST];
    snprintf(path, sizeof path, "%.40s/%.10s", area, zone);
    add_directory(path);
    add(JOBTREE_FILE, contents, 300, "%s/moon.txt", path);
    add(JOBTREE_FILE, contents, 120, "%s/phases.txt", path);
}

static void add_area(const char *month, const char *area, const char *first, const char *second)
{
    char path[LONGEST], link[LONGEST];
    snprintf(path, sizeof path, "%.20s/zones/%.10s", month, area);
    add_directory(path);
    add_zone(path, first);
    add_zone(path, second);
    snprintf(link, sizeof link, "%.40s/main", path);
    add_link(link, first);
}

static void add_pictures(const char *month)
{
    char path[LONGEST];
    int day;
    snprintf(path, sizeof path, "%.20s/pictures", month);
    add_directory(path);
    for (day = 1; day <= PICTURES; day++) {
        snprintf(path, sizeof path, "%.20s/pictures/day-%02d.png", month, day);
        add_file(path);
    }
}

static void add_month(const char *month)
{
    char path[LONGEST];
    add_directory(month);
    snprintf(path, sizeof path, "%.20s/notes.txt", month);
    add_file(path);
    snprintf(path, sizeof path, "%.20s/moon", month);
    add_link(path, "zones/europe/berlin/moon.txt");
    add_pictures(month);
    snprintf(path, sizeof path, "%.20s/zones", month);
    add_directory(path);
    add_area(month, "africa", "cairo", "nairobi");
    add_area(month, "america", "bogota", "toronto");
    add_area(month, "asia", "dhaka", "tokyo");
    add_area(month, "europe", "berlin", "lisbon");
}

static void add_year(unsigned year)
{
    static const char *const months[] = {"jan", "feb", "mar", "apr", "may", "jun", "jul", "aug", "sep", "oct", "nov", "dec"};
    char path[LONGEST];
    size_t i;
    snprintf(path, sizeof path, "/y%u", year % 100);
    add_directory(path);
    for (i = 0; i < sizeof months / sizeof months[0]; i++) {
        snprintf(path, sizeof path, "/y%u/%s", year % 100, months[i]);
        add_month(path);
    }
}

/* Years from 2021 on, until there are as many entries as wanted; `latest` leads to the month that is looked at. */
static void make_rows(uint64_t entries, const char *month)
{
    unsigned year;
    memset(contents, 'm', sizeof contents);
    count = 0;
    wanted = entries;
    add_directory("/");
    add_link("/latest", month + 1);
    for (year = 2021; count < wanted; year++)
        add_year(year);
}

static uint64_t row_at(const char *path)
{
    uint64_t k = 0;
    while (k < count && strcmp(paths[k], path) != 0)
        k++;
    return k;
}

/* ---- the store */

static struct jobtree tree, kept; /* the store that is called, and how it is at first */
static void *memory, *kept_memory;
static size_t size;
static void *job; /* the Rust's tree */

static char month[LONGEST], table[LONGEST], pictures[LONGEST], link_path[LONGEST], through[LONGEST];
static uint64_t table_slot, table_length, removed_slot;

/* The file numbers that are open: the table that is looked at, and a file that has been removed. Others are on pictures. */
enum { ON_TABLE = 0, ON_REMOVED = 1, OPEN_NUMBERS = 5, NOT_OPEN = 31 };

static void name_paths(uint64_t entries)
{
    snprintf(month, sizeof month, "/y%d/jun", entries < 1000 ? 21 : 23);
    snprintf(table, sizeof table, "%.20s/zones/europe/berlin/moon.txt", month);
    snprintf(pictures, sizeof pictures, "%.20s/pictures", month);
    snprintf(link_path, sizeof link_path, "%.20s/moon", month);
    snprintf(through, sizeof through, "/latest/zones/europe/berlin/moon.txt");
}

static void write_numbers(void)
{
    char path[LONGEST];
    uint32_t n;
    table_slot = row_at(table);
    table_length = rows[table_slot].length;
    removed_slot = count;
    write_number(&tree, ON_TABLE, table_slot, 0, table);
    write_number(&tree, ON_REMOVED, removed_slot, 0, "/draft.txt");
    for (n = 2; n < OPEN_NUMBERS; n++) {
        snprintf(path, sizeof path, "%.40s/day-%02u.png", pictures, (unsigned)n);
        write_number(&tree, n, row_at(path), n, path);
    }
}

/* The same entries, current directory and open numbers in the Rust. */
static void tell_rust(void)
{
    uint64_t k;
    job = rust_new();
    for (k = 0; k < count; k++)
        rust_add(job, rows[k].kind, rows[k].path, strlen(rows[k].path), rows[k].bytes, rows[k].length);
    rust_begin(job, month, strlen(month), table, strlen(table));
}

static int make_store(uint64_t entries, uint64_t most, uint64_t room)
{
    static const struct row removed = {NULL, JOBTREE_FILE, 0644, {4, 3, 2, 1}, contents, 200};
    size = jobtree_size(most, room);
    memory = calloc(1, size);
    kept_memory = calloc(1, size);
    if (memory == NULL || kept_memory == NULL || jobtree_cut(&tree, memory, size, most, room) != 0
        || jobtree_cut(&kept, kept_memory, size, most, room) != 0)
        return 1;
    name_paths(entries);
    make_rows(entries, month);
    rows[count] = removed;
    write_fresh(&tree, most, room);
    write_rows(&tree, rows, count + 1);
    write_current_dir(&tree, month);
    write_numbers();
    memcpy(kept_memory, memory, size);
    tell_rust();
    return 0;
}

/* ---- the calls: the library's functions, so their names stand in parentheses */

static uint8_t first[JOBTREE_WORK_BYTES], second[JOBTREE_WORK_BYTES], out[8192];
static int64_t numbers[JOBTREE_STAT_NUMBERS * 64];
static uint64_t use[JOBTREE_USE_NUMBERS], number, position, links;
static uint64_t answer; /* what the Rust is to answer too */

#define OF(t)                                                                                                              \
    (t).words, (t).words_count, (t).records, (t).records_count, (t).heads, (t).heads_count, (t).times, (t).times_count,    \
        (t).paths, (t).paths_count, (t).bytes, (t).bytes_count
#define SIX OF(tree)
#define WORKING first, sizeof first, second, sizeof second
#define PATH(p) (const uint8_t *)(p), strlen(p)
#define OUT out, sizeof out
#define ROW numbers, sizeof numbers / sizeof numbers[0]

/* Refused for a short buffer, with nothing between that and the test of the store: of the calls the one nearest to it. */
static uint32_t test(void) { return (jobtree_usage)(SIX, use, 0); }

/* Refused for its working buffers, the first thing that a call with a path tests after the store. */
static uint32_t metadata_refused(void)
{
    return (jobtree_metadata)(SIX, first, 0, second, 0, PATH(table), ROW, &links);
}

static uint32_t canonicalize(void)
{
    const uint32_t r = (jobtree_canonicalize)(SIX, WORKING, PATH(through), OUT, &number, &links);
    answer = number;
    return r;
}

static uint32_t set_current_dir(void)
{
    return (jobtree_set_current_dir)(SIX, WORKING, PATH(pictures), &links);
}

static uint32_t set_umask(void)
{
    const uint32_t r = (jobtree_set_umask)(SIX, 022, &number);
    answer = number;
    return r;
}

static uint32_t read_path(void)
{
    const uint32_t r = (jobtree_read)(SIX, WORKING, PATH(table), OUT, &number, &links);
    answer = number;
    return r;
}

static uint32_t metadata(void)
{
    const uint32_t r = (jobtree_metadata)(SIX, WORKING, PATH(table), ROW, &links);
    answer = (uint64_t)numbers[1];
    return r;
}

static uint32_t metadata_through(void)
{
    const uint32_t r = (jobtree_metadata)(SIX, WORKING, PATH(through), ROW, &links);
    answer = (uint64_t)numbers[1];
    return r;
}

/* The header's inline function, which makes the working buffers itself. */
static uint32_t metadata_inline(void)
{
    struct jobtree_stat stat;
    const uint32_t r = jobtree_metadata(&tree, table, strlen(table), &stat, &links);
    answer = (uint64_t)stat.size;
    return r;
}

static uint32_t symlink_metadata(void)
{
    const uint32_t r = (jobtree_symlink_metadata)(SIX, WORKING, PATH(link_path), ROW, &links);
    answer = (uint64_t)numbers[1];
    return r;
}

static uint32_t read_link(void)
{
    const uint32_t r = (jobtree_read_link)(SIX, WORKING, PATH(link_path), OUT, &number, &links);
    answer = number;
    return r;
}

static uint32_t list(void)
{
    const uint32_t r = (jobtree_list)(SIX, WORKING, PATH(pictures), OUT, ROW, &number, &links);
    answer = number;
    return r;
}

static uint32_t close_number(void) { return (jobtree_close)(SIX, ON_TABLE); }
static uint32_t close_removed(void) { return (jobtree_close)(SIX, ON_REMOVED); }
static uint32_t close_refused(void) { return (jobtree_close)(SIX, NOT_OPEN); }

static uint32_t read_number(void)
{
    const uint32_t r = (jobtree_read_number)(SIX, ON_TABLE, OUT, &number);
    answer = number;
    return r;
}

static uint32_t seek(void)
{
    const uint32_t r = (jobtree_seek)(SIX, ON_TABLE, JOBTREE_FROM_END, (uint64_t)-10, &number);
    answer = number;
    return r;
}

static uint32_t set_length(void) { return (jobtree_set_length)(SIX, ON_TABLE, table_length); }

static uint32_t set_length_more(void)
{
    return (jobtree_set_length)(SIX, ON_TABLE, table_length + MORE) | (jobtree_set_length)(SIX, ON_TABLE, table_length);
}

static uint32_t set_mode(void) { return (jobtree_set_mode_number)(SIX, ON_TABLE, 0600); }

static uint32_t set_times(void)
{
    return (jobtree_set_times_number)(SIX, ON_TABLE, JOBTREE_ACCESSED | JOBTREE_MODIFIED, 1000, 2000);
}

static uint32_t metadata_number(void)
{
    const uint32_t r = (jobtree_metadata_number)(SIX, WORKING, ON_TABLE, ROW, &links);
    answer = (uint64_t)numbers[1];
    return r;
}

static uint32_t current_dir(void)
{
    const uint32_t r = (jobtree_current_dir)(SIX, OUT, &number);
    answer = number;
    return r;
}

static uint32_t usage(void) { return (jobtree_usage)(SIX, use, JOBTREE_USE_NUMBERS); }
static uint32_t number_back(void) { return (jobtree_number)(SIX, ON_TABLE, OUT, &position, &number); }

/* Many times, since one is near what the clock can tell. It writes the words alone, so these are put back behind it. */
enum { SET_UPS = 64 };

static uint32_t set_up(void)
{
    const uint64_t most = kept.words[MOST_AT], room = kept.words[ROOM_AT];
    uint32_t k, r = 0;
    for (k = 0; k < SET_UPS; k++)
        r |= (jobtree_set_up)(SIX, most, room);
    return r;
}

/* ---- what stands before a call that would else not be the same again */

static void nothing(void) {}
static void words_back(void) { memcpy(tree.words, kept.words, WORDS * sizeof(uint64_t)); }
static void all_back(void) { memcpy(memory, kept_memory, size); }

/* ---- timing */

struct line {
    const char *name;
    uint32_t (*call)(void);
    void (*before)(void);
    uint32_t calls;   /* how many the function makes */
    uint32_t refusal; /* what it answers */
    uint32_t rust;
    const char *path; /* the one that the call is given, for the Rust */
};

static double now(void)
{
    struct timespec t;
    clock_gettime(CLOCK_MONOTONIC, &t);
    return (double)t.tv_sec * 1e9 + (double)t.tv_nsec;
}

static unsigned failed;

/* One round: what the clock showed for the test and for the call. */
struct round {
    double test, whole;
};

/* Of one line: its rounds, the best time of the Rust, and what both answered. */
struct result {
    struct round rounds[ROUNDS];
    double rust;
    uint64_t answer;
};

static uint32_t tests(uint32_t n)
{
    uint32_t r = JOBTREE_SHORT_BUFFER;
    while (n-- > 0)
        r &= test();
    return r;
}

/* The first test brings the store back into the caches after what stood before; the second is timed, and then the call. */
static void one_round(const struct line *line, struct round *round)
{
    double from, between, to;
    uint32_t tested, answered;
    line->before();
    tested = tests(line->calls);
    from = now();
    tested &= tests(line->calls);
    between = now();
    answered = line->call();
    to = now();
    if (tested != JOBTREE_SHORT_BUFFER || answered != line->refusal)
        failed++;
    round->test = between - from;
    round->whole = to - between;
}

/* The same with the stack moved by some bytes. The test keeps its own numbers there, and how they lie beside those of the
   store makes a hundredth of it or less; the calls stand at other addresses of the stack than the test alone. */
static __attribute__((noinline)) void moved_round(const struct line *line, struct round *round, size_t moved)
{
    volatile uint8_t *space = (volatile uint8_t *)alloca(16 + moved);
    space[0] = 0;
    one_round(line, round);
}

static void time_rust(const struct line *line, struct result *result)
{
    const char *path = line->path == NULL ? "" : line->path;
    uint64_t theirs = result->answer;
    double ns;
    if (line->rust == NO_RUST)
        return;
    ns = rust_time(job, line->rust, path, strlen(path), &theirs);
    if (result->rust == 0 || ns < result->rust)
        result->rust = ns;
    if (theirs != result->answer) {
        printf("DIFFERENT: %s: the Rust answers %llu, and the call %llu\n", line->name, (unsigned long long)theirs,
               (unsigned long long)result->answer);
        failed++;
    }
}

/* A part of the rounds of a line. The store is then again as it was at first. */
static void one_pass(const struct line *line, struct result *result, int pass)
{
    const unsigned before = failed;
    int r;
    answer = 0;
    for (r = 0; r < IN_PASS; r++)
        moved_round(line, &result->rounds[pass * IN_PASS + r], 160 * (size_t)r % 4096);
    result->answer = answer;
    if (failed != before)
        printf("FAILED: %s\n", line->name);
    time_rust(line, result);
    all_back();
}

/* What the clock itself takes. */
static double clock_time(void)
{
    double best = 1e9;
    int r;
    for (r = 0; r < ROUNDS; r++) {
        const double from = now(), took = now() - from;
        if (took < best)
            best = took;
    }
    return best;
}

/* ---- of the rounds one figure */

static int by_length(const void *a, const void *b)
{
    const struct round *x = (const struct round *)a, *y = (const struct round *)b;
    const double left = x->test + x->whole, right = y->test + y->whole;
    return (left > right) - (left < right);
}

static int by_size(const void *a, const void *b)
{
    const double x = *(const double *)a, y = *(const double *)b;
    return (x > y) - (x < y);
}

struct figures {
    double whole, test, inner;
};

/* The median of whole * w + test * t over the first rounds, for one of the calls in it. */
static double median(const struct round *rounds, double w, double t, double calls)
{
    static double values[BEST];
    int r;
    for (r = 0; r < BEST; r++)
        values[r] = w * rounds[r].whole + t * rounds[r].test;
    qsort(values, BEST, sizeof values[0], by_size);
    return values[BEST / 2] / calls;
}

/* The shortest quarter of the rounds counts: other work on the machine can only make a round longer. The inner call is the
   median of the differences, and not the difference of the medians, since what slows a round slows both. */
static struct figures figures_of(const struct line *line, struct result *result)
{
    const double calls = line->calls, clock = clock_time();
    struct figures f;
    qsort(result->rounds, ROUNDS, sizeof result->rounds[0], by_length);
    f.whole = median(result->rounds, 1, 0, calls) - clock / calls;
    f.test = median(result->rounds, 0, 1, calls) - clock / calls;
    f.inner = median(result->rounds, 1, -1, calls);
    return f;
}

/* ---- the table */

static void say(const struct line *line, struct result *result)
{
    struct figures f = figures_of(line, result);
    const double rust = result->rust;
    printf("| %-50s | %8.1f |", line->name, f.whole);
    if (line->call == set_up) { /* it makes no test */
        f.inner = f.whole;
        printf(" %8s | %6s |", "-", "-");
    } else
        printf(" %8.1f | %6.2f |", f.test, 100 * f.test / f.whole);
    printf(" %8.1f |", f.inner);
    if (rust > 0)
        printf(" %8.1f | %10.2f | %10.1f |\n", rust, f.inner / rust, f.whole / rust);
    else
        printf(" %8s | %10s | %10s |\n", "-", "-", "-");
}

static const struct line lines[] = {
    {"canonicalize, one link on the way", canonicalize, nothing, 1, 0, RUST_CANONICALIZE, through},
    {"set current directory", set_current_dir, nothing, 1, 0, RUST_SET_CURRENT_DIR, pictures},
    {"set umask", set_umask, nothing, 1, 0, RUST_SET_UMASK, NULL},
    {"read, 300 bytes", read_path, nothing, 1, 0, RUST_READ, table},
    {"metadata", metadata, nothing, 1, 0, RUST_METADATA, table},
    {"metadata, one link on the way", metadata_through, nothing, 1, 0, RUST_METADATA, through},
    {"metadata, by the header's inline function", metadata_inline, nothing, 1, 0, RUST_METADATA, table},
    {"symlink metadata", symlink_metadata, nothing, 1, 0, RUST_SYMLINK_METADATA, link_path},
    {"read link", read_link, nothing, 1, 0, RUST_READ_LINK, link_path},
    {"list, 30 entries", list, nothing, 1, 0, RUST_LIST, pictures},
    {"close", close_number, words_back, 1, 0, RUST_CLOSE, NULL},
    {"close of a file that has been removed", close_removed, all_back, 1, 0, RUST_CLOSE_REMOVED, NULL},
    {"read by number, 300 bytes", read_number, words_back, 1, 0, RUST_READ_NUMBER, NULL},
    {"seek from the end", seek, nothing, 1, 0, RUST_SEEK, NULL},
    {"set length, the same", set_length, nothing, 1, 0, RUST_SET_LENGTH, NULL},
    {"set length, by 100 bytes more and back: one of two", set_length_more, nothing, 2, 0, RUST_SET_LENGTH_MORE, NULL},
    {"set mode by number", set_mode, nothing, 1, 0, RUST_SET_MODE, NULL},
    {"set times by number", set_times, nothing, 1, 0, RUST_SET_TIMES, NULL},
    {"metadata by number", metadata_number, nothing, 1, 0, RUST_METADATA_NUMBER, NULL},
    {"set up", set_up, words_back, SET_UPS, 0, RUST_SET_UP, NULL},
    {"current directory, read back", current_dir, nothing, 1, 0, RUST_CURRENT_DIR, NULL},
    {"usage, read back", usage, nothing, 1, 0, NO_RUST, NULL},
    {"number, read back", number_back, nothing, 1, 0, NO_RUST, NULL},
    {"to compare: close of a number that is not open", close_refused, nothing, 1, JOBTREE_BAD_NUMBER, NO_RUST, NULL},
    {"to compare: metadata, working buffers too short", metadata_refused, nothing, 1, JOBTREE_SHORT_BUFFER, NO_RUST, NULL},
    {"to compare: the test again", test, nothing, 1, JOBTREE_SHORT_BUFFER, NO_RUST, NULL},
};

enum { LINES = sizeof lines / sizeof lines[0] };

/* All lines by turns, so that other work for a while does not meet all rounds of one line. */
static void all_lines(void)
{
    static struct result results[LINES];
    int pass, i;
    memset(results, 0, sizeof results);
    for (pass = 0; pass < PASSES; pass++)
        for (i = 0; i < LINES; i++)
            one_pass(&lines[i], &results[i], pass);
    for (i = 0; i < LINES; i++)
        say(&lines[i], &results[i]);
    fflush(stdout);
}

static int table_of(uint64_t entries, uint64_t most, uint64_t room)
{
    if (make_store(entries, most, room) != 0) {
        printf("no memory for a store of %llu entries\n", (unsigned long long)entries);
        return 1;
    }
    printf("%llu entries, limit %llu; %llu bytes used of %llu:\n\n", (unsigned long long)entries, (unsigned long long)most,
           (unsigned long long)bytes_used(&tree), (unsigned long long)room);
    printf("| %-50s | %8s | %8s | %6s | %8s | %8s | %10s | %10s |\n", "", "whole ns", "test ns", "test %", "inner ns",
           "Rust ns", "inner/Rust", "whole/Rust");
    printf("|:---------------------------------------------------|---------:|---------:|-------:|---------:|---------:"
           "|-----------:|-----------:|\n");
    all_lines();
    if (!same_state(&tree, &kept))
        failed++;
    free(memory);
    free(kept_memory);
    return 0;
}

int main(void)
{
    if (table_of(SMALL, 512, 131072) != 0)
        return 1;
    printf("\n");
    if (table_of(LARGE, JOBTREE_MOST_ENTRIES, JOBTREE_MOST_BYTES) != 0)
        return 1;
    printf("\ncalls that answered other than expected: %u\n", failed);
    return failed == 0 ? 0 : 1;
}
