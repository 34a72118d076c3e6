/* How long text and path take, by way of the static library `test_probe`, beside Rust's std on the same input
   (baseline.rs). Each line is the best of several runs, since other work on the machine can only make a run longer. */
#include <alloca.h>
#include <stdint.h>
#include <stdio.h>
#include <stdlib.h>
#include <string.h>
#include <time.h>

uint32_t probe_text(const uint8_t *, size_t);
uint32_t probe_lengths(const uint8_t *, size_t);
uint32_t probe_nothing_text(const uint8_t *, size_t);
uint64_t probe_nothing_path(uint8_t *, size_t, const uint8_t *, size_t);
uint64_t probe_normalize(uint8_t *, size_t, const uint8_t *, size_t);
uint64_t probe_raw(uint8_t *, size_t, const uint8_t *, size_t);
uint64_t probe_absolute(uint8_t *, size_t, const uint8_t *, size_t, const uint8_t *, size_t);
uint32_t probe_last(const uint8_t *, size_t, const uint8_t *, size_t, uint64_t *, uint64_t *);
uint64_t probe_follow(uint8_t *, size_t, const uint8_t *, size_t, const uint8_t *, size_t, size_t, const uint8_t *,
                      size_t);

#ifdef WITH_RUST
uint32_t rust_text(const uint8_t *, size_t);
uint32_t rust_lengths(const uint8_t *, size_t);
uint64_t rust_normalize(uint8_t *, size_t, const uint8_t *, size_t);
uint64_t rust_absolute(uint8_t *, size_t, const uint8_t *, size_t, const uint8_t *, size_t);
uint64_t rust_last(const uint8_t *, size_t, const uint8_t *, size_t);
uint64_t rust_follow(uint8_t *, size_t, const uint8_t *, size_t, const uint8_t *, size_t, const uint8_t *, size_t);
#else
/* Without rustc the columns of the baseline stay empty. */
static uint32_t rust_text(const uint8_t *s, size_t n) {
    (void)s, (void)n;
    return 0;
}
static uint32_t rust_lengths(const uint8_t *s, size_t n) {
    (void)s, (void)n;
    return 0;
}
static uint64_t rust_normalize(uint8_t *o, size_t r, const uint8_t *p, size_t n) {
    (void)o, (void)r, (void)p, (void)n;
    return 0;
}
static uint64_t rust_absolute(uint8_t *o, size_t r, const uint8_t *c, size_t k, const uint8_t *p, size_t n) {
    (void)o, (void)r, (void)c, (void)k, (void)p, (void)n;
    return 0;
}
static uint64_t rust_last(const uint8_t *p, size_t n, const uint8_t *c, size_t k) {
    (void)p, (void)n, (void)c, (void)k;
    return 0;
}
static uint64_t rust_follow(uint8_t *o, size_t r, const uint8_t *d, size_t k, const uint8_t *b, size_t n,
                            const uint8_t *t, size_t m) {
    (void)o, (void)r, (void)d, (void)k, (void)b, (void)n, (void)t, (void)m;
    return 0;
}
#endif

enum { RUNS = 200, ROOM = 1024, LINK_NAME = 9 };

typedef struct {
    uint8_t at[2048];
    size_t n;
} Text;

/* What one line of the table is timed on: a is the text or path, b the current directory or the link's directory. */
typedef struct {
    const Text *a, *b, *target;
} Input;

static uint8_t out[ROOM];
static volatile uint64_t sink;

static double now(void) {
    struct timespec t;
    clock_gettime(CLOCK_MONOTONIC, &t);
    return (double)t.tv_sec * 1e9 + (double)t.tv_nsec;
}

/* The loops stand here, one for each function, so that a call through a pointer is no part of what is timed. */
#define LOOP(name, call)                                                                                               \
    static void name(const Input *i, long times) {                                                                     \
        uint64_t from = 0, to = 0;                                                                                     \
        (void)from, (void)to;                                                                                          \
        for (long k = 0; k < times; k++)                                                                               \
            sink += (call);                                                                                            \
    }
LOOP(nothing_text, probe_nothing_text(i->a->at, i->a->n))
LOOP(nothing_path, probe_nothing_path(out, ROOM, i->a->at, i->a->n))
LOOP(our_text, probe_text(i->a->at, i->a->n))
LOOP(their_text, rust_text(i->a->at, i->a->n))
LOOP(our_lengths, probe_lengths(i->a->at, i->a->n))
LOOP(their_lengths, rust_lengths(i->a->at, i->a->n))
LOOP(our_normalize, probe_normalize(out, ROOM, i->a->at, i->a->n))
LOOP(their_normalize, rust_normalize(out, ROOM, i->a->at, i->a->n))
LOOP(our_raw, probe_raw(out, ROOM, i->a->at, i->a->n))
LOOP(our_absolute, probe_absolute(out, ROOM, i->b->at, i->b->n, i->a->at, i->a->n))
LOOP(their_absolute, rust_absolute(out, ROOM, i->b->at, i->b->n, i->a->at, i->a->n))
LOOP(our_last, probe_last(i->a->at, i->a->n, i->b->at, i->b->n, &from, &to))
LOOP(their_last, rust_last(i->a->at, i->a->n, i->b->at, i->b->n))
LOOP(our_follow, probe_follow(out, ROOM, i->b->at, i->b->n, i->a->at, i->a->n, LINK_NAME, i->target->at, i->target->n))
LOOP(their_follow,
     rust_follow(out, ROOM, i->b->at, i->b->n, i->a->at + LINK_NAME, i->a->n - LINK_NAME, i->target->at, i->target->n))

typedef void Loop(const Input *, long);

/* One run with the stack moved by some bytes: a short text takes up to twice as long at some addresses of the stack,
   where the text check keeps its table, and one process has but one address. */
static __attribute__((noinline)) double run(Loop *loop, const Input *i, long times, size_t moved) {
    volatile uint8_t *space = alloca(moved);
    space[0] = 0;
    double t = now();
    loop(i, times);
    return now() - t;
}

/* Nanoseconds of one call: the best of RUNS runs of a millisecond or more. */
static double time_of(Loop *loop, const Input *i) {
    long times = 16;
    while (run(loop, i, times, 16) < 1e6)
        times *= 2;
    double best = 1e18;
    for (int r = 0; r < RUNS; r++) {
        double t = run(loop, i, times, 16 + 160 * (size_t)r) / (double)times;
        if (t < best)
            best = t;
    }
    return best;
}

/* Nanoseconds a byte, asked of inputs of `from` bytes or more: of a shorter one the call itself takes most. */
typedef struct {
    double each;
    size_t from;
} Goal;

static const Goal NONE = {0, 0}, ASCII = {0.6, 64}, OTHER = {3, 64}, PATH = {3, 16};
static int missed;

/* theirs: 0 where Rust has nothing to stand beside it. */
static void line(const char *name, Loop *ours, Loop *theirs, Input i, Goal goal) {
    size_t bytes = i.a->n + (i.b ? i.b->n : 0) + (i.target ? i.target->n : 0);
    double a = time_of(ours, &i);
    /* probe_follow normalises the link's directory into the buffer first, which a lookup has no need to do: taken off
     */
    if (i.target)
        a -= time_of(our_normalize, &(Input){i.b, 0, 0});
    double each = a / (double)(bytes ? bytes : 1);
    printf("| %-52s | %5zu | %8.1f | %7.3f |", name, bytes, a, each);
#ifndef WITH_RUST
    theirs = 0;
#endif
    if (theirs) {
        double b = time_of(theirs, &i);
        printf(" %8.1f | %5.2f |", b, a / b);
    } else
        printf(" %8s | %5s |", "-", "-");
    if (goal.each > 0 && goal.from <= bytes) {
        int met = each <= goal.each;
        missed += !met;
        printf(" %4.1f %-6s |\n", goal.each, met ? "met" : "MISSED");
    } else
        printf(" %-11s |\n", "-");
}

static Text text_of(const char *s) {
    Text t;
    t.n = strlen(s);
    memcpy(t.at, s, t.n);
    return t;
}

/* The pattern again and again, up to n bytes or less. */
static Text repeated(const char *pattern, size_t n) {
    Text t;
    size_t k = strlen(pattern);
    t.n = 0;
    while (t.n + k <= n) {
        memcpy(t.at + t.n, pattern, k);
        t.n += k;
    }
    return t;
}

/* Names of `each` bytes with a slash before each, n bytes in all, or one less: no slash stands behind the last. */
static Text names(size_t each, size_t n) {
    Text t;
    for (t.n = 0; t.n < n; t.n++)
        t.at[t.n] = t.n % (each + 1) == 0 ? '/' : (uint8_t)('a' + t.n % 26);
    if (t.at[t.n - 1] == '/')
        t.n--;
    return t;
}

static Text slash_behind(Text t) {
    t.at[t.n++] = '/';
    return t;
}

static Text behind(const char *first, Text t) {
    size_t k = strlen(first);
    memmove(t.at + k, t.at, t.n);
    memcpy(t.at, first, k);
    t.n += k;
    return t;
}

/* A line for each of n short inputs, called as they are. */
static void each_of(const char *what, const char *const *inputs, size_t n, Loop *ours, Loop *theirs, Goal goal) {
    for (size_t i = 0; i < n; i++) {
        char name[64];
        Text t = text_of(inputs[i]);
        snprintf(name, sizeof name, "%s: %s", what, inputs[i]);
        line(name, ours, theirs, (Input){&t, 0, 0}, goal);
    }
}

/* What a call takes that looks at no byte, in the same loop: no line below can be under it. */
static void calls(void) {
    Text one = text_of("a");
    line("call: nothing done, given a text", nothing_text, 0, (Input){&one, 0, 0}, NONE);
    line("call: nothing done, given a buffer and a path", nothing_path, 0, (Input){&one, 0, 0}, NONE);
}

static void texts(void) {
    Text ascii = names(8, 1024), some = names(7, 66), more = names(8, 95),
         path = text_of("/y26/moon/jan/notes/day1.txt"), one = text_of("a");
    Text two = repeated("\xc3\xa9", 1024), three = repeated("\xe3\x81\x82", 1024),
         four = repeated("\xf0\xa3\x8e\xb4", 1024);
    Text mixed = repeated("/y26/caf\xc3\xa9/\xe6\x97\xa5\xe6\x9c\xac/\xf0\x9f\x98\x80 ok", 1024);
    line("text: ASCII", our_text, their_text, (Input){&ascii, 0, 0}, ASCII);
    line("text: 66 bytes of ASCII", our_text, their_text, (Input){&some, 0, 0}, ASCII);
    line("text: 95 bytes of ASCII", our_text, their_text, (Input){&more, 0, 0}, ASCII);
    line("text: an ASCII path of 28 bytes", our_text, their_text, (Input){&path, 0, 0}, ASCII);
    line("text: a", our_text, their_text, (Input){&one, 0, 0}, ASCII);
    Text moon = text_of("/y26/moon"), cafe = text_of("caf\xc3\xa9");
    line("text: /y26/moon", our_text, their_text, (Input){&moon, 0, 0}, ASCII);
    line("text: café", our_text, their_text, (Input){&cafe, 0, 0}, OTHER);
    line("text: characters of 2 bytes", our_text, their_text, (Input){&two, 0, 0}, OTHER);
    line("text: characters of 3 bytes", our_text, their_text, (Input){&three, 0, 0}, OTHER);
    line("text: characters of 4 bytes", our_text, their_text, (Input){&four, 0, 0}, OTHER);
    line("text: mixed", our_text, their_text, (Input){&mixed, 0, 0}, OTHER);
}

static void lengths(void) {
    Text eight = names(8, 1024), long_names = names(249, 1000), path = text_of("/y26/moon/jan/notes/day1.txt");
    line("lengths: names of 8 bytes", our_lengths, their_lengths, (Input){&eight, 0, 0}, NONE);
    line("lengths: names of 249 bytes", our_lengths, their_lengths, (Input){&long_names, 0, 0}, NONE);
    line("lengths: a path of 28 bytes", our_lengths, their_lengths, (Input){&path, 0, 0}, NONE);
}

/* Paths of few bytes, which pay for the call. */
static const char *const SHORT[] = {"a", "..", "/a/./b", "/a/../b"};

static void normalizing(void) {
    Text two = names(2, 1000), eight = names(8, 1000), long_names = names(249, 1000);
    Text two_slash = slash_behind(two), eight_slash = slash_behind(eight), long_slash = slash_behind(long_names);
    Text hidden = repeated("/.monday/tuesday", 1000), vanishing = repeated("/monday//tue/./wednesday", 1000);
    Text up = repeated("/monday/tuesday/../wed", 1000), all_up = repeated("/mon/..", 1000),
         dots = repeated("/..", 1000), slashes = repeated("/", 1000);
    Text mixed = repeated("/monday//tue/./wed/../thursday/a", 1000);
    Text k = text_of("/y26//moon/./jan.txt/"), moon = text_of("/y26/moon"), moon_slash = text_of("/y26/moon/"),
         path = text_of("/y26/moon/jan/notes/day1.txt"), up_path = text_of("/y26/moon/../a/b"),
         up_relative = text_of("moon/../jan.txt");
    line("normalize: names of 2 bytes", our_normalize, their_normalize, (Input){&two, 0, 0}, PATH);
    line("normalize: names of 8 bytes", our_normalize, their_normalize, (Input){&eight, 0, 0}, PATH);
    line("normalize: names of 249 bytes", our_normalize, their_normalize, (Input){&long_names, 0, 0}, PATH);
    line("normalize: names of 2 bytes, a slash behind", our_normalize, their_normalize, (Input){&two_slash, 0, 0},
         PATH);
    line("normalize: names of 8 bytes, a slash behind", our_normalize, their_normalize, (Input){&eight_slash, 0, 0},
         PATH);
    line("normalize: names of 249 bytes, a slash behind", our_normalize, their_normalize, (Input){&long_slash, 0, 0},
         PATH);
    line("normalize: names that begin with a dot", our_normalize, their_normalize, (Input){&hidden, 0, 0}, PATH);
    line("normalize: `//` and `.` among them", our_normalize, their_normalize, (Input){&vanishing, 0, 0}, PATH);
    line("normalize: `..` among them", our_normalize, their_normalize, (Input){&up, 0, 0}, PATH);
    line("normalize: all three among them", our_normalize, their_normalize, (Input){&mixed, 0, 0}, PATH);
    line("normalize: each name dropped", our_normalize, their_normalize, (Input){&all_up, 0, 0}, PATH);
    line("normalize: only `..`", our_normalize, their_normalize, (Input){&dots, 0, 0}, PATH);
    line("normalize: only slashes", our_normalize, their_normalize, (Input){&slashes, 0, 0}, PATH);
    line("normalize: /y26/moon/jan/notes/day1.txt", our_normalize, their_normalize, (Input){&path, 0, 0}, PATH);
    line("normalize: /y26//moon/./jan.txt/", our_normalize, their_normalize, (Input){&k, 0, 0}, PATH);
    line("normalize: /y26/moon", our_normalize, their_normalize, (Input){&moon, 0, 0}, PATH);
    line("normalize: /y26/moon/", our_normalize, their_normalize, (Input){&moon_slash, 0, 0}, PATH);
    line("normalize: /y26/moon/../a/b", our_normalize, their_normalize, (Input){&up_path, 0, 0}, PATH);
    line("normalize: moon/../jan.txt", our_normalize, their_normalize, (Input){&up_relative, 0, 0}, PATH);
    each_of("normalize", SHORT, sizeof SHORT / sizeof *SHORT, our_normalize, their_normalize, PATH);
}

/* Set times' reading, beside the Rust's normalising: the Rust has no such function. */
static void raw_reading(void) {
    Text two = names(2, 1000), eight = names(8, 1000), moon = text_of("/y26/moon");
    line("raw: names of 2 bytes", our_raw, their_normalize, (Input){&two, 0, 0}, PATH);
    line("raw: names of 8 bytes", our_raw, their_normalize, (Input){&eight, 0, 0}, PATH);
    line("raw: /y26/moon", our_raw, their_normalize, (Input){&moon, 0, 0}, PATH);
}

static void joining(void) {
    Text cwd = names(8, 200), here = text_of(""), down = text_of("moon/jan.txt"), up = text_of("../../moon/./jan.txt");
    Text whole = text_of("/y26/moon/jan/notes/day1.txt"), long_path = names(8, 800);
    long_path.at[0] = 'x';
    line("absolute: `moon/jan.txt` from 200 bytes", our_absolute, their_absolute, (Input){&down, &cwd, 0}, PATH);
    line("absolute: `../../moon/./jan.txt` from 200 bytes", our_absolute, their_absolute, (Input){&up, &cwd, 0}, PATH);
    line("absolute: 800 bytes from 200", our_absolute, their_absolute, (Input){&long_path, &cwd, 0}, PATH);
    line("last: of a path of 28 bytes", our_last, their_last, (Input){&whole, &here, 0}, NONE);
    line("last: `moon/jan.txt` from 200 bytes", our_last, their_last, (Input){&down, &cwd, 0}, NONE);
    line("last: `` from 200 bytes", our_last, their_last, (Input){&here, &cwd, 0}, NONE);
}

/* With the link's name and the rest put behind the directory, which a lookup has no need to do either. */
static void following(void) {
    Text dir = names(8, 200), deep = text_of("/deep"), rest = behind("/thatlink", names(8, 45)),
         none = text_of("/thatlink");
    Text up = text_of("../y26"), whole = text_of("/y26/moon"), long_target = names(8, 600);
    line("follow: `../y26` in /deep, no rest", our_follow, their_follow, (Input){&none, &deep, &up}, NONE);
    line("follow: `../y26` in 200 bytes, a rest of 45", our_follow, their_follow, (Input){&rest, &dir, &up}, NONE);
    line("follow: `/y26/moon` in 200 bytes, a rest of 45", our_follow, their_follow, (Input){&rest, &dir, &whole},
         NONE);
    line("follow: 600 bytes in 200 bytes, a rest of 45", our_follow, their_follow, (Input){&rest, &dir, &long_target},
         NONE);
}

int main(void) {
    printf("| %-52s | %5s | %8s | %7s | %8s | %5s | %-11s |\n", "", "bytes", "ns", "ns/byte", "Rust ns", "ratio",
           "goal");
    printf("|:-----------------------------------------------------|------:|---------:|--------:|---------:|------:|:--"
           "----------|\n");
    calls();
    texts();
    lengths();
    normalizing();
    raw_reading();
    joining();
    following();
    printf("\ngoals missed: %d\n", missed);
    return 0;
}
