/*
 * Set up, the calls that only ask, those by file number, and what is read back, made from C as a stranger makes them: every store is
 * written into the slices as docs/LAYOUT.md says (store.h), so that no call rests on another. What a call is held to is said in calls.h.
 * All runs on a stack of 1 MiB.
 *
 * Of the cases of document 01 there are a, b, c, d, k, m and o whole, and the first halves of e and n. Left for the calls that they need:
 *   e  open with create makes /none                          (open)
 *   f  open with create-new                                  (open)
 *   g  remove tree, remove directory                         (remove)
 *   h  rename to itself, and below itself                    (rename)
 *   i  rename of a dangling link                             (rename)
 *   j  set times of a relative path, and of an absolute one  (set times by path)
 *   l  a link at `/`, and over a directory                   (link)
 *   n  create `/` makes the root                             (create directory)
 */
#define _DEFAULT_SOURCE /* mmap's anonymous memory, for the stack */
#include "calls.h"

/* ---- tree K */

enum { ROOT, Y26, MOON, DEEP, JAN, YEAR, SELF, GONE, UP, K_COUNT };

/* In the order of docs/LAYOUT.md, row k in slot k. The times are made up, so that no two of an entry are alike. */
static const struct row K[K_COUNT] = {
    [ROOT] = {"/", JOBTREE_DIRECTORY, 0755, {1, 2, 3, 4}, TEXT("")},
    [Y26] = {"/y26", JOBTREE_DIRECTORY, 0755, {11, 12, 13, 14}, TEXT("")},
    [MOON] = {"/y26/moon", JOBTREE_DIRECTORY, 0755, {-21, -22, -23, -24}, TEXT("")},
    [DEEP] = {"/deep", JOBTREE_DIRECTORY, 0755, {31, 32, 33, 34}, TEXT("")},
    [JAN] = {"/y26/moon/jan.txt", JOBTREE_FILE, 0666, {INT64_MIN, INT64_MAX, -1, 0}, TEXT("full3")},
    [YEAR] = {"/year", JOBTREE_LINK, 0777, {51, 52, 53, 54}, TEXT("y26")},
    [SELF] = {"/self", JOBTREE_LINK, 0777, {61, 62, 63, 64}, TEXT("self")},
    [GONE] = {"/gone", JOBTREE_LINK, 0777, {71, 72, 73, 74}, TEXT("none")},
    [UP] = {"/deep/up", JOBTREE_LINK, 0777, {81, 82, 83, 84}, TEXT("../y26")},
};

#define JAN_PATH "/y26/moon/jan.txt"

static void plain_tree_k(void)
{
    new_store(512, 32768);
    write_rows(&got, K, K_COUNT);
}

static void tree_k(void)
{
    uint32_t n;
    plain_tree_k();
    /* Position and length of a closed number may be anything. */
    for (n = 0; n < NUMBERS; n++) {
        got.words[NUMBER_WORDS * n + POSITION_AT] = 77;
        got.words[NUMBER_WORDS * n + KEPT_AT] = UINT64_MAX;
    }
    nothing_due();
}

/* Numbers 0, 3 and 31 stand on jan.txt. */
static void tree_k_opened(void)
{
    tree_k();
    write_number(&got, 0, JAN, 5, JAN_PATH);
    write_number(&got, 3, JAN, 2, JAN_PATH);
    write_number(&got, 31, JAN, UINT64_MAX, JAN_PATH);
    nothing_due();
}

/* ---- the writer, against the tables of docs/LAYOUT.md */

static void layout(void)
{
    static const uint64_t records[K_COUNT] = {0x0000000000, 0x0003040001, 0x0008020002, 0x0007040001, 0x0006040001,
                                              0x0001030001, 0x0002040002, 0x0004070003, 0x0005040001};
    static const uint64_t heads[K_COUNT] = {0x000001ed01000000, 0x000001ed01000000, 0x000001ed01000000,
                                            0x000001ed01000000, 0x000001b602000005, 0x000001ff03000003,
                                            0x000001ff03000004, 0x000001ff03000004, 0x000001ff03000006};
    static const char names[] = "deepupgoneselfy26moonjan.txtyear", contents[] = "full3y26selfnone../y26";
    uint64_t words[WORDS] = {512, 32768, 9, 438, 0};
    words[EXTENT_AT] = 9;
    plain_tree_k();
    hold("words", got.words, words, sizeof words);
    hold("records", got.records, records, sizeof records);
    hold("heads", got.heads, heads, sizeof heads);
    hold("names", got.bytes, names, sizeof names - 1);
    hold("contents", got.bytes + 32768 - 22, contents, sizeof contents - 1);
    expect(bytes_used(&got) == 54 && same_state(&got, &got), "the reader of this program");
}

/* ---- set up */

static void set_up_refused(uint64_t most, uint64_t room, uint32_t refusal)
{
    given.most = most;
    given.room = room;
    refused(SET_UP, refusal);
}

/* Refused while one slice has an element less than the limits ask. */
static void set_up_short(uint64_t *count, uint64_t needed, uint32_t refusal)
{
    const uint64_t lent = *count;
    *count = needed - 1;
    set_up_refused(16, 256, refusal);
    *count = 0;
    set_up_refused(16, 256, refusal);
    *count = lent;
}

static void set_up(void)
{
    new_store(16, 256);
    memset(got.words, '?', WORDS * sizeof(uint64_t));
    nothing_due();
    set_up_refused(0, 256, 15);
    set_up_refused(4097, 256, 15);
    set_up_refused(UINT64_MAX, 256, 15);
    set_up_refused(16, 255, 16);
    set_up_refused(16, 1048577, 16);
    set_up_refused(16, UINT64_MAX, 16);
    set_up_refused(0, 0, 15);
    /* the storage is cut for 16 entries and 256 bytes, and a little more */
    set_up_refused(16 + SPARE + 1, 256, 15);
    set_up_refused(16, 256 + SPARE + 1, 16);
    set_up_short(&got.words_count, WORDS, 15);
    set_up_short(&got.records_count, 16, 15);
    set_up_short(&got.heads_count, 16 + 32, 15);
    set_up_short(&got.times_count, 4 * (16 + 32), 15);
    set_up_short(&got.paths_count, PATHS, 15);
    set_up_short(&got.bytes_count, 256, 16);
    /* no store is tested, and only the words are written */
    write_fresh(&due, 16, 256);
    given.most = 16;
    given.room = 256;
    if (made(SET_UP, 0, EXACT))
        reads_back();
    tree_k_opened();
    write_fresh(&due, 512, 32768);
    given.most = 512;
    given.room = 32768;
    if (made(SET_UP, 0, EXACT))
        reads_back();
}

/* ---- the cases of document 01 */

static const struct row *const IN_ROOT[] = {&K[DEEP], &K[GONE], &K[SELF], &K[Y26], &K[YEAR]};
static const struct row *const IN_Y26[] = {&K[MOON]};
static const struct row *const IN_MOON[] = {&K[JAN]};
static const struct row *const IN_DEEP[] = {&K[UP]};

/* Metadata of `""`: the root; canonicalize: 8. */
static void case_a(void)
{
    tree_k();
    at("");
    shows(METADATA, &K[ROOT], 0);
    shows(SYMLINK_METADATA, &K[ROOT], 0);
    refused(CANONICALIZE, 8);
    refused(SET_CURRENT_DIR, 8);
    refused(READ, 5);
    refused(READ_LINK, 10);
    lists(TEXT("deep\0gone\0self\0y26\0year\0"), IN_ROOT, 5, 0);
    at(".");
    gives(CANONICALIZE, TEXT("/"), 0);
    at("/");
    gives(CANONICALIZE, TEXT("/"), 0);
    at("../..//");
    gives(CANONICALIZE, TEXT("/"), 0);
    /* elsewhere `""` is the current directory */
    write_current_dir(&got, "/y26");
    nothing_due();
    at("");
    shows(METADATA, &K[Y26], 0);
    shows(SYMLINK_METADATA, &K[Y26], 0);
    refused(CANONICALIZE, 8);
    refused(SET_CURRENT_DIR, 8);
    refused(READ, 10);
    lists(TEXT("moon\0"), IN_Y26, 1, 0);
    at(".");
    gives(CANONICALIZE, TEXT("/y26"), 0);
    at("..");
    goes_to("", 0);
    reads_back();
}

/* `/deep/up/../year`: 8, since it means /deep/year. */
static void case_b(void)
{
    tree_k();
    at("/deep/up/../year");
    all_refused(8);
    at("/deep/up/..");
    gives(CANONICALIZE, TEXT("/deep"), 0);
    lists(TEXT("up\0"), IN_DEEP, 1, 0);
}

/* `/deep/up/moon`: /y26/moon, 1 link. */
static void case_c(void)
{
    tree_k();
    at("/deep/up/moon");
    gives(CANONICALIZE, TEXT("/y26/moon"), 1);
    shows(METADATA, &K[MOON], 1);
    shows(SYMLINK_METADATA, &K[MOON], 1);
    refused(READ, 10);
    refused(READ_LINK, 10);
    lists(TEXT("jan.txt\0"), IN_MOON, 1, 1);
    goes_to("/y26/moon", 1);
    at("jan.txt");
    shows(METADATA, &K[JAN], 0);
    gives(CANONICALIZE, TEXT(JAN_PATH), 0);
    at("../../year/moon/jan.txt");
    gives(READ, TEXT("full3"), 1);
    at("/deep/up");
    gives(READ_LINK, TEXT("../y26"), 0);
    gives(CANONICALIZE, TEXT("/y26"), 1);
}

/* `/self` and `/self/a`: 7. */
static void case_d(void)
{
    tree_k();
    at("/self");
    following_refused(7);
    shows(SYMLINK_METADATA, &K[SELF], 0);
    gives(READ_LINK, TEXT("self"), 0);
    at("/self/a");
    all_refused(7);
}

/* `/gone`: 8. */
static void case_e(void)
{
    tree_k();
    at("/gone");
    following_refused(8);
    shows(SYMLINK_METADATA, &K[GONE], 0);
    gives(READ_LINK, TEXT("none"), 0);
    at("/gone/a");
    all_refused(8);
}

/* `/y26//moon/./jan.txt/`: found, 0 links. */
static void case_k(void)
{
    tree_k();
    at("/y26//moon/./jan.txt/");
    shows(METADATA, &K[JAN], 0);
    shows(SYMLINK_METADATA, &K[JAN], 0);
    gives(CANONICALIZE, TEXT(JAN_PATH), 0);
    gives(READ, TEXT("full3"), 0);
    refused(READ_LINK, 10);
    refused(LIST, 10);
    at("/y26/moon/jan.txt/a");
    all_refused(9);
    /* the kind of a current directory is not tested */
    at("/year//moon/./jan.txt/");
    goes_to(JAN_PATH, 1);
    at("");
    shows(METADATA, &K[JAN], 0);
    gives(READ, TEXT("full3"), 0);
    refused(LIST, 10);
    at("a");
    all_refused(9);
}

/* Links /l0, /l1 and so on, each to the next, and the last one to d. */
static void chain_rows(struct row *rows, char (*paths)[16], char (*targets)[16], int count, int digits)
{
    int i;
    for (i = 0; i < count; i++) {
        sprintf(paths[i], "/l%0*d", digits, i);
        sprintf(targets[i], "l%0*d", digits, i + 1);
        if (i == count - 1)
            strcpy(targets[i], "d");
        rows[i] = (struct row){paths[i], JOBTREE_LINK, 0777, {i, i + 1, i + 2, i + 3}, targets[i], strlen(targets[i])};
    }
}

/* 40 links in line before a last name: found; 41: 7. The same 41 as a chain of last links: found. */
static void case_m(void)
{
    enum { DIR = 1, FILE_F, AGAIN, LINKS_FROM, LINK_COUNT = 41, COUNT = LINKS_FROM + LINK_COUNT };
    static char paths[LINK_COUNT][16], targets[LINK_COUNT][16];
    static struct row rows[COUNT] = {
        {"/", JOBTREE_DIRECTORY, 0755, {1, 2, 3, 4}, TEXT("")},
        {"/d", JOBTREE_DIRECTORY, 0700, {5, 6, 7, 8}, TEXT("")},
        {"/d/f", JOBTREE_FILE, 0600, {9, 10, 11, 12}, TEXT("moon")},
        {"/d/again", JOBTREE_LINK, 0777, {13, 14, 15, 16}, TEXT("../l01/f")},
    };
    const struct row *const in_d[] = {&rows[AGAIN], &rows[FILE_F]};
    chain_rows(rows + LINKS_FROM, paths, targets, LINK_COUNT, 2);
    new_store(64, 1024);
    write_rows(&got, rows, COUNT);
    nothing_due();
    at("/l01/f");
    shows(METADATA, &rows[FILE_F], 40);
    shows(SYMLINK_METADATA, &rows[FILE_F], 40);
    gives(CANONICALIZE, TEXT("/d/f"), 40);
    gives(READ, TEXT("moon"), 40);
    refused(READ_LINK, 10);
    refused(LIST, 10);
    at("/l00/f");
    all_refused(7);
    at("/l00");
    shows(METADATA, &rows[DIR], 41);
    shows(SYMLINK_METADATA, &rows[LINKS_FROM], 0);
    gives(CANONICALIZE, TEXT("/d"), 41);
    gives(READ_LINK, TEXT("l01"), 0);
    refused(READ, 10);
    lists(TEXT("again\0f\0"), in_d, 2, 41);
    /* a last link starts a new lookup, which counts from 0 again */
    at("/l01/again");
    shows(METADATA, &rows[FILE_F], 81);
    shows(SYMLINK_METADATA, &rows[AGAIN], 40);
    gives(READ_LINK, TEXT("../l01/f"), 40);
    gives(CANONICALIZE, TEXT("/d/f"), 81);
    at("/l00/again");
    all_refused(7);
    at("/l00");
    goes_to("/d", 41);
    at("again");
    gives(READ, TEXT("moon"), 41);
}

/* Fresh tree: metadata of `/` is 8. */
static void case_n(void)
{
    new_store(16, 256);
    memset(got.words, '?', WORDS * sizeof(uint64_t));
    nothing_due();
    write_fresh(&due, 16, 256);
    given.most = 16;
    given.room = 256;
    made(SET_UP, 0, EXACT);
    at("/");
    refused(METADATA, 8);
    refused(SYMLINK_METADATA, 8);
    refused(CANONICALIZE, 8);
    refused(READ, 5);
    refused(READ_LINK, 8);
    refused(LIST, 8);
    refused(SET_CURRENT_DIR, 8);
    at("");
    refused(METADATA, 8);
    refused(CANONICALIZE, 8);
    refused(READ, 5);
    at("/a");
    all_refused(8);
    reads_back();
}

/* Length 5, seek from end -5 gives 0, -6 gives 13. */
static void case_o(void)
{
    tree_k_opened();
    given.n = 3;
    seeks(JOBTREE_FROM_END, (uint64_t)-5, 0);
    seek_refused(JOBTREE_FROM_END, (uint64_t)-6);
    seeks(JOBTREE_FROM_END, 0, 5);
    /* any other origin is the end too */
    seeks(3, (uint64_t)-1, 4);
    seeks(UINT32_MAX, 1, 6);
    seek_refused(UINT32_MAX, (uint64_t)-6);
    /* above 2^63 - 1 */
    seeks(JOBTREE_FROM_END, INT64_MAX - 5, INT64_MAX);
    seek_refused(JOBTREE_FROM_END, INT64_MAX - 4);
    seek_refused(JOBTREE_FROM_END, INT64_MAX);
    seek_refused(JOBTREE_FROM_END, (uint64_t)INT64_MIN);
}

/* ---- beyond the cases of document 01 */

/* Positions near 2^64, and reading there. */
static void far_seeks(void)
{
    tree_k_opened();
    given.n = 31;
    seeks(JOBTREE_FROM_START, UINT64_MAX, UINT64_MAX);
    reads_on(16, "", 0);
    seeks(JOBTREE_FROM_POSITION, 1, 0);
    seeks(JOBTREE_FROM_POSITION, (uint64_t)-1, UINT64_MAX);
    seeks(JOBTREE_FROM_POSITION, UINT64_MAX, UINT64_MAX - 1);
    seeks(JOBTREE_FROM_POSITION, (uint64_t)INT64_MIN, UINT64_MAX / 2 - 1);
    reads_on(16, "", 0);
    seeks(JOBTREE_FROM_START, 1, 1);
    reads_on(2, TEXT("ul"));
    reads_on(0, "", 0);
    reads_on(16, TEXT("l3"));
    reads_on(16, "", 0);
    seeks(JOBTREE_FROM_START, 6, 6);
    reads_on(16, "", 0);
    seeks(JOBTREE_FROM_START, 0, 0);
    reads_on(5, TEXT("full3"));
}

/* Number 31 is one, 32 is none, and a closed number is refused too. */
static void file_numbers(void)
{
    static const uint32_t bad[] = {1, 30, 32, 33, 256, UINT32_MAX};
    unsigned i;
    int call;
    tree_k_opened();
    given.size = 3;
    given.mode = 0600;
    given.flags = 3;
    for (i = 0; i < sizeof bad / sizeof bad[0]; i++) {
        given.n = bad[i];
        for (call = 0; call < CALLS; call++)
            if (about[call].takes_number)
                refused((enum call)call, JOBTREE_BAD_NUMBER);
    }
    given.n = 31;
    shows(METADATA_NUMBER, &K[JAN], 0);
    seeks(JOBTREE_FROM_START, 3, 3);
    reads_on(16, TEXT("l3"));
    closes();
    refused(CLOSE, JOBTREE_BAD_NUMBER);
    given.n = 0;
    shows(METADATA_NUMBER, &K[JAN], 0);
}

/* The umask is any 32 bits. */
static void umask_values(void)
{
    static const uint32_t masks[] = {0, UINT32_MAX, 0777, 0777, UMASK};
    uint32_t old = UMASK;
    unsigned i;
    tree_k_opened();
    for (i = 0; i < sizeof masks / sizeof masks[0]; i++) {
        given.mask = masks[i];
        due.words[MASK_AT] = masks[i];
        due_in.number = old;
        changes(SET_UMASK);
        old = masks[i];
    }
}

/* Tree K with other bytes, mode or times of jan.txt. */
static struct row changed[K_COUNT];

static void due_jan(void) { write_rows(&due, changed, K_COUNT); }

static void resizes(const char *bytes, uint64_t length)
{
    changed[JAN].bytes = bytes;
    changed[JAN].length = given.size = length;
    due_jan();
    changes(SET_LENGTH);
}

static void lengths(void)
{
    static const uint64_t too_much[] = {1u << 24,       (1u << 24) + 5, UINT32_MAX, UINT64_MAX / 2,
                                        UINT64_MAX - 5, UINT64_MAX - 1, UINT64_MAX};
    static char long_one[32768];
    const uint64_t most = 32768 - (54 - 5);
    unsigned i;
    tree_k_opened();
    memcpy(changed, K, sizeof K);
    given.n = 3;
    resizes(TEXT("full3"));
    resizes(TEXT("full3\0\0\0\0"));
    resizes(TEXT("fu"));
    resizes(TEXT("fu\0\0"));
    /* to the byte limit, and no further */
    given.size = most + 1;
    refused(SET_LENGTH, 16);
    for (i = 0; i < sizeof too_much / sizeof too_much[0]; i++) {
        given.size = too_much[i];
        refused(SET_LENGTH, 16);
    }
    memcpy(long_one, "fu", 2);
    resizes(long_one, most);
    given.size = most + 1;
    refused(SET_LENGTH, 16);
    given.size = UINT64_MAX;
    refused(SET_LENGTH, 16);
    at("/year/moon/jan.txt");
    gives(READ, long_one, most, 1);
    shows(METADATA, &changed[JAN], 1);
    resizes(long_one, most - 1);
    resizes("", 0);
    gives(READ, "", 0, 1);
    resizes(TEXT("\0\0\0"));
}

static void modes_and_times(void)
{
    static const uint32_t modes[] = {0, 0777, UINT32_MAX, 0600};
    static const struct {
        uint32_t flags;
        int64_t accessed, modified;
    } set[] = {
        {0, 1, 2}, {1, 3, 4}, {2, 5, 6}, {3, 7, 8}, {UINT32_MAX, INT64_MIN, INT64_MAX}, {UINT32_MAX - 3, 9, 10}, {UINT32_MAX - 1, 11, 12},
    };
    unsigned i;
    tree_k_opened();
    memcpy(changed, K, sizeof K);
    given.n = 0;
    for (i = 0; i < sizeof modes / sizeof modes[0]; i++) {
        changed[JAN].mode = given.mode = modes[i];
        due_jan();
        changes(SET_MODE_NUMBER);
        shows(METADATA_NUMBER, &changed[JAN], 0);
    }
    for (i = 0; i < sizeof set / sizeof set[0]; i++) {
        given.flags = set[i].flags;
        given.accessed = set[i].accessed;
        given.modified = set[i].modified;
        if (given.flags & JOBTREE_ACCESSED)
            changed[JAN].times[0] = given.accessed;
        if (given.flags & JOBTREE_MODIFIED)
            changed[JAN].times[3] = given.modified;
        due_jan();
        changes(SET_TIMES_NUMBER);
        shows(METADATA_NUMBER, &changed[JAN], 0);
    }
}

/* Metadata by number goes by the path that was kept, whatever stands there now. */
static void kept_paths(void)
{
    static const struct {
        const char *path;
        const struct row *row;
        uint64_t links;
        uint32_t refusal;
    } kept[] = {
        {"", &K[ROOT], 0, 0},
        {"/y26", &K[Y26], 0, 0},
        {"/year", &K[Y26], 1, 0},
        {"/deep/up/moon/jan.txt", &K[JAN], 1, 0},
        {"/none", NULL, 0, 8},
        {"/self", NULL, 0, 7},
        {"/self/a", NULL, 0, 7},
        {JAN_PATH "/a", NULL, 0, 9},
    };
    unsigned i;
    tree_k();
    for (i = 0; i < sizeof kept / sizeof kept[0]; i++)
        write_number(&got, 31 - i, JAN, i, kept[i].path);
    nothing_due();
    reads_back();
    for (i = 0; i < sizeof kept / sizeof kept[0]; i++) {
        given.n = 31 - i;
        if (kept[i].refusal != 0)
            refused(METADATA_NUMBER, kept[i].refusal);
        else
            shows(METADATA_NUMBER, kept[i].row, kept[i].links);
    }
}

/* A removed file keeps its bytes until its last number is closed. */
static void removed_files(void)
{
    enum { LOST = 1, FILE_F = 2, OTHER = 3, EMPTY = 5, COUNT = 6 };
    struct row rows[COUNT] = {
        {"/", JOBTREE_DIRECTORY, 0755, {1, 2, 3, 4}, TEXT("")},
        {NULL, JOBTREE_FILE, 0640, {5, 6, 7, 8}, TEXT("removed")},
        {"/f", JOBTREE_FILE, 0644, {9, 10, 11, 12}, TEXT("abc")},
        {NULL, JOBTREE_FILE, 0600, {13, 14, 15, 16}, TEXT("too")},
        {"/l", JOBTREE_LINK, 0777, {17, 18, 19, 20}, TEXT("f")},
        {NULL, JOBTREE_FILE, 0, {0, 0, 0, 0}, TEXT("")},
    };
    /* as many entries as the limit allows, and removed files beyond it */
    new_store(3, 256);
    write_rows(&got, rows, COUNT);
    write_number(&got, 7, LOST, 2, "/f");
    write_number(&got, 8, LOST, 0, "/f");
    write_number(&got, 9, FILE_F, 1, "/f");
    write_number(&got, 10, OTHER, 0, "/gone");
    write_number(&got, 11, EMPTY, 0, "/l");
    nothing_due();
    reads_back();
    given.n = 7;
    reads_on(3, TEXT("mov"));
    shows(METADATA_NUMBER, &rows[FILE_F], 0);
    given.n = 11;
    shows(METADATA_NUMBER, &rows[FILE_F], 1);
    reads_on(3, "", 0);
    given.n = 10;
    refused(METADATA_NUMBER, 8);
    rows[OTHER].bytes = "to\0\0\0\0";
    rows[OTHER].length = given.size = 2;
    write_rows(&due, rows, COUNT);
    changes(SET_LENGTH);
    rows[OTHER].length = given.size = 6;
    write_rows(&due, rows, COUNT);
    changes(SET_LENGTH);
    rows[OTHER].mode = given.mode = 0444;
    write_rows(&due, rows, COUNT);
    changes(SET_MODE_NUMBER);
    given.flags = 3;
    rows[OTHER].times[0] = given.accessed = -7;
    rows[OTHER].times[3] = given.modified = 7;
    write_rows(&due, rows, COUNT);
    changes(SET_TIMES_NUMBER);
    /* one byte more than the limit, in which what has no name counts */
    given.size = 256 - (7 + 3 + 1 + 2) + 1;
    refused(SET_LENGTH, 16);
    /* the first of two numbers, and then the last: the slot is free and the bytes are */
    given.n = 8;
    closes();
    given.n = 7;
    reads_on(16, TEXT("ed"));
    rows[LOST].length = 0;
    write_rows(&due, rows, COUNT);
    due.heads[LOST] = 0;
    closes();
    expect(bytes_used(&got) == 6 + 3 + 1 + 2, "the bytes of a removed file stay used after its last number is closed");
    at("/l");
    gives(READ, TEXT("abc"), 1);
    given.n = 10;
    rows[OTHER].length = 0;
    write_rows(&due, rows, COUNT);
    due.heads[LOST] = due.heads[OTHER] = 0;
    closes();
    given.n = 11;
    due.heads[EMPTY] = 0;
    closes();
    /* a file with a name stays */
    given.n = 9;
    reads_on(16, TEXT("bc"));
    closes();
    at("/f");
    gives(READ, TEXT("abc"), 0);
    shows(METADATA, &rows[FILE_F], 0);
}

/* 14, and that buffers that just suffice are taken. */
static void short_buffers(void)
{
    static const uint64_t too_short[] = {0, 1, 1023};
    int call;
    unsigned i;
    tree_k_opened();
    given.n = 3;
    at("/year/moon/jan.txt");
    out_count = 17;
    gives(CANONICALIZE, TEXT(JAN_PATH), 1);
    out_count = 16;
    refused(CANONICALIZE, 14);
    out_count = 0;
    refused(CANONICALIZE, 14);
    out_count = 5;
    gives(READ, TEXT("full3"), 1);
    out_count = 4;
    refused(READ, 14);
    rows_count = 7;
    shows(METADATA, &K[JAN], 1);
    shows(SYMLINK_METADATA, &K[JAN], 1);
    shows(METADATA_NUMBER, &K[JAN], 0);
    rows_count = 6;
    refused(METADATA, 14);
    refused(SYMLINK_METADATA, 14);
    refused(METADATA_NUMBER, 14);
    rows_count = 0;
    refused(METADATA, 14);
    at("/deep/up");
    out_count = 6;
    gives(READ_LINK, TEXT("../y26"), 0);
    out_count = 5;
    refused(READ_LINK, 14);
    at("/");
    out_count = 24;
    rows_count = 35;
    lists(TEXT("deep\0gone\0self\0y26\0year\0"), IN_ROOT, 5, 0);
    rows_count = 41;
    lists(TEXT("deep\0gone\0self\0y26\0year\0"), IN_ROOT, 5, 0);
    rows_count = 34;
    refused(LIST, 14);
    rows_count = 35;
    out_count = 23;
    refused(LIST, 14);
    rows_count = out_count = 0;
    refused(LIST, 14);
    refused(CURRENT_DIR, 14);
    refused(NUMBER, 14);
    out_count = 16;
    refused(NUMBER, 14);
    for (numbers_count = 0; numbers_count < 5; numbers_count++)
        refused(USAGE, 14);
    out_count = 17;
    reads_back();
    /* what else is wrong comes first */
    rows_count = out_count = 0;
    at("/none");
    refused(METADATA, 8);
    refused(CANONICALIZE, 8);
    refused(READ, 8);
    refused(READ_LINK, 8);
    refused(LIST, 8);
    at(JAN_PATH);
    refused(READ_LINK, 10);
    refused(LIST, 10);
    given.n = 32;
    refused(NUMBER, 4);
    lend_enough();
    /* of the working buffers it comes first, and they are cleared all the same */
    at("\xff");
    for (call = 0; call < CALLS; call++)
        for (i = 0; i < sizeof too_short / sizeof too_short[0]; i++)
            if (about[call].walks) {
                first_count = too_short[i];
                refused((enum call)call, 14);
                second_count = 1023;
                refused((enum call)call, 14);
                lend_enough();
                second_count = too_short[i];
                refused((enum call)call, 14);
                lend_enough();
            }
    /* longer ones are cleared whole */
    first_count = second_count = WORK + BEHIND;
    all_refused(2);
    at(JAN_PATH);
    shows(METADATA, &K[JAN], 0);
    lend_enough();
}

/* 2, 3 and 6: texts, their lengths, and paths that are too long once absolute or behind a link. */
static void texts(void)
{
    static const struct {
        const char *bytes;
        uint64_t length;
    } bad[] = {
        {TEXT("\0")},
        {TEXT("/y26\0")},
        {TEXT("\x80")},
        {TEXT("/\xc0\xaf")},
        {TEXT("/\xc3")},
        {TEXT("/\xe0\x80\xaf")},
        {TEXT("/\xed\xa0\x80")},
        {TEXT("/\xf4\x90\x80\x80")},
        {TEXT("/\xf8\x88\x80\x80\x80")},
        {TEXT("/y26/../\xff")},
    };
    static char text[2048], here[CELL + 1];
    const struct row rows[] = {
        {"/", JOBTREE_DIRECTORY, 0755, {1, 2, 3, 4}, TEXT("")},
        {"/long", JOBTREE_LINK, 0777, {5, 6, 7, 8}, here, CELL},
        {"/\xc3\xa9", JOBTREE_FILE, 0600, {9, 10, 11, 12}, TEXT("e")},
        {"/\xf0\x9f\x8c\x95", JOBTREE_DIRECTORY, 0700, {13, 14, 15, 16}, TEXT("")},
    };
    unsigned i;
    tree_k();
    for (i = 0; i < sizeof bad / sizeof bad[0]; i++) {
        at_bytes(bad[i].bytes, bad[i].length);
        all_refused(2);
    }
    memset(text, '/', sizeof text);
    at_bytes(text, 1024);
    shows(METADATA, &K[ROOT], 0);
    gives(CANONICALIZE, TEXT("/"), 0);
    at_bytes(text, 1025);
    all_refused(3);
    text[2047] = '\xff';
    at_bytes(text, 2048);
    all_refused(2);
    memset(text, 'a', 257);
    text[0] = '/';
    at_bytes(text, 256);
    all_refused(8);
    at_bytes(text, 257);
    all_refused(3);
    memcpy(text + 257, "/..", 3);
    at_bytes(text, 260);
    all_refused(3);
    memcpy(text + 256, "/..", 3);
    at_bytes(text, 259);
    shows(METADATA, &K[ROOT], 0);
    /* a current directory of 1,024 bytes, and a target that is as long */
    memset(here, 'a', CELL);
    for (i = 0; i < 4; i++)
        here[256 * i] = '/';
    new_store(16, 2048);
    write_rows(&got, rows, 4);
    write_current_dir(&got, here);
    nothing_due();
    reads_back();
    at("b");
    all_refused(6);
    at("\xff");
    all_refused(2);
    at("");
    refused(METADATA, 8);
    at("../../../../\xc3\xa9");
    shows(METADATA, &rows[2], 0);
    gives(CANONICALIZE, TEXT("/\xc3\xa9"), 0);
    at("b/../../../../../\xf0\x9f\x8c\x95");
    gives(CANONICALIZE, TEXT("/\xf0\x9f\x8c\x95"), 0);
    at("/long");
    following_refused(8);
    shows(SYMLINK_METADATA, &rows[1], 0);
    gives(READ_LINK, here, CELL, 0);
    at("/long/b");
    all_refused(6);
    at("/long/..");
    gives(CANONICALIZE, TEXT("/"), 0);
}

/* ---- damaged stores */

/* The name of /deep is the first. */
static void poke_name(const char *name, uint64_t length) { memcpy(got.bytes, name, length); }

static void poke_length(uint64_t slot, uint64_t length) { got.heads[slot] = (got.heads[slot] & ~(uint64_t)0xffffff) | length; }

static void poke_kind(uint64_t slot, uint64_t kind) { got.heads[slot] = (got.heads[slot] & ~((uint64_t)0xff << 24)) | kind << 24; }

/* One damage of tree K with numbers 0, 3 and 31 open; 0 where none has this number. The comments name the rules of docs/LAYOUT.md. */
static int damage(int which)
{
    switch (which) {
    /* 1: slices that are too short */
    case 0: got.words_count = 101; break;
    case 1: got.words_count = 0; break;
    case 2: got.records_count = 511; break;
    case 3: got.heads_count = 543; break;
    case 4: got.times_count = 4 * 544 - 1; break;
    case 5: got.paths_count = PATHS - 1; break;
    case 6: got.bytes_count = 32767; break;
    case 7: got.bytes_count = 0; break;
    /* 2: limits and counts */
    case 8: got.words[MOST_AT] = 0; break;
    case 9: got.words[MOST_AT] = 4097; break;
    case 10: got.words[MOST_AT] = UINT64_MAX; break;
    case 11: got.words[MOST_AT] = 8; break;
    case 12: got.words[ROOM_AT] = 255; break;
    case 13: got.words[ROOM_AT] = 1048577; break;
    case 14: got.words[ROOM_AT] = UINT64_MAX; break;
    case 15: got.words[COUNT_AT] = 513; break;
    case 16: got.words[COUNT_AT] = UINT64_MAX; break;
    case 17: got.words[MASK_AT] = (uint64_t)1 << 32; break;
    case 18: got.words[EXTENT_AT] = 545; break;
    case 19: got.words[EXTENT_AT] = UINT64_MAX; break;
    /* 3: more bytes than the limit */
    case 20: poke_length(JAN, 32768); break;
    case 21: poke_length(JAN, 0xffffff); break;
    /* 4: the root */
    case 22: got.records[0] |= 1; break;
    case 23: got.records[0] |= (uint64_t)1 << 16; break;
    case 24: poke_kind(ROOT, 2); break;
    /* 5: depths and order */
    case 25: got.records[1] &= ~(uint64_t)0xffff; break;
    case 26: got.records[1] += 1; break;
    case 27: got.records[8] += 3; break;
    case 28: poke_name(TEXT("hole")); break;
    case 29: poke_name(TEXT("gone")); break;
    /* 6: names */
    case 30: poke_name(TEXT("de/p")); break;
    case 31: poke_name(TEXT("de\0p")); break;
    case 32: poke_name(TEXT("d\xff\xff\xff")); break;
    case 33: got.records[1] = record_word(1, 0, DEEP); break;
    case 34: got.records[1] = record_word(1, 1, DEEP), got.records[2] = record_word(2, 5, UP), poke_name(TEXT(".")); break;
    case 35: got.records[1] = record_word(1, 2, DEEP), got.records[2] = record_word(2, 4, UP), poke_name(TEXT("..")); break;
    /* 7: slots */
    case 36: got.records[3] = record_word(1, 4, SELF); break;
    case 37: got.records[3] = record_word(1, 4, 9); break;
    case 38: got.records[3] |= (uint64_t)1 << 63; break;
    case 39: got.heads[GONE] = 0; break;
    case 40: poke_kind(GONE, 4); break;
    case 41: poke_kind(GONE, 0); break;
    case 42: poke_length(DEEP, 1); break;
    case 43: got.words[EXTENT_AT] = 10, got.heads[9] = (uint64_t)1 << 32; break;
    case 44: got.words[EXTENT_AT] = 10, got.heads[9] = head_word(0, 2, 0); break;
    case 45: got.words[EXTENT_AT] = 10, got.heads[9] = head_word(0, 1, 0); break;
    case 46: got.words[EXTENT_AT] = 8; break;
    case 47: got.words[HOLDER_AT] = 10; break;
    case 48: got.words[HOLDER_AT] = UINT64_MAX; break;
    case 49: got.words[HOLDER_AT] = MOON + 1; break;
    case 50: got.words[HOLDER_AT] = YEAR + 1; break;
    case 51: got.words[COUNT_AT] = 7; break;
    /* 8: targets */
    case 52: got.bytes[32768 - 1] = 0; break;
    case 53: got.bytes[32768 - 1] = 0xff; break;
    case 54: poke_length(UP, 256), memset(got.bytes + 32768 - 256, 'a', 256); break;
    case 55: poke_length(UP, 1025), memset(got.bytes + 32768 - 1025, '/', 1025); break;
    /* 9: the current directory and kept paths */
    case 56: write_current_dir(&got, "y26"); break;
    case 57: write_current_dir(&got, "/"); break;
    case 58: write_current_dir(&got, "/y26/"); break;
    case 59: write_current_dir(&got, "/y26/.."); break;
    case 60: write_current_dir(&got, "/\xff"); break;
    case 61: got.words[HERE_AT] = 1025; break;
    case 62: got.words[HERE_AT] = UINT64_MAX; break;
    case 63: write_number(&got, 31, JAN, 0, "/y26/."); break;
    case 64: write_number(&got, 31, JAN, 0, "/y26//moon"); break;
    case 65: got.words[NUMBER_WORDS * 31 + KEPT_AT] = 1025; break;
    case 66: got.words[NUMBER_WORDS * 31 + KEPT_AT] = UINT64_MAX; break;
    default: return 0;
    }
    return 1;
}

/* Every call but set up answers 1, before anything else, and changes nothing. */
static void damaged(void)
{
    int which = 0, call;
    tree_k_opened();
    reads_back(); /* undamaged it passes */
    while (damage(which)) {
        const unsigned before = differences;
        nothing_due();
        given = (struct given){.path = JAN_PATH, .path_count = 17, .n = 3, .size = 9, .mode = 1, .flags = 3, .mask = 7};
        for (call = SET_UP + 1; call < CALLS; call++)
            refused((enum call)call, 1);
        /* before 14, 2 and 4 */
        given.n = 32;
        at("\xff");
        first_count = second_count = out_count = rows_count = numbers_count = 0;
        for (call = SET_UP + 1; call < CALLS; call++)
            refused((enum call)call, 1);
        lend_enough();
        if (differences != before)
            printf("           with damage %d\n", which);
        which++;
        tree_k_opened();
    }
}

/* ---- the largest trees */

static char longest_path[CELL + 1];

/* 4,096 entries, one under the other. Bytes used go down the whole tree. */
static void deepest(void)
{
    enum { BOTTOM = 4095, AT_512 = 512 };
    static char contents[1048576];
    const uint64_t most = 1048576 - BOTTOM;
    struct row row = {NULL, JOBTREE_DIRECTORY, 0755, {AT_512, -AT_512, 1, 2}, TEXT("")};
    struct row below = row;
    const struct row *const in_it[] = {&below};
    uint64_t k;
    new_store(4096, 1048576);
    for (k = 0; k <= BOTTOM; k++) {
        got.records[k] = record_word(k, k != 0, k);
        got.heads[k] = k < BOTTOM ? head_word(0, 1, 0755) : head_word(7, 2, 0644);
        got.times[4 * k] = (int64_t)k;
        got.times[4 * k + 1] = -(int64_t)k;
        got.times[4 * k + 2] = 1;
        got.times[4 * k + 3] = 2;
    }
    below.times[0] = AT_512 + 1;
    below.times[1] = -AT_512 - 1;
    memset(got.bytes, 'a', BOTTOM);
    memcpy(got.bytes + 1048576 - 7, "deepest", 7);
    got.words[COUNT_AT] = got.words[EXTENT_AT] = 4096;
    for (k = 0; k < AT_512; k++)
        memcpy(longest_path + 2 * k, "/a", 2);
    write_number(&got, 0, BOTTOM, 3, longest_path);
    nothing_due();
    reads_back();
    at(longest_path);
    shows(METADATA, &row, 0);
    shows(SYMLINK_METADATA, &row, 0);
    gives(CANONICALIZE, longest_path, CELL, 0);
    refused(READ, 10);
    refused(READ_LINK, 10);
    lists(TEXT("a\0"), in_it, 1, 0);
    goes_to(longest_path, 0);
    at("a");
    all_refused(6);
    at("");
    lists(TEXT("a\0"), in_it, 1, 0);
    given.mask = 022;
    due.words[MASK_AT] = 022;
    due_in.number = UMASK;
    changes(SET_UMASK);
    given.n = 0;
    shows(METADATA_NUMBER, &row, 0);
    reads_on(100, TEXT("pest"));
    seeks(JOBTREE_FROM_END, (uint64_t)-7, 0);
    due.heads[BOTTOM] = head_word(7, 2, 0600);
    given.mode = 0600;
    changes(SET_MODE_NUMBER);
    due.times[4 * BOTTOM] = given.accessed = 5;
    due.times[4 * BOTTOM + 3] = given.modified = 6;
    given.flags = 3;
    changes(SET_TIMES_NUMBER);
    memcpy(contents, "deepest", 7);
    given.size = most + 1;
    refused(SET_LENGTH, 16);
    given.size = UINT64_MAX;
    refused(SET_LENGTH, 16);
    given.size = most;
    due.heads[BOTTOM] = head_word(most, 2, 0600);
    memcpy(due.bytes + BOTTOM, contents, most);
    changes(SET_LENGTH);
    reads_on(7, TEXT("deepest"));
    given.size = 4;
    due.heads[BOTTOM] = head_word(4, 2, 0600);
    memcpy(due.bytes + 1048576 - 4, contents, 4);
    changes(SET_LENGTH);
    closes();
    /* damaged at the bottom */
    got.bytes[BOTTOM - 1] = '/';
    nothing_due();
    at("/");
    all_refused(1);
    refused(USAGE, 1);
}

/* No number bounds a chain of last links but that of the links in the tree. */
static void longest_chain(void)
{
    enum { LINK_COUNT = 4094 };
    static char paths[LINK_COUNT][16], targets[LINK_COUNT][16];
    static struct row rows[LINK_COUNT + 2] = {
        {"/", JOBTREE_DIRECTORY, 0755, {1, 2, 3, 4}, TEXT("")},
        {"/d", JOBTREE_DIRECTORY, 0700, {5, 6, 7, 8}, TEXT("")},
    };
    chain_rows(rows + 2, paths, targets, LINK_COUNT, 4);
    new_store(4096, 65536);
    write_rows(&got, rows, LINK_COUNT + 2);
    nothing_due();
    at("/l0000");
    shows(METADATA, &rows[1], LINK_COUNT);
    gives(CANONICALIZE, TEXT("/d"), LINK_COUNT);
    lists("", 0, NULL, 0, LINK_COUNT);
    refused(READ, 10);
    at("/l0001/a");
    all_refused(7);
    at("/l4054/a");
    all_refused(8);
    at("/l0000");
    goes_to("/d", LINK_COUNT);
    /* the last one back to the first: a loop */
    rows[LINK_COUNT + 1].bytes = "l0000";
    rows[LINK_COUNT + 1].length = 5;
    write_rows(&got, rows, LINK_COUNT + 2);
    nothing_due();
    following_refused(7);
}

/* ---- the header: its functions, and each inline function once */

static void header_numbers(void)
{
    static uint64_t block[1281072 / 8];
    /* entry limit, byte limit, and the size; from the fifth on set up refuses one of the limits */
    static const uint64_t limits[][3] = {
        {512, 32768, 93232}, {4096, 1048576, 1281072}, {1, 256, 36192}, {7, 1001, 37225},    {0, 256, 0},
        {4097, 256, 0},      {1, 255, 0},              {1, 1048577, 0}, {UINT64_MAX, 256, 0}, {1, UINT64_MAX, 0},
    };
    struct jobtree tree, kept;
    unsigned i, k;
    for (i = 0; i < sizeof limits / sizeof limits[0]; i++)
        expect(jobtree_size(limits[i][0], limits[i][1]) == limits[i][2], "jobtree_size");
    memset(&tree, 0x5a, sizeof tree);
    kept = tree;
    for (i = 4; i < sizeof limits / sizeof limits[0]; i++)
        expect(jobtree_cut(&tree, block, sizeof block, limits[i][0], limits[i][1]) != 0, "jobtree_cut with a bad limit");
    expect(jobtree_cut(&tree, block, 93231, 512, 32768) != 0, "jobtree_cut of a block that is too small");
    expect(jobtree_cut(&tree, (uint8_t *)block + 4, 93232, 512, 32768) != 0, "jobtree_cut of a block that is not aligned");
    expect(memcmp(&tree, &kept, sizeof tree) == 0, "jobtree_cut leaves the struct as it was");
    for (i = 0; i < 4; i++) {
        const uint64_t most = limits[i][0], room = limits[i][1];
        expect(jobtree_cut(&tree, block, limits[i][2], most, room) == 0, "jobtree_cut");
        expect(tree.words == block && tree.words_count == 102 && tree.records == tree.words + 102 && tree.records_count == most
                   && tree.heads == tree.records + most && tree.heads_count == most + 32
                   && (uint64_t *)tree.times == tree.heads + most + 32 && tree.times_count == 4 * (most + 32)
                   && tree.paths == (uint8_t *)(tree.times + 4 * (most + 32)) && tree.paths_count == 33792
                   && tree.bytes == tree.paths + 33792 && tree.bytes_count == room
                   && tree.bytes + room == (uint8_t *)block + limits[i][2],
               "jobtree_cut has the slices of docs/LAYOUT.md");
    }
    for (i = 0; i < 18; i++)
        for (k = 0; k < i; k++)
            expect(strcmp(jobtree_refusal_text(i), jobtree_refusal_text(k)) != 0, "jobtree_refusal_text");
    expect(strcmp(jobtree_refusal_text(17), jobtree_refusal_text(UINT32_MAX)) == 0, "jobtree_refusal_text of no refusal");
}

static int same_stat(const struct jobtree_stat *stat, const struct row *row)
{
    return stat->kind == (int64_t)row->kind && stat->size == (row->kind == JOBTREE_FILE ? (int64_t)row->length : 0)
           && stat->mode == row->mode && stat->accessed == row->times[0] && stat->changed == row->times[1]
           && stat->created == row->times[2] && stat->modified == row->times[3];
}

#define ACCEPTED(call) (calls++, expect((call) == JOBTREE_ACCEPTED, #call))

static void header_calls(void)
{
    struct jobtree tree;
    struct jobtree_stat stat, rows[5];
    struct jobtree_use use;
    uint64_t number = 99, links = 99, position = 99;
    char out[64];
    const size_t size = jobtree_size(512, 32768);
    void *const memory = malloc(size);
    if (memory == NULL || jobtree_cut(&tree, memory, size, 512, 32768) != 0) {
        differ("no memory for a store");
        free(memory);
        return;
    }
    ACCEPTED(jobtree_set_up(&tree, 512, 32768));
    expect(jobtree_metadata(&tree, "/", 1, &stat, &links) == JOBTREE_NOT_FOUND && links == 99, "a fresh tree has no root");
    write_rows(&tree, K, K_COUNT);
    write_number(&tree, 31, JAN, 1, JAN_PATH);
    ACCEPTED(jobtree_metadata(&tree, "/deep/up/moon", 13, &stat, &links));
    expect(same_stat(&stat, &K[MOON]) && links == 1, "jobtree_metadata");
    ACCEPTED(jobtree_symlink_metadata(&tree, "/year", 5, &stat, &links));
    expect(same_stat(&stat, &K[YEAR]) && links == 0, "jobtree_symlink_metadata");
    ACCEPTED(jobtree_canonicalize(&tree, "/year/moon", 10, out, 9, &number, &links));
    expect(number == 9 && links == 1 && memcmp(out, "/y26/moon", 9) == 0, "jobtree_canonicalize");
    ACCEPTED(jobtree_read(&tree, "/year/moon/jan.txt", 18, out, 5, &number, &links));
    expect(number == 5 && links == 1 && memcmp(out, "full3", 5) == 0, "jobtree_read");
    ACCEPTED(jobtree_read_link(&tree, "/deep/up", 8, out, 6, &number, &links));
    expect(number == 6 && links == 0 && memcmp(out, "../y26", 6) == 0, "jobtree_read_link");
    ACCEPTED(jobtree_list(&tree, "", 0, out, 24, rows, 5, &number, &links));
    expect(number == 5 && links == 0 && memcmp(out, "deep\0gone\0self\0y26\0year", 24) == 0 && same_stat(&rows[0], &K[DEEP])
               && same_stat(&rows[4], &K[YEAR]),
           "jobtree_list");
    expect(jobtree_list(&tree, "", 0, out, 24, rows, 4, &number, &links) == JOBTREE_SHORT_BUFFER, "jobtree_list with four rows");
    ACCEPTED(jobtree_set_current_dir(&tree, "year", 4, &links));
    expect(links == 1, "jobtree_set_current_dir");
    ACCEPTED(jobtree_current_dir(&tree, out, 4, &number));
    expect(number == 4 && memcmp(out, "/y26", 4) == 0, "jobtree_current_dir");
    ACCEPTED(jobtree_set_umask(&tree, 022, &number));
    expect(number == UMASK, "jobtree_set_umask");
    ACCEPTED(jobtree_usage(&tree, &use));
    expect(use.mask == 022 && use.most == 512 && use.room == 32768 && use.entries == 9 && use.bytes == 54, "jobtree_usage");
    ACCEPTED(jobtree_number(&tree, 31, out, 17, &position, &number));
    expect(position == 1 && number == 17 && memcmp(out, JAN_PATH, 17) == 0, "jobtree_number");
    ACCEPTED(jobtree_read_number(&tree, 31, out, 2, &number));
    expect(number == 2 && memcmp(out, "ul", 2) == 0, "jobtree_read_number");
    ACCEPTED(jobtree_seek(&tree, 31, JOBTREE_FROM_POSITION, 1, &number));
    expect(number == 4, "jobtree_seek");
    ACCEPTED(jobtree_set_length(&tree, 31, 7));
    ACCEPTED(jobtree_set_mode_number(&tree, 31, 0400));
    ACCEPTED(jobtree_set_times_number(&tree, 31, JOBTREE_ACCESSED | JOBTREE_MODIFIED, 7, 8));
    ACCEPTED(jobtree_metadata_number(&tree, 31, &stat, &links));
    expect(stat.size == 7 && stat.mode == 0400 && stat.accessed == 7 && stat.changed == INT64_MAX && stat.modified == 8 && links == 0,
           "jobtree_metadata_number");
    ACCEPTED(jobtree_close(&tree, 31));
    expect(jobtree_close(&tree, 31) == JOBTREE_BAD_NUMBER, "jobtree_close");
    free(memory);
}

static void header(void)
{
    header_numbers();
    header_calls();
}

/* ---- all of them */

static const struct test_case CASES[] = {
    {"layout", "this program writes tree K as docs/LAYOUT.md shows it", layout},
    {"header", "sizes, texts, and each inline function", header},
    {"set up", "limits, short storage, a fresh store", set_up},
    {"a", "metadata of the empty path is the root, canonicalize 8", case_a},
    {"b", "/deep/up/../year is 8", case_b},
    {"c", "/deep/up/moon is /y26/moon, 1 link", case_c},
    {"d", "/self and /self/a are 7", case_d},
    {"e", "/gone is 8", case_e},
    {"k", "/y26//moon/./jan.txt/ is found, 0 links", case_k},
    {"m", "40 links before a last name, 41, and 41 last links", case_m},
    {"n", "a fresh tree has no root", case_n},
    {"o", "seek from the end by -5 and -6", case_o},
    {"far", "seek and read near 2^64", far_seeks},
    {"numbers", "31 is a file number, 32 is none", file_numbers},
    {"umask", "any 32 bits, and the old value answered", umask_values},
    {"lengths", "cut, extended, to the byte limit, to 2^64 - 1", lengths},
    {"modes", "mode and times by number", modes_and_times},
    {"kept", "metadata by number goes by the kept path", kept_paths},
    {"removed", "files without a name, until their last number is closed", removed_files},
    {"short", "14 of outputs and of working buffers", short_buffers},
    {"texts", "2, 3 and 6", texts},
    {"damaged", "a damaged store is 1 in every call", damaged},
    {"deepest", "4,096 entries, one under the other", deepest},
    {"chain", "a chain of 4,094 last links, and a loop of as many", longest_chain},
};

int main(void) { return run_all(CASES, sizeof CASES / sizeof CASES[0]); }
