/*
 * The job tree: directories, files and links in memory that the caller lends, called by numbers and bytes.
 *
 * Every call answers 0, or the number of a refusal (enum jobtree_refusal). A refused call leaves everything as it was: the
 * tree, the open files, the current directory, and all that it was lent to answer in. What the calls do and when they are
 * refused is in docs/SCOPE.md; what stands in the lent memory is in docs/LAYOUT.md.
 *
 * Two rules are the caller's, since no call can test them:
 *   - what is lent to one call does not overlap, and is as long as the call is told;
 *   - no pointer is null, not even where its length is 0.
 *
 * Texts are bytes with a length; they have no zero byte at their end, neither as arguments nor as answers. An answer stands
 * in front of what is lent for it, and the bytes behind it stay as they were.
 *
 *     size_t size = jobtree_size(512, 32768);
 *     void *memory = malloc(size);
 *     struct jobtree tree;
 *     struct jobtree_stat stat;
 *     uint64_t links;
 *     if (memory != NULL && jobtree_cut(&tree, memory, size, 512, 32768) == 0 && jobtree_set_up(&tree, 512, 32768) == 0)
 *         refusal = jobtree_metadata(&tree, path, len, &stat, &links);
 *
 * How this file is made. The functions of the library take the six slices of a store one by one, each as a pointer and a
 * count, and those that walk a path two working buffers of 1,024 bytes or more, which are all zero after the call. They are
 * declared here as they are. Over each stands an inline function that takes a struct jobtree instead and brings the working
 * buffers: jobtree_call_metadata over jobtree_metadata. A macro gives it the short name, so that jobtree_metadata(...) is
 * the inline function and (jobtree_metadata)(...), in parentheses, the library's. It is a macro since in C a static function
 * of that name would have the library's symbol, and would call itself.
 */
#ifndef JOBTREE_H
#define JOBTREE_H

#include <assert.h>
#include <stddef.h>
#include <stdint.h>

#ifdef __cplusplus
extern "C" {
#endif

/* ---- numbers */

/* Why a call was refused. Behind each number stands the nearest error number of POSIX. */
enum jobtree_refusal {
    JOBTREE_ACCEPTED = 0,
    JOBTREE_BAD_STORE = 1,      /* EINVAL */
    JOBTREE_BAD_TEXT = 2,       /* EILSEQ */
    JOBTREE_TEXT_TOO_LONG = 3,  /* ENAMETOOLONG */
    JOBTREE_BAD_NUMBER = 4,     /* EBADF */
    JOBTREE_NO_LAST_NAME = 5,   /* EBUSY */
    JOBTREE_PATH_TOO_LONG = 6,  /* ENAMETOOLONG */
    JOBTREE_LINK_LOOP = 7,      /* ELOOP */
    JOBTREE_NOT_FOUND = 8,      /* ENOENT */
    JOBTREE_NOT_DIRECTORY = 9,  /* ENOTDIR */
    JOBTREE_WRONG_KIND = 10,    /* EISDIR, ENOTDIR, EINVAL or EPERM, by call */
    JOBTREE_UNDER_ITSELF = 11,  /* EINVAL */
    JOBTREE_ALREADY_THERE = 12, /* EEXIST, or ENOTEMPTY of a directory with entries */
    JOBTREE_BAD_SEEK = 13,      /* EINVAL */
    JOBTREE_SHORT_BUFFER = 14,  /* ERANGE */
    JOBTREE_NO_ENTRIES = 15,    /* ENOSPC */
    JOBTREE_NO_BYTES = 16       /* ENOSPC */
};

/* A refusal in words. */
static inline const char *jobtree_refusal_text(uint32_t refusal)
{
    switch (refusal) {
    case JOBTREE_ACCEPTED: return "accepted";
    case JOBTREE_BAD_STORE: return "the store breaks a rule of the tree or of the layout page";
    case JOBTREE_BAD_TEXT: return "a path or target is not valid UTF-8 or holds a zero byte";
    case JOBTREE_TEXT_TOO_LONG: return "given path or target too long, or a name in it";
    case JOBTREE_BAD_NUMBER: return "file number above 31, in use at open, or not open elsewhere";
    case JOBTREE_NO_LAST_NAME: return "the path is `/` where a last name is needed";
    case JOBTREE_PATH_TOO_LONG: return "a path exceeds 1,024 bytes after normalising";
    case JOBTREE_LINK_LOOP: return "link loop";
    case JOBTREE_NOT_FOUND: return "not found";
    case JOBTREE_NOT_DIRECTORY: return "a file stands where a directory is needed";
    case JOBTREE_WRONG_KIND: return "wrong kind";
    case JOBTREE_UNDER_ITSELF: return "rename of a directory to a path that lies under the old one by its names";
    case JOBTREE_ALREADY_THERE: return "already there";
    case JOBTREE_BAD_SEEK: return "seek from the end whose exact sum is below 0 or above 2^63 - 1";
    case JOBTREE_SHORT_BUFFER: return "output buffer too short";
    case JOBTREE_NO_ENTRIES: return "the tree that the call would leave passes the entry limit";
    case JOBTREE_NO_BYTES: return "bytes used after the call would pass the byte limit";
    default: return "no refusal has this number";
    }
}

/* The kind of an entry. */
enum jobtree_kind { JOBTREE_DIRECTORY = 0, JOBTREE_FILE = 1, JOBTREE_LINK = 2 };

/* Where jobtree_seek counts from. */
enum jobtree_origin { JOBTREE_FROM_START = 0, JOBTREE_FROM_POSITION = 1, JOBTREE_FROM_END = 2 };

/* Which times jobtree_set_times_number sets; other bits mean nothing. */
enum jobtree_times { JOBTREE_ACCESSED = 1, JOBTREE_MODIFIED = 2 };

enum {
    JOBTREE_MOST_ENTRIES = 4096,  /* the greatest entry limit; the least is 1 */
    JOBTREE_LEAST_BYTES = 256,    /* the least byte limit */
    JOBTREE_MOST_BYTES = 1048576, /* the greatest */
    JOBTREE_FILE_NUMBERS = 32,    /* file numbers are 0 to 31 */
    JOBTREE_LONGEST_PATH = 1024,  /* of paths and targets, given or answered */
    JOBTREE_LONGEST_NAME = 255,
    JOBTREE_WORK_BYTES = 1024,    /* what the library asks of a working buffer */
    JOBTREE_STAT_NUMBERS = 7,     /* the numbers in a struct jobtree_stat */
    JOBTREE_USE_NUMBERS = 5,      /* the numbers in a struct jobtree_use */
    JOBTREE_WORDS_COUNT = 102,    /* the lengths of two slices, whatever the limits are */
    JOBTREE_PATHS_COUNT = 33792
};

/* Metadata of an entry. Times are nanoseconds from 1970. */
struct jobtree_stat {
    int64_t kind; /* enum jobtree_kind */
    int64_t size; /* the length of a file, else 0 */
    int64_t mode;
    int64_t accessed;
    int64_t changed;
    int64_t created;
    int64_t modified;
};

/* The umask, the limits of a store, and what is used of them. */
struct jobtree_use {
    uint64_t mask;
    uint64_t most; /* the entry limit */
    uint64_t room; /* the byte limit */
    uint64_t entries;
    uint64_t bytes;
};

/* The library writes both as rows of numbers, so nothing may stand between the fields. */
static_assert(sizeof(struct jobtree_stat) == JOBTREE_STAT_NUMBERS * sizeof(int64_t), "seven numbers");
static_assert(sizeof(struct jobtree_use) == JOBTREE_USE_NUMBERS * sizeof(uint64_t), "five numbers");

/* ---- the lent memory */

/* A store: six slices, each with the number of its elements. They may be longer than the limits ask. */
struct jobtree {
    uint64_t *words;
    uint64_t words_count;
    uint64_t *records;
    uint64_t records_count;
    uint64_t *heads;
    uint64_t heads_count;
    int64_t *times;
    uint64_t times_count;
    uint8_t *paths;
    uint64_t paths_count;
    uint8_t *bytes;
    uint64_t bytes_count;
};

/* An address as another type. C++ has its own form of it, without which a program that forbids old casts is warned here. */
#ifdef __cplusplus
#define JOBTREE_AS(type, address) (reinterpret_cast<type>(address))
#else
#define JOBTREE_AS(type, address) ((type)(address))
#endif

/* How many bytes of memory a store with these limits needs; 0 where set up refuses one of them. */
static inline size_t jobtree_size(uint64_t most, uint64_t room)
{
    const uint64_t slots = most + JOBTREE_FILE_NUMBERS;
    if (most < 1 || most > JOBTREE_MOST_ENTRIES || room < JOBTREE_LEAST_BYTES || room > JOBTREE_MOST_BYTES)
        return 0;
    return (JOBTREE_WORDS_COUNT + most + slots + 4 * slots) * sizeof(uint64_t) + JOBTREE_PATHS_COUNT + room;
}

/*
 * Cuts a block of memory into the slices of a store with these limits; set up comes after it. Answers 0, or 1 and leaves the
 * struct as it was where the block is too small or not aligned to 8 bytes, or where set up refuses one of the limits.
 */
static inline int jobtree_cut(struct jobtree *tree, void *memory, size_t size, uint64_t most, uint64_t room)
{
    const uint64_t slots = most + JOBTREE_FILE_NUMBERS;
    const size_t needed = jobtree_size(most, room);
    if (needed == 0 || size < needed || JOBTREE_AS(uintptr_t, memory) % sizeof(uint64_t) != 0)
        return 1;
    /* The slices of 64 bits come first, so that they are aligned without gaps between them. */
    tree->words = JOBTREE_AS(uint64_t *, memory);
    tree->words_count = JOBTREE_WORDS_COUNT;
    tree->records = tree->words + tree->words_count;
    tree->records_count = most;
    tree->heads = tree->records + tree->records_count;
    tree->heads_count = slots;
    tree->times = JOBTREE_AS(int64_t *, tree->heads + tree->heads_count);
    tree->times_count = 4 * slots;
    tree->paths = JOBTREE_AS(uint8_t *, tree->times + tree->times_count);
    tree->paths_count = JOBTREE_PATHS_COUNT;
    tree->bytes = tree->paths + tree->paths_count;
    tree->bytes_count = room;
    return 0;
}

/* What the inline functions below hand on, from parameters that have the same names in all of them. */
#define JOBTREE_SLICES                                                                                          \
    tree->words, tree->words_count, tree->records, tree->records_count, tree->heads, tree->heads_count,         \
        tree->times, tree->times_count, tree->paths, tree->paths_count, tree->bytes, tree->bytes_count
#define JOBTREE_BUFFERS uint8_t first[JOBTREE_WORK_BYTES] = {0}, second[JOBTREE_WORK_BYTES] = {0}
#define JOBTREE_WORK first, sizeof first, second, sizeof second
#define JOBTREE_PATH JOBTREE_AS(const uint8_t *, path), len
#define JOBTREE_OUT JOBTREE_AS(uint8_t *, out), size
#define JOBTREE_ROW JOBTREE_AS(int64_t *, stat), JOBTREE_STAT_NUMBERS
#define JOBTREE_ROWS JOBTREE_AS(int64_t *, rows), count * JOBTREE_STAT_NUMBERS
#define JOBTREE_USE JOBTREE_AS(uint64_t *, use), JOBTREE_USE_NUMBERS

/* ---- set up */

/* A fresh store, whatever the memory held: no root, umask octal 666, current directory `/`, no number open. */
uint32_t jobtree_set_up(
    uint64_t *words, uint64_t words_count, uint64_t *records, uint64_t records_count,
    uint64_t *heads, uint64_t heads_count, int64_t *times, uint64_t times_count,
    uint8_t *paths, uint64_t paths_count, uint8_t *bytes, uint64_t bytes_count,
    uint64_t most, uint64_t room);

static inline uint32_t jobtree_call_set_up(struct jobtree *tree, uint64_t most, uint64_t room)
{
    return jobtree_set_up(JOBTREE_SLICES, most, room);
}
#define jobtree_set_up(...) jobtree_call_set_up(__VA_ARGS__)

/* ---- calls with a path that only ask; links is how many links were followed */

/* The metadata of what the path leads to. */
uint32_t jobtree_metadata(
    const uint64_t *words, uint64_t words_count, const uint64_t *records, uint64_t records_count,
    const uint64_t *heads, uint64_t heads_count, const int64_t *times, uint64_t times_count,
    const uint8_t *paths, uint64_t paths_count, const uint8_t *bytes, uint64_t bytes_count,
    uint8_t *first, uint64_t first_count, uint8_t *second, uint64_t second_count,
    const uint8_t *path, uint64_t path_count, int64_t *rows, uint64_t rows_count, uint64_t *links);

static inline uint32_t jobtree_call_metadata(const struct jobtree *tree, const char *path, size_t len,
                                             struct jobtree_stat *stat, uint64_t *links)
{
    JOBTREE_BUFFERS;
    return jobtree_metadata(JOBTREE_SLICES, JOBTREE_WORK, JOBTREE_PATH, JOBTREE_ROW, links);
}
#define jobtree_metadata(...) jobtree_call_metadata(__VA_ARGS__)

/* The same; a last link is not followed. */
uint32_t jobtree_symlink_metadata(
    const uint64_t *words, uint64_t words_count, const uint64_t *records, uint64_t records_count,
    const uint64_t *heads, uint64_t heads_count, const int64_t *times, uint64_t times_count,
    const uint8_t *paths, uint64_t paths_count, const uint8_t *bytes, uint64_t bytes_count,
    uint8_t *first, uint64_t first_count, uint8_t *second, uint64_t second_count,
    const uint8_t *path, uint64_t path_count, int64_t *rows, uint64_t rows_count, uint64_t *links);

static inline uint32_t jobtree_call_symlink_metadata(const struct jobtree *tree, const char *path, size_t len,
                                                     struct jobtree_stat *stat, uint64_t *links)
{
    JOBTREE_BUFFERS;
    return jobtree_symlink_metadata(JOBTREE_SLICES, JOBTREE_WORK, JOBTREE_PATH, JOBTREE_ROW, links);
}
#define jobtree_symlink_metadata(...) jobtree_call_symlink_metadata(__VA_ARGS__)

/* The path of what the path leads to, which goes through no link; number is its length. */
uint32_t jobtree_canonicalize(
    const uint64_t *words, uint64_t words_count, const uint64_t *records, uint64_t records_count,
    const uint64_t *heads, uint64_t heads_count, const int64_t *times, uint64_t times_count,
    const uint8_t *paths, uint64_t paths_count, const uint8_t *bytes, uint64_t bytes_count,
    uint8_t *first, uint64_t first_count, uint8_t *second, uint64_t second_count,
    const uint8_t *path, uint64_t path_count, uint8_t *out, uint64_t out_count, uint64_t *number, uint64_t *links);

static inline uint32_t jobtree_call_canonicalize(const struct jobtree *tree, const char *path, size_t len,
                                                 char *out, size_t size, uint64_t *number, uint64_t *links)
{
    JOBTREE_BUFFERS;
    return jobtree_canonicalize(JOBTREE_SLICES, JOBTREE_WORK, JOBTREE_PATH, JOBTREE_OUT, number, links);
}
#define jobtree_canonicalize(...) jobtree_call_canonicalize(__VA_ARGS__)

/* The contents of the file that the path leads to; number is how many bytes they are. */
uint32_t jobtree_read(
    const uint64_t *words, uint64_t words_count, const uint64_t *records, uint64_t records_count,
    const uint64_t *heads, uint64_t heads_count, const int64_t *times, uint64_t times_count,
    const uint8_t *paths, uint64_t paths_count, const uint8_t *bytes, uint64_t bytes_count,
    uint8_t *first, uint64_t first_count, uint8_t *second, uint64_t second_count,
    const uint8_t *path, uint64_t path_count, uint8_t *out, uint64_t out_count, uint64_t *number, uint64_t *links);

static inline uint32_t jobtree_call_read(const struct jobtree *tree, const char *path, size_t len,
                                         void *out, size_t size, uint64_t *number, uint64_t *links)
{
    JOBTREE_BUFFERS;
    return jobtree_read(JOBTREE_SLICES, JOBTREE_WORK, JOBTREE_PATH, JOBTREE_OUT, number, links);
}
#define jobtree_read(...) jobtree_call_read(__VA_ARGS__)

/* The target of the link at the path, as it was given; number is its length. */
uint32_t jobtree_read_link(
    const uint64_t *words, uint64_t words_count, const uint64_t *records, uint64_t records_count,
    const uint64_t *heads, uint64_t heads_count, const int64_t *times, uint64_t times_count,
    const uint8_t *paths, uint64_t paths_count, const uint8_t *bytes, uint64_t bytes_count,
    uint8_t *first, uint64_t first_count, uint8_t *second, uint64_t second_count,
    const uint8_t *path, uint64_t path_count, uint8_t *out, uint64_t out_count, uint64_t *number, uint64_t *links);

static inline uint32_t jobtree_call_read_link(const struct jobtree *tree, const char *path, size_t len,
                                              char *out, size_t size, uint64_t *number, uint64_t *links)
{
    JOBTREE_BUFFERS;
    return jobtree_read_link(JOBTREE_SLICES, JOBTREE_WORK, JOBTREE_PATH, JOBTREE_OUT, number, links);
}
#define jobtree_read_link(...) jobtree_call_read_link(__VA_ARGS__)

/*
 * The names in the directory that the path leads to, in the order of their bytes, each with a zero byte behind it, and in
 * rows the metadata of each entry itself; number is how many entries there are.
 */
uint32_t jobtree_list(
    const uint64_t *words, uint64_t words_count, const uint64_t *records, uint64_t records_count,
    const uint64_t *heads, uint64_t heads_count, const int64_t *times, uint64_t times_count,
    const uint8_t *paths, uint64_t paths_count, const uint8_t *bytes, uint64_t bytes_count,
    uint8_t *first, uint64_t first_count, uint8_t *second, uint64_t second_count,
    const uint8_t *path, uint64_t path_count, uint8_t *out, uint64_t out_count,
    int64_t *rows, uint64_t rows_count, uint64_t *number, uint64_t *links);

static inline uint32_t jobtree_call_list(const struct jobtree *tree, const char *path, size_t len,
                                         char *out, size_t size, struct jobtree_stat *rows, size_t count,
                                         uint64_t *number, uint64_t *links)
{
    JOBTREE_BUFFERS;
    return jobtree_list(JOBTREE_SLICES, JOBTREE_WORK, JOBTREE_PATH, JOBTREE_OUT, JOBTREE_ROWS, number, links);
}
#define jobtree_list(...) jobtree_call_list(__VA_ARGS__)

/* ---- the current directory and the umask */

/* The current directory is what the path leads to, whatever stands there. */
uint32_t jobtree_set_current_dir(
    uint64_t *words, uint64_t words_count, const uint64_t *records, uint64_t records_count,
    const uint64_t *heads, uint64_t heads_count, const int64_t *times, uint64_t times_count,
    uint8_t *paths, uint64_t paths_count, const uint8_t *bytes, uint64_t bytes_count,
    uint8_t *first, uint64_t first_count, uint8_t *second, uint64_t second_count,
    const uint8_t *path, uint64_t path_count, uint64_t *links);

static inline uint32_t jobtree_call_set_current_dir(struct jobtree *tree, const char *path, size_t len, uint64_t *links)
{
    JOBTREE_BUFFERS;
    return jobtree_set_current_dir(JOBTREE_SLICES, JOBTREE_WORK, JOBTREE_PATH, links);
}
#define jobtree_set_current_dir(...) jobtree_call_set_current_dir(__VA_ARGS__)

/* Any 32 bits; number is the umask that was. */
uint32_t jobtree_set_umask(
    uint64_t *words, uint64_t words_count, const uint64_t *records, uint64_t records_count,
    const uint64_t *heads, uint64_t heads_count, const int64_t *times, uint64_t times_count,
    const uint8_t *paths, uint64_t paths_count, const uint8_t *bytes, uint64_t bytes_count,
    uint32_t mask, uint64_t *number);

static inline uint32_t jobtree_call_set_umask(struct jobtree *tree, uint32_t mask, uint64_t *number)
{
    return jobtree_set_umask(JOBTREE_SLICES, mask, number);
}
#define jobtree_set_umask(...) jobtree_call_set_umask(__VA_ARGS__)

/* ---- calls by file number */

/* The number is open no more. */
uint32_t jobtree_close(
    uint64_t *words, uint64_t words_count, const uint64_t *records, uint64_t records_count,
    uint64_t *heads, uint64_t heads_count, const int64_t *times, uint64_t times_count,
    const uint8_t *paths, uint64_t paths_count, uint8_t *bytes, uint64_t bytes_count,
    uint32_t n);

static inline uint32_t jobtree_call_close(struct jobtree *tree, uint32_t n)
{
    return jobtree_close(JOBTREE_SLICES, n);
}
#define jobtree_close(...) jobtree_call_close(__VA_ARGS__)

/* As many bytes as there are from the position on and as fit; number is how many, 0 at the end. The position moves behind them. */
uint32_t jobtree_read_number(
    uint64_t *words, uint64_t words_count, const uint64_t *records, uint64_t records_count,
    const uint64_t *heads, uint64_t heads_count, const int64_t *times, uint64_t times_count,
    const uint8_t *paths, uint64_t paths_count, const uint8_t *bytes, uint64_t bytes_count,
    uint32_t n, uint8_t *out, uint64_t out_count, uint64_t *number);

static inline uint32_t jobtree_call_read_number(struct jobtree *tree, uint32_t n, void *out, size_t size,
                                                uint64_t *number)
{
    return jobtree_read_number(JOBTREE_SLICES, n, JOBTREE_OUT, number);
}
#define jobtree_read_number(...) jobtree_call_read_number(__VA_ARGS__)

/*
 * Sets the position; number is the new one. From the start the offset is any 64 bits; from the position the sum wraps at
 * 2^64; from the end the offset is taken as a signed number, (uint64_t)-5 for five bytes before the end. Any origin but 0
 * and 1 is the end.
 */
uint32_t jobtree_seek(
    uint64_t *words, uint64_t words_count, const uint64_t *records, uint64_t records_count,
    const uint64_t *heads, uint64_t heads_count, const int64_t *times, uint64_t times_count,
    const uint8_t *paths, uint64_t paths_count, const uint8_t *bytes, uint64_t bytes_count,
    uint32_t n, uint32_t origin, uint64_t offset, uint64_t *number);

static inline uint32_t jobtree_call_seek(struct jobtree *tree, uint32_t n, uint32_t origin, uint64_t offset,
                                         uint64_t *number)
{
    return jobtree_seek(JOBTREE_SLICES, n, origin, offset, number);
}
#define jobtree_seek(...) jobtree_call_seek(__VA_ARGS__)

/* The file is cut to so many bytes, or extended by zeros. No time and no position changes. */
uint32_t jobtree_set_length(
    const uint64_t *words, uint64_t words_count, const uint64_t *records, uint64_t records_count,
    uint64_t *heads, uint64_t heads_count, const int64_t *times, uint64_t times_count,
    const uint8_t *paths, uint64_t paths_count, uint8_t *bytes, uint64_t bytes_count,
    uint32_t n, uint64_t size);

static inline uint32_t jobtree_call_set_length(struct jobtree *tree, uint32_t n, uint64_t size)
{
    return jobtree_set_length(JOBTREE_SLICES, n, size);
}
#define jobtree_set_length(...) jobtree_call_set_length(__VA_ARGS__)

/* The mode of the file: any 32 bits. */
uint32_t jobtree_set_mode_number(
    const uint64_t *words, uint64_t words_count, const uint64_t *records, uint64_t records_count,
    uint64_t *heads, uint64_t heads_count, const int64_t *times, uint64_t times_count,
    const uint8_t *paths, uint64_t paths_count, const uint8_t *bytes, uint64_t bytes_count,
    uint32_t n, uint32_t mode);

static inline uint32_t jobtree_call_set_mode_number(struct jobtree *tree, uint32_t n, uint32_t mode)
{
    return jobtree_set_mode_number(JOBTREE_SLICES, n, mode);
}
#define jobtree_set_mode_number(...) jobtree_call_set_mode_number(__VA_ARGS__)

/* The times accessed and modified of the file, each where its flag is given (enum jobtree_times). */
uint32_t jobtree_set_times_number(
    const uint64_t *words, uint64_t words_count, const uint64_t *records, uint64_t records_count,
    const uint64_t *heads, uint64_t heads_count, int64_t *times, uint64_t times_count,
    const uint8_t *paths, uint64_t paths_count, const uint8_t *bytes, uint64_t bytes_count,
    uint32_t n, uint32_t flags, int64_t accessed, int64_t modified);

static inline uint32_t jobtree_call_set_times_number(struct jobtree *tree, uint32_t n, uint32_t flags, int64_t accessed,
                                                     int64_t modified)
{
    return jobtree_set_times_number(JOBTREE_SLICES, n, flags, accessed, modified);
}
#define jobtree_set_times_number(...) jobtree_call_set_times_number(__VA_ARGS__)

/* The metadata of what the path kept at open leads to now, which may be another entry than the file. */
uint32_t jobtree_metadata_number(
    const uint64_t *words, uint64_t words_count, const uint64_t *records, uint64_t records_count,
    const uint64_t *heads, uint64_t heads_count, const int64_t *times, uint64_t times_count,
    const uint8_t *paths, uint64_t paths_count, const uint8_t *bytes, uint64_t bytes_count,
    uint8_t *first, uint64_t first_count, uint8_t *second, uint64_t second_count, uint32_t n,
    int64_t *rows, uint64_t rows_count, uint64_t *links);

static inline uint32_t jobtree_call_metadata_number(const struct jobtree *tree, uint32_t n, struct jobtree_stat *stat,
                                                    uint64_t *links)
{
    JOBTREE_BUFFERS;
    return jobtree_metadata_number(JOBTREE_SLICES, JOBTREE_WORK, n, JOBTREE_ROW, links);
}
#define jobtree_metadata_number(...) jobtree_call_metadata_number(__VA_ARGS__)

/* ---- reading back: no calls of a job; nothing is changed */

/* The path of the current directory; number is its length. */
uint32_t jobtree_current_dir(
    const uint64_t *words, uint64_t words_count, const uint64_t *records, uint64_t records_count,
    const uint64_t *heads, uint64_t heads_count, const int64_t *times, uint64_t times_count,
    const uint8_t *paths, uint64_t paths_count, const uint8_t *bytes, uint64_t bytes_count,
    uint8_t *out, uint64_t out_count, uint64_t *number);

static inline uint32_t jobtree_call_current_dir(const struct jobtree *tree, char *out, size_t size, uint64_t *number)
{
    return jobtree_current_dir(JOBTREE_SLICES, JOBTREE_OUT, number);
}
#define jobtree_current_dir(...) jobtree_call_current_dir(__VA_ARGS__)

/* The umask, the limits, and what is used of them. */
uint32_t jobtree_usage(
    const uint64_t *words, uint64_t words_count, const uint64_t *records, uint64_t records_count,
    const uint64_t *heads, uint64_t heads_count, const int64_t *times, uint64_t times_count,
    const uint8_t *paths, uint64_t paths_count, const uint8_t *bytes, uint64_t bytes_count,
    uint64_t *numbers, uint64_t numbers_count);

static inline uint32_t jobtree_call_usage(const struct jobtree *tree, struct jobtree_use *use)
{
    return jobtree_usage(JOBTREE_SLICES, JOBTREE_USE);
}
#define jobtree_usage(...) jobtree_call_usage(__VA_ARGS__)

/* The position of an open number, and the path that was kept at open; length is the length of that path. */
uint32_t jobtree_number(
    const uint64_t *words, uint64_t words_count, const uint64_t *records, uint64_t records_count,
    const uint64_t *heads, uint64_t heads_count, const int64_t *times, uint64_t times_count,
    const uint8_t *paths, uint64_t paths_count, const uint8_t *bytes, uint64_t bytes_count,
    uint32_t n, uint8_t *out, uint64_t out_count, uint64_t *position, uint64_t *length);

static inline uint32_t jobtree_call_number(const struct jobtree *tree, uint32_t n, char *out, size_t size,
                                           uint64_t *position, uint64_t *length)
{
    return jobtree_number(JOBTREE_SLICES, n, JOBTREE_OUT, position, length);
}
#define jobtree_number(...) jobtree_call_number(__VA_ARGS__)

#undef JOBTREE_AS
#undef JOBTREE_SLICES
#undef JOBTREE_BUFFERS
#undef JOBTREE_WORK
#undef JOBTREE_PATH
#undef JOBTREE_OUT
#undef JOBTREE_ROW
#undef JOBTREE_ROWS
#undef JOBTREE_USE

#ifdef __cplusplus
}
#endif

#endif
