/* rows FILE: runs each row of a file that bindings/tests/rows.py made, with buffers of every length from 0 to two bytes
 * more than the result needs and guard bytes after it, and with NULL for what is empty. With -DREFUSING and malloc,
 * realloc and free wrapped (see the Makefile), each allocation of each row is failed in turn as well. Each status has to
 * come at least once. The last line is `N passed, M failed`. */
#define _POSIX_C_SOURCE 200809L
#include "jdoc.h"
#include "growths.h"

#include <ctype.h>
#include <stdio.h>
#include <stdlib.h>
#include <string.h>

enum { GUARD = 16, FILL = 0xee, MOST_WORDS = 12, ALL_LENGTHS = 1024 };

/* What a call takes, by its letters: b bytes, t text, c a column, n a column of names, f a flag, i and s a position, l
 * and u numbers, y a scale; and what it returns: O bytes, S a string, T Boolean, N and W numbers, C count, D the parts of a
 * decimal, R an order. */
#define BYTES_IN  const uint8_t *, size_t
#define TEXT_IN   const char *, size_t
#define COLUMN_IN const uint8_t *, size_t, const uint64_t *, size_t
#define NAMES_IN  const char *, size_t, const uint64_t *, size_t
#define BYTES_OUT uint8_t *, size_t, size_t *
#define TEXT_OUT  char *, size_t, size_t *
typedef enum jdoc_status b_fn(BYTES_IN);
typedef enum jdoc_status bT_fn(BYTES_IN, uint8_t *);
typedef enum jdoc_status bN_fn(BYTES_IN, int64_t *);
typedef enum jdoc_status bW_fn(BYTES_IN, uint64_t *);
typedef enum jdoc_status bC_fn(BYTES_IN, size_t *);
typedef enum jdoc_status bD_fn(BYTES_IN, int64_t *, uint64_t *, uint8_t *);
typedef enum jdoc_status bO_fn(BYTES_IN, BYTES_OUT);
typedef enum jdoc_status bS_fn(BYTES_IN, TEXT_OUT);
typedef enum jdoc_status bfO_fn(BYTES_IN, bool, BYTES_OUT);
typedef enum jdoc_status bsO_fn(BYTES_IN, size_t, BYTES_OUT);
typedef enum jdoc_status biO_fn(BYTES_IN, int32_t, BYTES_OUT);
typedef enum jdoc_status bbO_fn(BYTES_IN, BYTES_IN, BYTES_OUT);
typedef enum jdoc_status bbT_fn(BYTES_IN, BYTES_IN, uint8_t *);
typedef enum jdoc_status bbR_fn(BYTES_IN, BYTES_IN, int32_t *);
typedef enum jdoc_status bbiO_fn(BYTES_IN, BYTES_IN, int32_t, BYTES_OUT);
typedef enum jdoc_status bbtfO_fn(BYTES_IN, BYTES_IN, TEXT_IN, bool, BYTES_OUT);
typedef enum jdoc_status btO_fn(BYTES_IN, TEXT_IN, BYTES_OUT);
typedef enum jdoc_status btfO_fn(BYTES_IN, TEXT_IN, bool, BYTES_OUT);
typedef enum jdoc_status btuO_fn(BYTES_IN, TEXT_IN, uint64_t, BYTES_OUT);
typedef enum jdoc_status btuT_fn(BYTES_IN, TEXT_IN, uint64_t, uint8_t *);
typedef enum jdoc_status btW_fn(BYTES_IN, TEXT_IN, uint64_t *);
typedef enum jdoc_status btfT_fn(BYTES_IN, TEXT_IN, bool, uint8_t *);
typedef enum jdoc_status bnO_fn(BYTES_IN, NAMES_IN, BYTES_OUT);
typedef enum jdoc_status bnT_fn(BYTES_IN, NAMES_IN, uint8_t *);
typedef enum jdoc_status cO_fn(COLUMN_IN, BYTES_OUT);
typedef enum jdoc_status cfO_fn(COLUMN_IN, bool, BYTES_OUT);
typedef enum jdoc_status ncO_fn(NAMES_IN, COLUMN_IN, BYTES_OUT);
typedef enum jdoc_status O_fn(BYTES_OUT);
typedef enum jdoc_status tO_fn(TEXT_IN, BYTES_OUT);
typedef enum jdoc_status tC_fn(TEXT_IN, size_t *);
typedef enum jdoc_status fO_fn(bool, BYTES_OUT);
typedef enum jdoc_status lO_fn(int64_t, BYTES_OUT);
typedef enum jdoc_status uO_fn(uint64_t, BYTES_OUT);
typedef enum jdoc_status luyO_fn(int64_t, uint64_t, uint8_t, BYTES_OUT);

/* The results of jdoc_pair and jdoc_leaves as separate calls: the others have room enough, and are written with this
 * one alone. */
enum { OTHER = 256, WROTE_OTHER = 998 };

static enum jdoc_status answered_beside(enum jdoc_status status, const uint8_t *other, size_t other_len) {
    size_t written = status == JDOC_OK ? other_len : 0;
    for (size_t i = written; i < OTHER; i++)
        if (other[i] != FILL) return (enum jdoc_status)WROTE_OTHER;
    return status;
}

static enum jdoc_status jdoc_pair_key(const uint8_t *document, size_t document_len, size_t index, uint8_t *out, size_t size,
                              size_t *out_len) {
    uint8_t other[OTHER];
    size_t other_len = 0;
    memset(other, FILL, sizeof other);
    enum jdoc_status status = jdoc_pair(document, document_len, index, (char *)out, size, out_len, other, OTHER, &other_len);
    return answered_beside(status, other, other_len);
}

static enum jdoc_status jdoc_pair_value(const uint8_t *document, size_t document_len, size_t index, uint8_t *out, size_t size,
                                size_t *out_len) {
    uint8_t other[OTHER];
    size_t other_len = 0;
    memset(other, FILL, sizeof other);
    enum jdoc_status status = jdoc_pair(document, document_len, index, (char *)other, OTHER, &other_len, out, size, out_len);
    return answered_beside(status, other, other_len);
}

enum leaf_answer { LEAF_PATHS, LEAF_PATH_POSITIONS, LEAF_DOCUMENTS, LEAF_DOCUMENT_POSITIONS, LEAF_ANSWERS };

static enum jdoc_status leaves_by(enum leaf_answer asked, const uint8_t *document, size_t document_len, uint8_t *out,
                          size_t size, size_t *out_len) {
    _Alignas(8) uint8_t others[LEAF_ANSWERS][OTHER];
    uint8_t *at[LEAF_ANSWERS];
    size_t room[LEAF_ANSWERS];
    jdoc_leaf_sizes sizes = {99, 99, 99};
    memset(others, FILL, sizeof others);
    for (int i = 0; i < LEAF_ANSWERS; i++) {
        at[i] = i == (int)asked ? out : others[i];
        room[i] = i == (int)asked ? size : OTHER;
    }
    enum jdoc_status status = jdoc_leaves(document, document_len, (char *)at[0], room[0], (uint64_t *)at[1], room[1] / 8, at[2],
                                  room[2], (uint64_t *)at[3], room[3] / 8, &sizes);
    bool is_told = status == JDOC_OK || status == JDOC_BUFFER_TOO_SMALL;
    if (!is_told && (sizes.rows || sizes.path_bytes || sizes.document_bytes)) return (enum jdoc_status)WROTE_OTHER;
    size_t positions = is_told ? 8 * (sizes.rows + 1) : 0;
    const size_t lens[LEAF_ANSWERS] = {sizes.path_bytes, positions, sizes.document_bytes, positions};
    *out_len = lens[asked];
    for (int i = 0; i < LEAF_ANSWERS; i++)
        if (i != (int)asked && answered_beside(status, others[i], lens[i]) != status) return (enum jdoc_status)WROTE_OTHER;
    return status;
}

#define LEAVES_BY(name, asked)                                                                                         \
    static enum jdoc_status jdoc_leaf_##name(const uint8_t *document, size_t document_len, uint8_t *out, size_t size,          \
                                     size_t *out_len) {                                                                \
        return leaves_by(asked, document, document_len, out, size, out_len);                                           \
    }
LEAVES_BY(paths, LEAF_PATHS)
LEAVES_BY(path_positions, LEAF_PATH_POSITIONS)
LEAVES_BY(documents, LEAF_DOCUMENTS)
LEAVES_BY(document_positions, LEAF_DOCUMENT_POSITIONS)

#include "handles.h"

#define SHAPES(X)                                                                                                      \
    X(b)                                                                                                               \
    X(bT) X(bN) X(bW) X(bC) X(bD) X(bO) X(bS) X(bfO) X(bsO) X(biO) X(bbO) X(bbT) X(bbR) X(bbiO) X(bbtfO) X(btO) X(btfO)       \
        X(btfT) X(btuO) X(btuT) X(btW) X(bnO) X(bnT) X(cO) X(cfO) X(ncO) X(O) X(tO) X(tC) X(fO) X(lO) X(uO) X(luyO)
#define SHAPE_NAME(s)    SHAPE_##s,
#define SHAPE_FIELD(s)   s##_fn *s;
#define SHAPE_LETTERS(s) #s,
enum shape { SHAPES(SHAPE_NAME) SHAPE_COUNT };
static const char *const letters[] = {SHAPES(SHAPE_LETTERS)};

struct call {
    const char *name;
    enum shape shape;
    union {
        SHAPES(SHAPE_FIELD)
    } function;
};
#define CALL(call, s) {#call, SHAPE_##s, {.s = jdoc_##call}},
static const struct call calls[] = {
#include "calls.h"
};

struct bytes {
    uint8_t *at;
    size_t len;
};

struct column {
    struct bytes bytes;
    uint64_t *offsets;
    size_t len;
};

struct row {
    const struct call *call;
    struct bytes bytes[3];
    struct column columns[2];
    int64_t number;
    uint64_t whole;
    uint8_t scale;
    bool flag;
    uint32_t status;
    const char *answer; /* its text in the file, or NULL */
    struct bytes wanted;
};

/* What a call gave. */
struct result {
    uint32_t status;
    size_t len;
    uint8_t truth;
    int64_t number;
    uint64_t whole;
    size_t count;
    uint8_t scale;
    int32_t order;
};

/* The statuses that came so far. */
static bool is_reached[64];

static struct result run(const struct row *row, uint8_t *out, size_t size) {
    struct result r = {.len = 99, .truth = FILL, .number = FILL, .whole = FILL, .count = FILL, .scale = FILL, .order = FILL};
    const struct bytes *b = row->bytes;
    const struct column *c = row->columns;
#define BYTES(i)  b[i].at, b[i].len
#define TEXT(i)   (const char *)b[i].at, b[i].len
#define COLUMN(i) c[i].bytes.at, c[i].bytes.len, c[i].offsets, c[i].len
#define NAMES(i)  (const char *)c[i].bytes.at, c[i].bytes.len, c[i].offsets, c[i].len
#define OUT       out, size, &r.len
#define RUN(s, ...)                                                                                                    \
    case SHAPE_##s:                                                                                                    \
        r.status = row->call->function.s(__VA_ARGS__);                                                                 \
        break;
    switch (row->call->shape) {
        RUN(b, BYTES(0))
        RUN(bT, BYTES(0), &r.truth)
        RUN(bN, BYTES(0), &r.number)
        RUN(bW, BYTES(0), &r.whole)
        RUN(bC, BYTES(0), &r.count)
        RUN(bD, BYTES(0), &r.number, &r.whole, &r.scale)
        RUN(bO, BYTES(0), OUT)
        RUN(bS, BYTES(0), (char *)OUT)
        RUN(bfO, BYTES(0), row->flag, OUT)
        RUN(bsO, BYTES(0), (size_t)row->number, OUT)
        RUN(biO, BYTES(0), (int32_t)row->number, OUT)
        RUN(bbO, BYTES(0), BYTES(1), OUT)
        RUN(bbT, BYTES(0), BYTES(1), &r.truth)
        RUN(bbR, BYTES(0), BYTES(1), &r.order)
        RUN(bbiO, BYTES(0), BYTES(1), (int32_t)row->number, OUT)
        RUN(bbtfO, BYTES(0), BYTES(1), TEXT(2), row->flag, OUT)
        RUN(btO, BYTES(0), TEXT(1), OUT)
        RUN(btfO, BYTES(0), TEXT(1), row->flag, OUT)
        RUN(btfT, BYTES(0), TEXT(1), row->flag, &r.truth)
        RUN(btuO, BYTES(0), TEXT(1), row->whole, OUT)
        RUN(btuT, BYTES(0), TEXT(1), row->whole, &r.truth)
        RUN(btW, BYTES(0), TEXT(1), &r.whole)
        RUN(bnO, BYTES(0), NAMES(0), OUT)
        RUN(bnT, BYTES(0), NAMES(0), &r.truth)
        RUN(cO, COLUMN(0), OUT)
        RUN(cfO, COLUMN(0), row->flag, OUT)
        RUN(ncO, NAMES(0), COLUMN(1), OUT)
        RUN(O, OUT)
        RUN(tO, TEXT(0), OUT)
        RUN(tC, TEXT(0), &r.count)
        RUN(fO, row->flag, OUT)
        RUN(lO, row->number, OUT)
        RUN(uO, row->whole, OUT)
        RUN(luyO, row->number, row->whole, row->scale, OUT)
    case SHAPE_COUNT:
        abort();
    }
    if (r.status < sizeof is_reached) is_reached[r.status] = true;
    return r;
}

static bool gives_bytes(const struct row *row) { return strpbrk(letters[row->call->shape], "OS") != NULL; }

/* Reading the file. */

static int digit(char c) { return c <= '9' ? c - '0' : c - 'a' + 10; }

static struct bytes read_bytes(const char *word) {
    struct bytes read = {NULL, 0};
    size_t len = strcmp(word, "-") ? strlen(word) / 2 : 0;
    read.at = malloc(len + !len);
    for (; read.len < len; read.len++)
        read.at[read.len] = (uint8_t)(digit(word[2 * read.len]) * 16 + digit(word[2 * read.len + 1]));
    return read;
}

static struct column read_column(const char *bytes, char *offsets) {
    struct column read = {read_bytes(bytes), malloc((strlen(offsets) + 1) * sizeof(uint64_t)), 0};
    for (char *rest = offsets; *rest; rest += *rest == ',') read.offsets[read.len++] = strtoull(rest, &rest, 10);
    return read;
}

static uint32_t read_status(const char *name) {
    for (uint32_t status = 0; status < 64; status++) {
        char text[40];
        size_t len;
        if (!jdoc_status_name(status, text, sizeof text, &len) && len == strlen(name) && !memcmp(text, name, len))
            return status;
    }
    return UINT32_MAX;
}

static const struct call *find_call(const char *name) {
    for (size_t i = 0; i < sizeof calls / sizeof *calls; i++)
        if (!strcmp(calls[i].name, name)) return &calls[i];
    return NULL;
}

static bool read_row(struct row *row, char *line) {
    char *words[MOST_WORDS] = {NULL};
    size_t count = 0, at = 1, bytes = 0, columns = 0;
    for (char *word = strtok(line, " \n"); word && count < MOST_WORDS; word = strtok(NULL, " \n"))
        words[count++] = word;
    memset(row, 0, sizeof *row);
    if (count < 3 || !(row->call = find_call(words[0]))) return false;
    for (const char *letter = letters[row->call->shape]; *letter; letter++) {
        if (isupper((unsigned char)*letter)) break;
        if (strchr("bt", *letter)) row->bytes[bytes++] = read_bytes(words[at++]);
        if (strchr("cn", *letter)) row->columns[columns++] = read_column(words[at], words[at + 1]), at += 2;
        if (*letter == 'f') row->flag = *words[at++] == '1';
        if (strchr("isl", *letter)) row->number = strtoll(words[at++], NULL, 10);
        if (*letter == 'u') row->whole = strtoull(words[at++], NULL, 10);
        if (*letter == 'y') row->scale = (uint8_t)strtoul(words[at++], NULL, 10);
    }
    if (at + 1 >= count || strcmp(words[at], "=")) return false;
    row->status = read_status(words[at + 1]);
    row->answer = words[at + 2];
    if (row->answer && gives_bytes(row)) row->wanted = read_bytes(row->answer);
    return true;
}

static void free_row(struct row *row) {
    for (int i = 0; i < 3; i++) free(row->bytes[i].at);
    for (int i = 0; i < 2; i++) free(row->columns[i].bytes.at), free(row->columns[i].offsets);
    free(row->wanted.at);
}

/* Judging. */

/* The contents of a value without a result: FILL, in each of its fields. */
#define UNTOUCHED "238,238,238"

static bool is_filled(const uint8_t *at, size_t len) {
    for (size_t i = 0; i < len; i++)
        if (at[i] != FILL) return false;
    return true;
}

/* Whether the fields are those of an argument such as -1,5,2. */
static bool has_parts(const char *answer, const struct result *r) {
    char *rest;
    int64_t high = strtoll(answer, &rest, 10);
    uint64_t low = *rest ? strtoull(rest + 1, &rest, 10) : 0;
    return *rest && r->number == high && r->whole == low && r->scale == strtoul(rest + 1, NULL, 10);
}

static bool has_scalar(const struct row *row, const struct result *r) {
    bool is_answered = r->status == JDOC_OK;
    const char *answer = is_answered ? row->answer : UNTOUCHED;
    if (is_answered && !answer) return r->len == 99;
    switch (letters[row->call->shape][strlen(letters[row->call->shape]) - 1]) {
    case 'T':
        return r->truth == strtoull(answer, NULL, 10);
    case 'N':
        return r->number == strtoll(answer, NULL, 10);
    case 'W':
        return r->whole == strtoull(answer, NULL, 10);
    case 'C':
        return r->count == strtoull(answer, NULL, 10);
    case 'R':
        return r->order == strtoll(answer, NULL, 10);
    case 'D':
        return has_parts(answer, r);
    default:
        return true;
    }
}

/* Whether a call with a buffer of this size had the expected result; `status` is its status if the buffer suffices.
 */
static bool is_right(const struct row *row, uint32_t status, size_t size, long *growths) {
    uint8_t *out = malloc(size + GUARD);
    memset(out, FILL, size + GUARD);
    start_counting(-1);
    struct result r = run(row, out, size);
    *growths = stop_counting();
    bool right = has_scalar(row, &r) && live_blocks() == 0;
    if (gives_bytes(row)) {
        size_t len = status == JDOC_OK ? row->wanted.len : 0;
        bool fits = len <= size;
        right = right && r.status == (fits ? status : JDOC_BUFFER_TOO_SMALL) && r.len == len;
        size_t written = fits ? len : 0;
        right = right && (!written || !memcmp(out, row->wanted.at, written)) &&
                is_filled(out + written, size + GUARD - written);
    } else {
        right = right && r.status == status;
    }
    free(out);
    return right;
}

static bool every_length_is_right(const struct row *row) {
    long growths;
    size_t most = row->wanted.len + 2, step = most > ALL_LENGTHS ? most / ALL_LENGTHS + 1 : 1;
    for (size_t size = 0; size < most; size += step)
        if (!is_right(row, row->status, size, &growths)) return false;
    return is_right(row, row->status, row->wanted.len, &growths) && is_right(row, row->status, most, &growths);
}

/* NULL for each input without bytes, and for a buffer of no size. */
static bool nulls_are_right(const struct row *row) {
    struct row asked = *row;
    for (int i = 0; i < 3; i++)
        if (!asked.bytes[i].len) asked.bytes[i].at = NULL;
    for (int i = 0; i < 2; i++)
        if (!asked.columns[i].bytes.len) asked.columns[i].bytes.at = NULL;
    struct result r = run(&asked, NULL, 0);
    size_t len = row->status == JDOC_OK ? row->wanted.len : 0;
    uint32_t status = gives_bytes(row) && len ? (uint32_t)JDOC_BUFFER_TOO_SMALL : row->status;
    return r.status == status && has_scalar(row, &r) && (!gives_bytes(row) || r.len == len);
}

/* Fail each allocation in turn, until a run has no failure. */
static bool every_refusal_is_right(const struct row *row) {
    for (long refused = 0, growths = 1; can_refuse() && growths > refused; refused++) {
        struct row asked = *row;
        struct result r;
        uint8_t *out = malloc(row->wanted.len + GUARD);
        memset(out, FILL, row->wanted.len + GUARD);
        start_counting(refused);
        r = run(&asked, out, row->wanted.len);
        growths = stop_counting();
        bool met = growths > refused;
        bool right = live_blocks() == 0 && r.status == (met ? (uint32_t)JDOC_OUT_OF_MEMORY : row->status) &&
                     has_scalar(row, &r);
        if (met) right = right && is_filled(out, row->wanted.len + GUARD) && (r.len == 0 || r.len == 99);
        free(out);
        if (!right) return false;
    }
    return true;
}

/* A string of 2^28 bytes exceeds the format, and is rejected without allocating. */
static bool too_large_is_right(void) {
    enum { PASSES = 1 << 28 };
    uint8_t *text = calloc(PASSES, 1), out[GUARD];
    memset(out, FILL, sizeof out);
    struct row row = {.call = find_call("from_str"), .bytes = {{text, PASSES}}};
    struct result r = run(&row, out, sizeof out);
    free(text);
    return r.status == JDOC_TOO_LARGE && r.len == 0 && is_filled(out, sizeof out);
}

static int unreached_statuses(void) {
    int unreached = 0;
    for (uint32_t status = 0; status < sizeof is_reached; status++) {
        char name[40];
        size_t len;
        if (jdoc_status_name(status, name, sizeof name, &len) || is_reached[status]) continue;
        if (status == JDOC_OUT_OF_MEMORY && !can_refuse()) continue;
        printf("NOT REACHED: %.*s\n", (int)len, name);
        unreached++;
    }
    return unreached;
}

int main(int argc, char **argv) {
    FILE *file = argc == 2 ? fopen(argv[1], "r") : NULL;
    char *line = NULL;
    size_t room = 0;
    int passed = 0, failed = 0;
    while (file && getline(&line, &room, file) > 0) {
        char *shown = strdup(line);
        struct row row;
        bool is_read = read_row(&row, line);
        bool right = is_read && every_length_is_right(&row) && nulls_are_right(&row) && every_refusal_is_right(&row);
        if (!right) printf("%s: %.200s\n", is_read ? "WRONG" : "NOT READ", shown);
        right ? passed++ : failed++;
        free_row(&row);
        free(shown);
    }
    free(line);
    if (file) fclose(file);
    too_large_is_right() ? passed++ : failed++;
    failed += unreached_statuses() + !has_refused();
    printf("%d passed, %d failed\n", passed, failed);
    return failed != 0 || passed == 0;
}
