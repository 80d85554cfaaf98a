/* One call on one deep document or long path: for tools/measure_stack.py.

   deep CALL SHAPE LEVELS builds a document (or a path) of that many levels, makes the call, and prints the status and the
   result. Documents are written front to back, without a call per level. */
#include "jdoc.h"

#include <stdint.h>
#include <stdio.h>
#include <stdlib.h>
#include <string.h>

enum { TEXT_BYTES = 1 << 20 };
static const uint32_t ARRAY = 0x80000000, OBJECT = 0x40000000;
static const uint32_t NUMBER = 0x20000000, TEXT = 0x10000000, CONTAINER = 0x50000000;

typedef struct {
    uint8_t *bytes;
    size_t len;
} Buffer;

static Buffer buffer_of(size_t len)
{
    Buffer made = {malloc(len ? len : 1), len};
    if (!made.bytes) {
        fprintf(stderr, "deep: no memory for %zu bytes\n", len);
        exit(2);
    }
    return made;
}

static void put_word(uint8_t *at, uint32_t word)
{
    for (int i = 0; i < 4; i++) at[i] = (uint8_t)(word >> (24 - 8 * i));
}

/* ---- documents */

typedef enum { ONLY, LAST, FIRST, MIDDLE, PAIR, ALTERNATING, SHAPES } Shape;
static const char *const SHAPE_NAMES[SHAPES] = {"only", "last", "first", "middle", "pair", "alternating"};

/* Whether a number precedes the child, and follows it; and whether the level is an object. */
static int has_front(Shape shape) { return shape == LAST || shape == MIDDLE; }
static int has_back(Shape shape) { return shape == FIRST || shape == MIDDLE; }

static Shape shape_at(Shape shape, size_t level)
{
    static const Shape TURNS[] = {FIRST, PAIR, LAST, ONLY};
    return shape == ALTERNATING ? TURNS[level % 4] : shape;
}

static size_t front_len(Shape shape)
{
    if (shape == PAIR) return 4 + 8 + 1;
    return 4 + 4 * (size_t)(1 + has_front(shape) + has_back(shape)) + 2 * (size_t)has_front(shape);
}

static size_t back_len(Shape shape) { return 2 * (size_t)has_back(shape); }

static void put_number(uint8_t *at) { at[0] = 0x50, at[1] = 7; }

/* The beginning of a level whose child has this many bytes. */
static void put_front(uint8_t *at, Shape shape, uint32_t child)
{
    if (shape == PAIR) {
        put_word(at, OBJECT | 1), put_word(at + 4, TEXT | 1), put_word(at + 8, CONTAINER | child);
        at[12] = 'k';
        return;
    }
    uint8_t *word = at + 4;
    put_word(at, ARRAY | (uint32_t)(1 + has_front(shape) + has_back(shape)));
    if (has_front(shape)) put_word(word, NUMBER | 2), word += 4;
    put_word(word, CONTAINER | child), word += 4;
    if (has_back(shape)) put_word(word, NUMBER | 2), word += 4;
    if (has_front(shape)) put_number(word);
}

/* The innermost: an array of one text. */
static void put_core(uint8_t *at, size_t text)
{
    put_word(at, ARRAY | 1), put_word(at + 4, TEXT | (uint32_t)text);
    memset(at + 8, 'a', text);
}

static Buffer deep_document(Shape shape, size_t levels, size_t text)
{
    size_t len = 8 + text;
    for (size_t i = 0; i < levels; i++) len += front_len(shape_at(shape, i)) + back_len(shape_at(shape, i));
    Buffer made = buffer_of(len);
    size_t from = 0, to = len;
    for (size_t i = 0; i < levels; i++) {
        Shape level = shape_at(shape, i);
        size_t child = from + front_len(level);
        to -= back_len(level);
        put_front(made.bytes + from, level, (uint32_t)(to - child));
        if (has_back(level)) put_number(made.bytes + to);
        from = child;
    }
    put_core(made.bytes + from, text);
    return made;
}

/* ---- paths */

typedef struct {
    const char *name, *before, *again, *after, *closed;
} Path;

/* A path is BEFORE, then AGAIN repeated, AFTER, and CLOSED repeated. */
static const Path PATHS[] = {
    {"open_parentheses", "$?", "(", "", ""},
    {"parentheses", "$?", "(", "@ == 1", ")"},
    {"filters", "$", "?(exists(@", "", "))"},
    {"filters_of_elements", "$", "[*]?(exists(@", "", "))"},
    {"filters_in_parentheses", "$", "?((exists(@", "", ")))"},
    {"filters_and_step", "$", "?(exists(@", "", ".k))"},
    {"filters_and_filter", "$", "?(exists(@", "", "?(1==1)))"},
    {"filters_with_and", "$", "?(1==1&&exists(@", "", "))"},
    {"filters_with_or", "$", "?(exists(@.*)||exists(@[*]", "", "))"},
    {"filters_with_arithmetic", "$", "?(1+1&&exists(@", "", "))"},
    {"unfinished_filters", "$", "?(exists(@", "", ""},
    {"and_chain", "$?(1==1", "&&1==1", ")", ""},
    {"or_chain", "$?(1==2", "||1==2", ")", ""},
    {"right_sides", "$?(", "1==1&&(", "1==1)", ")"},
    {"fields", "$", ".k", "", ""},
    {"key_path", "{0", ",0", "}", ""},
};

static Buffer long_path(const Path *path, size_t times)
{
    size_t b = strlen(path->before), a = strlen(path->again), m = strlen(path->after), c = strlen(path->closed);
    Buffer made = buffer_of(b + times * a + m + times * c);
    uint8_t *at = made.bytes;
    memcpy(at, path->before, b), at += b;
    for (size_t i = 0; i < times; i++) memcpy(at, path->again, a), at += a;
    memcpy(at, path->after, m), at += m;
    for (size_t i = 0; i < times; i++) memcpy(at, path->closed, c), at += c;
    return made;
}

/* ---- calls */

typedef struct {
    Buffer document, other, path, out;
    uint8_t truth;
    size_t len;
} Case;

#define DOCUMENT c->document.bytes, c->document.len
#define OTHER c->other.bytes, c->other.len
#define PATH (const char *)c->path.bytes, c->path.len
#define OUT c->out.bytes, c->out.len, &c->len

static const uint8_t SMALL[] = {0x80, 0, 0, 1, 0x50, 0, 0, 10, 0x80, 0, 0, 1, 0x20, 0, 0, 2, 0x50, 1};
static const char BELOW[] = "$.**";

static uint32_t run_check(Case *c) { return jdoc_check(DOCUMENT); }
static uint32_t run_contains(Case *c) { return jdoc_contains(DOCUMENT, OTHER, &c->truth); }
static uint32_t run_compare(Case *c)
{
    int32_t order = 0;
    uint32_t status = jdoc_compare(DOCUMENT, OTHER, &order);
    c->truth = order < 0;
    return status;
}
static uint32_t run_overlap(Case *c) { return jdoc_array_overlap(DOCUMENT, OTHER, &c->truth); }
static uint32_t run_sort_key(Case *c) { return jdoc_sort_key(DOCUMENT, false, OUT); }
static uint32_t run_wide_key(Case *c) { return jdoc_sort_key(DOCUMENT, true, OUT); }
static uint32_t run_equality_key(Case *c) { return jdoc_equality_key(DOCUMENT, OUT); }
static uint32_t run_strip_nulls(Case *c) { return jdoc_strip_nulls(DOCUMENT, OUT); }
static uint32_t run_distinct(Case *c) { return jdoc_array_distinct(DOCUMENT, OUT); }
static uint32_t run_concat(Case *c) { return jdoc_concat(DOCUMENT, OTHER, OUT); }
static uint32_t run_get(Case *c) { return jdoc_get_by_keypath(DOCUMENT, PATH, OUT); }
static uint32_t run_delete(Case *c) { return jdoc_delete_by_keypath(DOCUMENT, PATH, OUT); }
static uint32_t run_below(Case *c) { return jdoc_exists(DOCUMENT, BELOW, sizeof BELOW - 1, false, &c->truth); }
static uint32_t run_path(Case *c) { return jdoc_exists(SMALL, sizeof SMALL, PATH, false, &c->truth); }
static uint32_t run_nothing(Case *c) { return (void)c, JDOC_OK; }

typedef struct {
    const char *name;
    uint32_t (*run)(Case *);
} Call;

static const Call CALLS[] = {
    {"nothing", run_nothing},       {"check", run_check},
    {"contains", run_contains},     {"array_overlap", run_overlap},
    {"compare", run_compare},
    {"sort_key", run_sort_key},     {"sort_key_wide", run_wide_key},
    {"equality_key", run_equality_key}, {"strip_nulls", run_strip_nulls},
    {"array_distinct", run_distinct},   {"concat", run_concat},
    {"get_by_keypath", run_get},    {"delete_by_keypath", run_delete},
    {"select_below", run_below},    {"exists", run_path},
};

static const Call *call_named(const char *name)
{
    for (size_t i = 0; i < sizeof CALLS / sizeof *CALLS; i++)
        if (!strcmp(CALLS[i].name, name)) return &CALLS[i];
    return NULL;
}

/* The buffers of a shape, or of a path. False if there is no such name. Next to a document are another one that
   differs in the last byte, so that they must be compared to the end, and the key path to its innermost item. */
static bool make(Case *c, const char *shape, size_t levels)
{
    for (size_t i = 0; i < sizeof PATHS / sizeof *PATHS; i++) {
        if (strcmp(PATHS[i].name, shape)) continue;
        c->path = long_path(&PATHS[i], levels);
        return true;
    }
    for (size_t i = 0; i < SHAPES; i++) {
        if (strcmp(SHAPE_NAMES[i], shape)) continue;
        c->document = deep_document((Shape)i, levels, TEXT_BYTES);
        c->other = deep_document((Shape)i, levels, TEXT_BYTES + 1);
        c->path = long_path(&PATHS[sizeof PATHS / sizeof *PATHS - 1], levels);
        return true;
    }
    return false;
}

int main(int argc, char **argv)
{
    const Call *call = argc == 4 ? call_named(argv[1]) : NULL;
    Case c = {0};
    if (!call || !make(&c, argv[2], strtoul(argv[3], NULL, 10))) {
        fputs("usage: deep CALL SHAPE LEVELS\n", stderr);
        return 2;
    }
    c.out = buffer_of(4 * (c.document.len + c.other.len) + 64);
    uint32_t status = call->run(&c);
    char name[64];
    size_t name_len = 0;
    jdoc_status_name(status, name, sizeof name, &name_len);
    printf("%.*s %zu %u\n", (int)name_len, name, c.len, c.truth);
    return 0;
}
