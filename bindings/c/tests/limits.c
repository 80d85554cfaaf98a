/* Tests the limits of the format (docs/FORMAT.md): a value or key of 2^28 - 1 bytes and an array of 2^29 - 1 elements are within
 * them, and with one more a call fails with JDOC_TOO_LARGE. The last line is `N passed, M failed`.
 *
 * Documents are pages of zeros, except for the first page: the bytes of a string and the word of a null are zeros. The system stores
 * no page that is only read. Results of 2^28 bytes are built. An array of 2^29 - 1 elements has 2 GiB, so its allocation fails
 * here, and JDOC_OUT_OF_MEMORY shows that it is within the limit. */
#define _GNU_SOURCE
#include "jdoc.h"
#include <stdio.h>
#include <stdlib.h>
#include <string.h>
#include <sys/mman.h>
#include <sys/resource.h>

enum { MOST_BYTES = (1 << 28) - 1, MOST_ELEMENTS = (1 << 29) - 1 };
static const size_t MAPPED = (size_t)1 << 32, MOST_ALLOCATED = (size_t)1 << 30;

void *__real_malloc(size_t size);
void *__real_realloc(void *block, size_t size);
void *__wrap_malloc(size_t size);
void *__wrap_realloc(void *block, size_t size);
void *__wrap_malloc(size_t size) { return size < MOST_ALLOCATED ? __real_malloc(size) : NULL; }
void *__wrap_realloc(void *block, size_t size) { return size < MOST_ALLOCATED ? __real_realloc(block, size) : NULL; }

struct bytes {
    uint8_t *at;
    size_t len;
};

struct result {
    enum jdoc_status status;
    size_t len;
};

/* Pages of zeros: for a document, and for keys and strings. */
static uint8_t *pages, *other_pages;

static uint8_t *zeros(void) {
    void *at = mmap(NULL, MAPPED, PROT_READ | PROT_WRITE, MAP_PRIVATE | MAP_ANONYMOUS | MAP_NORESERVE, -1, 0);
    if (at == MAP_FAILED) perror("mmap"), exit(2);
    return at;
}

static void put_word(uint8_t *at, uint32_t word) {
    for (int i = 0; i < 4; i++) at[i] = (uint8_t)(word >> (24 - 8 * i));
}

/* A document of these words and then zeros. */
static struct bytes document(size_t len, uint32_t first, uint32_t second, uint32_t third) {
    put_word(pages, first), put_word(pages + 4, second), put_word(pages + 8, third);
    return (struct bytes){pages, len};
}

/* An array of two strings, of this many bytes. */
static struct bytes array(size_t len) {
    uint32_t half = 1 << 27;
    return document(len, 0x80000002, 0x10000000 + half, (uint32_t)(0x10000000 + len - 12 - half));
}

/* An object with an empty key and a string, of this many bytes. */
static struct bytes object(size_t len) {
    return document(len, 0x40000001, 0x10000000, (uint32_t)(0x10000000 + len - 12));
}

static struct bytes nulls(size_t count) { return document(4 + 4 * count, 0x80000000 + (uint32_t)count, 0, 0); }

/* A string without a document around it. */
static struct bytes text(size_t len) { return (struct bytes){other_pages, len}; }

static struct bytes small(const char *bytes, size_t len) { return (struct bytes){(uint8_t *)(uintptr_t)bytes, len}; }

#define EMPTY_ARRAY small("\x80\0\0\0", 4)
#define EMPTY_OBJECT small("\x40\0\0\0", 4)
#define NULL_DOCUMENT small("\x20\0\0\0\0\0\0\0", 8)

/* CALLS */

static struct result insert(struct bytes array, struct bytes item) {
    struct result r = {.len = 99};
    r.status = jdoc_array_insert(array.at, array.len, item.at, item.len, 0, NULL, 0, &r.len);
    return r;
}

static struct result insert_member(struct bytes key, struct bytes value) {
    struct result r = {.len = 99};
    struct bytes none = EMPTY_OBJECT;
    r.status = jdoc_object_insert(none.at, none.len, value.at, value.len, (char *)key.at, key.len, false, NULL, 0, &r.len);
    return r;
}

static struct result concat(struct bytes first, struct bytes second) {
    struct result r = {.len = 99};
    r.status = jdoc_concat(first.at, first.len, second.at, second.len, NULL, 0, &r.len);
    return r;
}

static struct result stripped(struct bytes document) {
    struct result r = {.len = 99};
    r.status = jdoc_strip_nulls(document.at, document.len, NULL, 0, &r.len);
    return r;
}

static struct result string_document(size_t len) {
    struct result r = {.len = 99};
    r.status = jdoc_from_str((char *)text(len).at, len, NULL, 0, &r.len);
    return r;
}

static struct result select_root(struct bytes document) {
    struct result r = {.len = 99};
    r.status = jdoc_select_array(document.at, document.len, "$", 1, false, NULL, 0, &r.len);
    return r;
}

static struct result array_of(struct bytes item) {
    struct result r = {.len = 99};
    uint64_t offsets[] = {0, item.len};
    r.status = jdoc_array_from_column(item.at, item.len, offsets, 2, NULL, 0, &r.len);
    return r;
}

static struct result object_of(struct bytes key, struct bytes value) {
    struct result r = {.len = 99};
    uint64_t key_offsets[] = {0, key.len}, offsets[] = {0, value.len};
    r.status = jdoc_object_from_columns((char *)key.at, key.len, key_offsets, 2, value.at, value.len, offsets, 2, NULL, 0, &r.len);
    return r;
}

/* Keys and strings have `len` bytes together. */
static struct result of_events(const jdoc_text_event *events, size_t count, size_t len) {
    struct result r = {.len = 99};
    r.status = jdoc_from_events((char *)text(len).at, len, events, count, false, NULL, 0, &r.len);
    return r;
}

/* An array, or an object if a key is given, of a string if one is given, or otherwise of a document. */
static struct result built(const struct bytes *key, struct bytes value, const struct bytes *string) {
    struct result r = {.len = 0};
    jdoc_builder builder = {0};
    r.status = key ? jdoc_builder_begin_object(&builder) : jdoc_builder_begin_array(&builder);
    if (!r.status && key) r.status = jdoc_builder_key(&builder, (char *)key->at, key->len);
    if (!r.status && string) r.status = jdoc_builder_str(&builder, (char *)string->at, string->len);
    if (!r.status && !string) r.status = jdoc_builder_document(&builder, value.at, value.len);
    if (!r.status) r.status = jdoc_builder_end(&builder);
    if (!r.status) r.status = jdoc_builder_finish(&builder, NULL, 0, &r.len);
    jdoc_builder_free(&builder);
    return r;
}

/* CASES */

static struct result from_str(size_t most) { return string_document(most); }
static struct result array_into_array(size_t most) { return insert(EMPTY_ARRAY, array(most)); }
static struct result object_into_array(size_t most) { return concat(EMPTY_ARRAY, object(most)); }
static struct result value_into_object(size_t most) { return insert_member(small("k", 1), array(most)); }
static struct result key_into_object(size_t most) { return insert_member(text(most), NULL_DOCUMENT); }
static struct result selected(size_t most) { return select_root(array(most)); }
static struct result column(size_t most) { return array_of(array(most)); }
static struct result columns(size_t most) { return object_of(small("k", 1), array(most)); }
static struct result key_column(size_t most) { return object_of(text(most), NULL_DOCUMENT); }

static struct result string_event(size_t most) {
    const jdoc_text_event events[] = {{.kind = JDOC_TEXT_ARRAY}, {.kind = JDOC_TEXT_STRING, .low = most}, {.kind = JDOC_TEXT_END}};
    return of_events(events, 3, most);
}

static struct result key_event(size_t most) {
    const jdoc_text_event events[] = {{.kind = JDOC_TEXT_OBJECT}, {.kind = JDOC_TEXT_KEY, .low = most}, {.kind = JDOC_TEXT_NULL},
                                      {.kind = JDOC_TEXT_END}};
    return of_events(events, 4, most);
}

/* An array of that many bytes in another one. */
static struct result array_event(size_t most) {
    const jdoc_text_event events[] = {{.kind = JDOC_TEXT_ARRAY}, {.kind = JDOC_TEXT_ARRAY}, {.kind = JDOC_TEXT_STRING, .low = 100},
                                      {.kind = JDOC_TEXT_STRING, .low = most - 112}, {.kind = JDOC_TEXT_END},
                                      {.kind = JDOC_TEXT_END}};
    return of_events(events, 6, most - 12);
}

static struct result built_document(size_t most) { return built(NULL, array(most), NULL); }

static struct result built_string(size_t most) {
    struct bytes string = text(most);
    return built(NULL, string, &string);
}

static struct result built_key(size_t most) {
    struct bytes key = text(most);
    return built(&key, NULL_DOCUMENT, NULL);
}

/* An array of one string, or of an array of two. */
static struct result string_within(size_t most) {
    return stripped(document(8 + most, 0x80000001, (uint32_t)(0x10000000 + most), 0));
}

static struct result array_within(size_t most) {
    struct bytes outer = document(8 + most, 0x80000001, (uint32_t)(0x50000000 + most), 0x80000002);
    put_word(outer.at + 12, 0x10000000 + (1 << 27)), put_word(outer.at + 16, (uint32_t)(0x10000000 + most - 12 - (1 << 27)));
    return stripped(outer);
}

static struct result first_of_most(size_t most) { return insert(nulls(most - 1), NULL_DOCUMENT); }
static struct result both(size_t most) { return concat(nulls(most - 1), NULL_DOCUMENT); }

/* A call that is made at a limit, and how many bytes its result has more than that; NOT_BUILT if its allocation fails. */
struct one_case {
    const char *name;
    struct result (*call)(size_t);
    size_t most, more;
};

enum { NOT_BUILT = 99 };

/* Calls that are made past the limit too. */
static const struct one_case CASES[] = {
    {"jdoc_from_str", from_str, MOST_BYTES, 8},
    {"jdoc_array_insert, an array", array_into_array, MOST_BYTES, 8},
    {"jdoc_concat, an object", object_into_array, MOST_BYTES, 8},
    {"jdoc_object_insert, an array", value_into_object, MOST_BYTES, 13},
    {"jdoc_object_insert, a key", key_into_object, MOST_BYTES, 12},
    {"jdoc_select_array", selected, MOST_BYTES, 8},
    {"jdoc_array_from_column", column, MOST_BYTES, 8},
    {"jdoc_object_from_columns, an array", columns, MOST_BYTES, 13},
    {"jdoc_object_from_columns, a key", key_column, MOST_BYTES, 12},
    {"jdoc_from_events, a string", string_event, MOST_BYTES, 8},
    {"jdoc_from_events, a key", key_event, MOST_BYTES, 12},
    {"jdoc_from_events, an array", array_event, MOST_BYTES, 8},
    {"jdoc_builder_document", built_document, MOST_BYTES, 8},
    {"jdoc_builder_str", built_string, MOST_BYTES, 8},
    {"jdoc_builder_key", built_key, MOST_BYTES, 12},
    {"jdoc_array_insert, an element", first_of_most, MOST_ELEMENTS, NOT_BUILT},
    {"jdoc_concat, an element", both, MOST_ELEMENTS, NOT_BUILT},
};

/* Calls past whose limit there is no document. */
static const struct one_case LAST_CASES[] = {
    {"jdoc_strip_nulls, a string", string_within, MOST_BYTES, 8},
    {"jdoc_strip_nulls, an array", array_within, MOST_BYTES, 8},
};

static bool is_right(const struct one_case *one, size_t past) {
    struct result r = one->call(one->most + past);
    enum jdoc_status wanted = past ? JDOC_TOO_LARGE : one->more == NOT_BUILT ? JDOC_OUT_OF_MEMORY : JDOC_BUFFER_TOO_SMALL;
    bool right = r.status == wanted && r.len == (wanted == JDOC_BUFFER_TOO_SMALL ? one->most + one->more : 0);
    if (!right) printf("WRONG: %s, %zu past the limit: status %d, %zu bytes\n", one->name, past, (int)r.status, r.len);
    return right;
}

int main(void) {
    int passed = 0, failed = 0;
    struct rusage used;
    pages = zeros(), other_pages = zeros();
    for (size_t i = 0; i < sizeof CASES / sizeof *CASES; i++)
        for (size_t past = 0; past < 2; past++) is_right(&CASES[i], past) ? passed++ : failed++;
    for (size_t i = 0; i < sizeof LAST_CASES / sizeof *LAST_CASES; i++) is_right(&LAST_CASES[i], 0) ? passed++ : failed++;
    getrusage(RUSAGE_SELF, &used);
    printf("%ld MB at most\n%d passed, %d failed\n", used.ru_maxrss / 1000, passed, failed);
    return failed != 0;
}
