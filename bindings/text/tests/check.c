/* Compares jdoc_write_text with jdoc_check, which is proved: text is written of exactly the documents that it accepts,
 * and the errors are those that it returns. The bytes are all short ones of a kind, and random documents, damaged.
 *
 *   check [COUNT]     COUNT damaged documents (100,000)
 *
 * The last line is `N passed, M failed`. */
#include "format.h"

#include <stdio.h>
#include <stdlib.h>

static size_t passed, failed, accepted;

static void put32(uint8_t *at, uint32_t word) {
    word = __builtin_bswap32(word);
    memcpy(at, &word, sizeof word);
}

static void *resize(void *piece, size_t size) { return realloc(piece, size ? size : 1); }
static const jdoc_heap heap = {resize, free};

static void fail(const char *what, const uint8_t *bytes, size_t len) {
    failed++;
    if (failed > 20) return;
    printf("failed: %s: ", what);
    for (size_t i = 0; i < len; i++) printf("%02x", bytes[i]);
    puts("");
}

/* Whether an extension value is among the events of a document. */
static bool has_extension(const uint8_t *bytes, size_t len) {
    jdoc_walk walk;
    jdoc_event event;
    bool found = false;
    uint32_t status = jdoc_walk_init(&walk, heap, bytes, len);
    while (status == JDOC_OK && (status = jdoc_walk_next(&walk, &event)) == JDOC_OK)
        found |= event.kind == JDOC_EVENT_EXTENSION;
    jdoc_walk_free(&walk);
    return found;
}

/* Whether JSON text is read as a document that is equal to this one. */
static bool reads_back(const jdoc_buffer *text, const uint8_t *bytes, size_t len) {
    static jdoc_tape tape;
    uint8_t *made;
    size_t made_len;
    int32_t order = 1;
    if (!tape.heap.resize) jdoc_tape_init(&tape, heap, 0);
    if (jdoc_from_text(&tape, text->bytes, text->len, &made, &made_len) != JDOC_OK) return false;
    bool fine = jdoc_compare(bytes, len, made, made_len, &order) == JDOC_OK && order == 0;
    free(made);
    return fine;
}

/* The bytes are copied to an allocation of their own, so that a sanitizer sees a byte read after them. */
static void compare(const uint8_t *from, size_t len) {
    uint8_t *bytes = malloc(len ? len : 1);
    jdoc_buffer text = {.heap = heap};
    if (len) memcpy(bytes, from, len);
    uint32_t checked = jdoc_check(bytes, len), written = jdoc_write_text(&text, bytes, len, 0);
    uint32_t expected = checked == JDOC_OK && has_extension(bytes, len) ? JDOC_INVALID_JSON_TYPE : checked;
    accepted += checked == JDOC_OK;
    if (written != expected)
        fail(jdoc_status_text(expected), bytes, len);
    else if (written != JDOC_OK ? text.len != 0 : !reads_back(&text, bytes, len))
        fail("the text", bytes, len);
    else
        passed++;
    free(text.bytes);
    free(bytes);
}

/* ALL SHORT BYTES OF A KIND */

/* An array of a string, of this entry and of another string, and the entry as a document. */
static void compare_entry(uint32_t word, const uint8_t *content, size_t len) {
    uint8_t bytes[400] = {0x80, 0, 0, 3, 0x10, 0, 0, 1, 0, 0, 0, 0, 0x10, 0, 0, 2, 'a'};
    put32(bytes + 8, word);
    if (len) memcpy(bytes + 17, content, len);
    memcpy(bytes + 17 + len, "bc", 2);
    compare(bytes, 19 + len);
    put32(bytes, HEADER_SCALAR);
    put32(bytes + 4, word);
    if (len) memmove(bytes + 8, content, len);
    compare(bytes, 8 + len);
}

/* An object of two keys, the second of which is "b", and of nulls. */
static void compare_key(const uint8_t *key, size_t len) {
    uint8_t bytes[64] = {0x40, 0, 0, 2};
    put32(bytes + 4, ENTRY_STRING | (uint32_t)len);
    put32(bytes + 8, ENTRY_STRING | 1);
    memcpy(bytes + 20, key, len);
    bytes[20 + len] = 'b';
    compare(bytes, 21 + len);
}

static void compare_string(const uint8_t *bytes, size_t len) {
    compare_entry(ENTRY_STRING | (uint32_t)len, bytes, len);
    compare_key(bytes, len);
}

/* One and two bytes, and characters of three and four whose bytes are around the bounds of UTF-8. */
static void compare_characters(void) {
    static const uint8_t bounds[] = {0x22, 0x5c, 0x7f, 0x80, 0x8f, 0x90, 0x9f, 0xa0, 0xbf, 0xc0, 0xff};
    enum { BOUNDS = sizeof bounds };
    for (uint32_t i = 0; i < 0x10000; i++)
        compare_string((const uint8_t[]){(uint8_t)(i >> 8), (uint8_t)i}, 1 + (i >> 8 != 0));
    for (uint32_t i = 0; i < 64 * BOUNDS * BOUNDS * BOUNDS; i++) {
        uint8_t bytes[] = {(uint8_t)(0xc0 + i % 64), bounds[i / 64 % BOUNDS], bounds[i / 64 / BOUNDS % BOUNDS],
                           bounds[i / 64 / BOUNDS / BOUNDS]};
        compare_string(bytes, 3 + i % 2);
    }
}

/* Entries of each type, and numbers and extension values of each first byte, of many lengths. */
static void compare_entries(void) {
    uint8_t content[40];
    for (size_t i = 0; i < sizeof content; i++) content[i] = (uint8_t)(0x81 * i);
    for (uint32_t i = 0; i < 16 * 256 * (sizeof content + 1); i++) {
        uint32_t len = i / 16 / 256;
        if (len) content[0] = (uint8_t)(i / 16);
        compare_entry(i % 16 << 28 | len, content, len);
    }
}

static void compare_headers(void) {
    uint8_t bytes[20] = {0};
    for (uint32_t i = 0; i < 16 * 16 * 21; i++) {
        put32(bytes, i << 28 | i / 16 % 16);
        compare(bytes, i / 256);
    }
}

/* RANDOM DOCUMENTS, DAMAGED */

static uint32_t below(uint32_t bound) {
    static uint64_t state = 88172645463325252u;
    state ^= state << 13, state ^= state >> 7, state ^= state << 17;
    return (uint32_t)(state >> 16) % bound;
}

/* A string of up to 40 characters, some of which are escaped or not ASCII. */
static size_t random_text(char *out, size_t most) {
    static const char *const some[] = {
        "a", "b", "Z", " ", "0", "\"", "\\", "\x01", "\x7f", "\xc3\xa9", "\xe2\x82\xac", "\xf0\x9f\x98\x80"};
    uint32_t kinds = below(3) ? 5 : sizeof some / sizeof *some;
    size_t len = 0;
    for (size_t count = below((uint32_t)most); count > 0; count--) {
        const char *it = some[below(kinds)];
        memcpy(out + len, it, strlen(it));
        len += strlen(it);
    }
    return len;
}

static void add_scalar(jdoc_tape *tape) {
    static const char *const numbers[] = {"0",
                                          "-1",
                                          "255",
                                          "-300",
                                          "70000",
                                          "18446744073709551615",
                                          "-9223372036854775808",
                                          "0.5",
                                          "-12.34",
                                          "1e-200",
                                          "170141183460469231731687303715884105727.0"};
    char text[200];
    switch (below(6)) {
    case 0:
        jdoc_tape_null(tape);
        break;
    case 1:
        jdoc_tape_bool(tape, below(2));
        break;
    case 2:
    case 3:
        jdoc_tape_string(tape, text, random_text(text, 40));
        break;
    default:;
        const char *number = numbers[below(sizeof numbers / sizeof *numbers)];
        jdoc_tape_number(tape, number, strlen(number));
    }
}

/* Adds up to `count` events, and ends what is open. Objects have no key twice, since the last member is kept. */
static void add_events(jdoc_tape *tape, uint32_t count) {
    char key[64];
    jdoc_tape_begin(tape, below(2));
    for (; count > 0 && tape->top != UINT32_MAX; count--) {
        uint32_t kind = below(8);
        if (kind == 0) {
            jdoc_tape_end(tape);
            continue;
        }
        if (tape->in_object) jdoc_tape_key(tape, key, random_text(key, below(4) ? 4 : 12));
        if (kind < 3)
            jdoc_tape_begin(tape, below(2));
        else
            add_scalar(tape);
    }
    while (tape->top != UINT32_MAX) jdoc_tape_end(tape);
}

static size_t random_document(uint8_t *out, size_t size) {
    static jdoc_tape tape;
    if (!tape.heap.resize) jdoc_tape_init(&tape, heap, JDOC_KEEP_LAST);
    jdoc_tape_clear(&tape);
    add_events(&tape, 1 + below(30));
    size_t len = jdoc_tape_size(&tape);
    if (len == 0 || len > size || jdoc_tape_write(&tape, out) != JDOC_OK) exit(2);
    return len;
}

/* Changes some bytes, such as the lengths of two neighbours by the same number, and returns the length. */
static size_t damage(uint8_t *bytes, size_t len) {
    static const uint8_t some[] = {0x00, 0x10, 0x1f, 0x20, 0x22, 0x40, 0x50, 0x5c,
                                   0x60, 0x70, 0x80, 0xbf, 0xc3, 0xed, 0xf4, 0xff};
    size_t at = below((uint32_t)len), word = at & ~(size_t)3, other = below((uint32_t)len);
    uint32_t by = 1 + below(3);
    switch (below(8)) {
    case 0:
        bytes[at] ^= (uint8_t)(1 << below(8));
        return len;
    case 1:
        bytes[at] = some[below(sizeof some)];
        return len;
    case 2:
        bytes[at] = (uint8_t)(bytes[at] + 1 - 2 * below(2));
        return len;
    case 3:
        if (word + 8 <= len)
            put32(bytes + word, take32(bytes + word) + by), put32(bytes + word + 4, take32(bytes + word + 4) - by);
        return len;
    case 4:
        if (word + 8 <= len)
            put32(bytes + word, take32(bytes + word) - by), put32(bytes + word + 4, take32(bytes + word + 4) + by);
        return len;
    case 5:
        by = bytes[at], bytes[at] = bytes[other], bytes[other] = (uint8_t)by;
        return len;
    case 6:
        return below(4) ? len : at;
    default:
        if (word + 4 <= len) put32(bytes + word, (take32(bytes + word) & CONTENT_LIMIT) | below(16) << 28);
        return len;
    }
}

static void compare_damaged(size_t count) {
    static uint8_t bytes[20000];
    for (size_t i = 0; i < count; i++) {
        size_t len = random_document(bytes, sizeof bytes);
        for (uint32_t times = below(4); times > 0 && len > 0; times--) len = damage(bytes, len);
        compare(bytes, len);
    }
}

int main(int count, char **words) {
    size_t damaged = count > 1 ? (size_t)atol(words[1]) : 100000;
    compare_headers();
    compare_entries();
    compare_characters();
    accepted = 0;
    compare_damaged(damaged);
    if (accepted < damaged / 4 || accepted > damaged - damaged / 4)
        fail("too few documents, or too many, are damaged", NULL, 0);
    printf("%zu passed, %zu failed\n", passed, failed);
    return failed ? 1 : 0;
}
