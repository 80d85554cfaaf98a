/* Runs the rows of tests/rows.py, and tests that need more than a row. The last line is `N passed, M failed`.
 *
 * A row: options, the JSON text in hexadecimal, and either the document in hexadecimal and its JSON text in
 * hexadecimal, or `error`, the status and the place. */
#define _POSIX_C_SOURCE 200809L
#include "jdoc_text.h"

#include <stdio.h>
#include <stdlib.h>
#include <string.h>
#include <time.h>

static int passed, failed;

static void expect(bool fine, const char *name, size_t row) {
    if (fine)
        passed++;
    else
        failed++, printf("failed: %s, row %zu\n", name, row);
}

/* A HEAP that fails at one allocation, and counts what is not released */

static long held, left = -1;

static void *resize(void *piece, size_t size) {
    void *more;
    if (left == 0) return NULL;
    left -= left > 0;
    more = realloc(piece, size ? size : 1);
    held += more && !piece;
    return more;
}

static void release(void *piece) {
    held -= piece != NULL;
    free(piece);
}

static const jdoc_heap heap = {resize, release};

/* A document again, from its events. */
static uint32_t copy_events(jdoc_tape *tape, const uint8_t *document, size_t len) {
    jdoc_walk walk;
    jdoc_event event;
    char digits[JDOC_NUMBER_TEXT];
    uint32_t status = jdoc_walk_init(&walk, heap, document, len);
    jdoc_tape_clear(tape);
    while (status == JDOC_OK && (status = jdoc_walk_next(&walk, &event)) == JDOC_OK) {
        if (event.has_key) jdoc_tape_key(tape, (const char *)event.key, event.key_len);
        switch (event.kind) {
        case JDOC_EVENT_NULL:
            jdoc_tape_null(tape);
            break;
        case JDOC_EVENT_FALSE:
            jdoc_tape_bool(tape, false);
            break;
        case JDOC_EVENT_TRUE:
            jdoc_tape_bool(tape, true);
            break;
        case JDOC_EVENT_NUMBER:
            jdoc_tape_number(tape, digits, jdoc_number_text(event.bytes, event.len, digits));
            break;
        case JDOC_EVENT_STRING:
            jdoc_tape_string(tape, (const char *)event.bytes, event.len);
            break;
        case JDOC_EVENT_BEGIN:
            jdoc_tape_begin(tape, event.object);
            break;
        case JDOC_EVENT_END:
            jdoc_tape_end(tape);
            break;
        default:
            status = JDOC_INVALID_JSON_TYPE;
        }
    }
    jdoc_walk_free(&walk);
    return status == JDOC_NONE ? tape->status : status;
}

/* ROWS */

static size_t from_hex(const char *hex, char *out) {
    size_t len = strlen(hex) / 2;
    for (size_t i = 0; i < len; i++) {
        unsigned byte;
        sscanf(hex + 2 * i, "%2x", &byte);
        out[i] = (char)byte;
    }
    return len;
}

static bool same(const void *a, size_t a_len, const void *b, size_t b_len) {
    return a_len == b_len && memcmp(a, b, b_len) == 0;
}

/* Converts text to a document and back. *fine: both results are those expected. Returns the first error. */
static uint32_t there_and_back(unsigned options, const char *text, size_t len, const char *document,
                               size_t document_len, const char *canonical, size_t canonical_len, bool *fine) {
    jdoc_tape tape;
    jdoc_buffer out = {heap, NULL, 0, 0};
    uint8_t *made;
    size_t made_len;
    jdoc_tape_init(&tape, heap, options);
    uint32_t status = jdoc_from_text(&tape, text, len, &made, &made_len);
    if (status == JDOC_OK) {
        *fine = same(made, made_len, document, document_len);
        status = jdoc_write_text(&out, made, made_len, 0);
        if (status == JDOC_OK) *fine = *fine && same(out.bytes, out.len, canonical, canonical_len);
        if (status == JDOC_OK && !(options & JDOC_ROUND_NUMBERS)) {
            status = copy_events(&tape, made, made_len);
            *fine = *fine && (status != JDOC_OK || jdoc_tape_size(&tape) > 0);
        }
        release(made);
    }
    if (out.bytes) release(out.bytes);
    jdoc_tape_free(&tape);
    return status;
}

/* Fails each allocation in turn: the status is JDOC_OUT_OF_MEMORY, and nothing is leaked. */
static bool fails_cleanly(unsigned options, const char *text, size_t len, const char *document, size_t document_len,
                          const char *canonical, size_t canonical_len) {
    bool fine = true;
    for (long at = 0;; at++) {
        left = at;
        uint32_t status = there_and_back(options, text, len, document, document_len, canonical, canonical_len, &fine);
        left = -1;
        if (!fine || held) return false;
        if (status == JDOC_OK) return true;
        if (status != JDOC_OUT_OF_MEMORY) return false;
    }
}

static void run_document(size_t row, unsigned options, const char *text, size_t len, const char *hex,
                         const char *canonical_hex) {
    size_t room = strlen(hex) + strlen(canonical_hex) + 1;
    char *document = malloc(room), *canonical = document + strlen(hex) / 2;
    size_t document_len = from_hex(hex, document), canonical_len = from_hex(canonical_hex, canonical);
    bool fine = false;
    uint32_t status = there_and_back(options, text, len, document, document_len, canonical, canonical_len, &fine);
    expect(status == JDOC_OK && fine && !held, "document and text", row);
    expect(fails_cleanly(options, text, len, document, document_len, canonical, canonical_len), "failing allocations",
           row);
    free(document);
}

static void run_error(size_t row, unsigned options, const char *text, size_t len, uint32_t status, size_t at) {
    jdoc_tape tape;
    uint8_t *made;
    size_t made_len;
    jdoc_tape_init(&tape, heap, options);
    uint32_t found = jdoc_from_text(&tape, text, len, &made, &made_len);
    if (found != status || tape.at != at) printf("status %u at %zu: %s\n", found, tape.at, tape.what ? tape.what : "");
    expect(found == status && tape.at == at && !made, "error", row);
    if (made) release(made);
    jdoc_tape_free(&tape);
    expect(!held, "memory after an error", row);
}

static void run_row(char *line, size_t row) {
    char *words[4] = {"", "", "", ""};
    size_t count = 0;
    for (char *at = line; count < 4 && at; count++) {
        words[count] = at;
        at = strpbrk(at, "\t\n");
        if (at) *at++ = 0;
    }
    unsigned options = (unsigned)atoi(words[0]);
    /* Exactly as long as the text, so that a sanitizer sees a byte read after it. */
    char *text = malloc(strlen(words[1]) / 2 + 1);
    size_t len = from_hex(words[1], text);
    char *exact = realloc(text, len ? len : 1);
    unsigned status;
    size_t at;
    if (sscanf(words[2], "error %u %zu", &status, &at) == 2)
        run_error(row, options, exact, len, status, at);
    else
        run_document(row, options, exact, len, words[2], words[3]);
    free(exact);
}

static void run_rows(const char *file) {
    FILE *rows = fopen(file, "r");
    char *line = NULL;
    size_t size = 0, row = 0;
    if (!rows) exit(2);
    while (getline(&line, &size, rows) > 0) run_row(line, ++row);
    expect(row > 0, "rows", row);
    free(line);
    fclose(rows);
}

/* DEPTH */

static char *repeated(const char *before, const char *middle, const char *after, size_t count) {
    size_t a = strlen(before), b = strlen(after), len = strlen(middle);
    char *text = malloc(count * (a + b) + len + 1), *at = text;
    for (size_t i = 0; i < count; i++, at += a) memcpy(at, before, a);
    memcpy(at, middle, len);
    at += len;
    for (size_t i = 0; i < count; i++, at += b) memcpy(at, after, b);
    *at = 0;
    return text;
}

static void test_depth(const char *before, const char *middle, const char *after, size_t count) {
    char *text = repeated(before, middle, after, count);
    jdoc_tape tape;
    jdoc_buffer out = {heap, NULL, 0, 0};
    uint8_t *made;
    size_t made_len;
    jdoc_tape_init(&tape, heap, 0);
    uint32_t status = jdoc_from_text(&tape, text, strlen(text), &made, &made_len);
    expect(status == JDOC_OK, "depth: the document", count);
    if (status == JDOC_OK) status = jdoc_write_text(&out, made, made_len, 0);
    expect(status == JDOC_OK && same(out.bytes, out.len, text, strlen(text)), "depth: the text", count);
    if (made) release(made);
    if (out.bytes) release(out.bytes);
    jdoc_tape_free(&tape);
    free(text);
}

/* KEYS */

static double seconds(clock_t from) { return (double)(clock() - from) / CLOCKS_PER_SEC; }

/* Reads an object of `count` keys in a mixed order, one of which comes twice. */
static double time_of_keys(size_t count, unsigned options, uint32_t expected) {
    char *text = malloc(20 * count + 40), *at = text;
    jdoc_tape tape;
    jdoc_tape_init(&tape, heap, options);
    *at++ = '{';
    for (size_t i = 0; i < count; i++) at += sprintf(at, "\"k%zu\":1,", i * 7919 % count);
    at += sprintf(at, "\"k%zu\":2}", count / 2);
    clock_t from = clock();
    uint32_t status = jdoc_read_text(&tape, text, (size_t)(at - text));
    double took = seconds(from);
    expect(status == expected, "many keys", count);
    if (status != JDOC_OK)
        expect(text[tape.at] == '"' && tape.at > (size_t)(at - text) - 20, "the place of the second key", count);
    jdoc_tape_free(&tape);
    free(text);
    return took;
}

/* Eight times as many keys take less than 24 times as long: n log n, and far from the square (64 times). */
static void test_keys(void) {
    double few = time_of_keys(50000, 0, JDOC_OBJECT_DUPLICATE_KEY),
           many = time_of_keys(400000, 0, JDOC_OBJECT_DUPLICATE_KEY);
    expect(many < 24 * few + 0.1, "time of many keys", (size_t)(many / few));
    time_of_keys(50000, JDOC_KEEP_LAST, JDOC_OK);
}

/* DAMAGE: a walk of any bytes ends, and reads only these */

static uint32_t random_bits(void) {
    static uint64_t state = 88172645463325252u;
    state ^= state << 13, state ^= state >> 7, state ^= state << 17;
    return (uint32_t)(state >> 16);
}

static bool walk_damaged(const uint8_t *document, size_t len) {
    uint8_t *bytes = malloc(len);
    size_t cut = random_bits() % 8 ? len : random_bits() % len + 1;
    jdoc_buffer out = {heap, NULL, 0, 0};
    memcpy(bytes, document, len);
    for (uint32_t i = random_bits() % 4; i > 0; i--) bytes[random_bits() % len] ^= (uint8_t)(1 << random_bits() % 8);
    bytes = realloc(bytes, cut);
    uint32_t checked = jdoc_check(bytes, cut);
    uint32_t written = jdoc_write_text(&out, bytes, cut, 0);
    bool fine = written == checked || (checked == JDOC_OK && written == JDOC_INVALID_JSON_TYPE);
    if (out.bytes) release(out.bytes);
    free(bytes);
    return fine;
}

static void test_damage(size_t count) {
    const char *text = "{\"a\":[1,-2.50,true,null,\"text\",{}],\"bb\":{\"c\":[[],[[\"\\u00e9\"]]],\"d\":false},\"e\":"
                       "18446744073709551615}";
    jdoc_tape tape;
    uint8_t *made;
    size_t made_len, damaged_failed = 0;
    jdoc_tape_init(&tape, heap, 0);
    if (jdoc_from_text(&tape, text, strlen(text), &made, &made_len) != JDOC_OK) exit(2);
    for (size_t i = 0; i < count; i++)
        if (!walk_damaged(made, made_len)) damaged_failed++;
    release(made);
    jdoc_tape_free(&tape);
    expect(!damaged_failed, "damaged documents", damaged_failed);
    expect(!held, "damaged: memory", count);
}

/* EVENTS */

static void test_events(void) {
    jdoc_tape tape;
    uint8_t out[64];
    jdoc_tape_init(&tape, heap, 0);
    expect(jdoc_tape_size(&tape) == 0, "events: none", 0);
    expect(jdoc_tape_i64(&tape, -1) && jdoc_tape_size(&tape) == 10, "events: a scalar", 0);
    expect(jdoc_tape_write(&tape, out) == JDOC_OK && memcmp(out, "\x20\0\0\0\x20\0\0\x02\x40\xff", 10) == 0,
           "events: -1", 0);
    expect(!jdoc_tape_null(&tape) && tape.status == JDOC_INVALID_JSON_TYPE, "events: two roots", 0);
    jdoc_tape_clear(&tape);
    expect(jdoc_tape_begin(&tape, true) && !jdoc_tape_u64(&tape, 1), "events: a value without a key", 0);
    jdoc_tape_clear(&tape);
    expect(!jdoc_tape_end(&tape), "events: an end without a beginning", 0);
    jdoc_tape_clear(&tape);
    expect(jdoc_tape_begin(&tape, true) && jdoc_tape_key(&tape, "a", 1) && !jdoc_tape_end(&tape),
           "events: a key without a value", 0);
    jdoc_tape_clear(&tape);
    tape.source = 7;
    expect(!jdoc_tape_number(&tape, "NaN", 3) && tape.status == JDOC_UNSUPPORTED_NUMBER && tape.at == 7, "events: NaN",
           0);
    jdoc_tape_clear(&tape);
    expect(jdoc_tape_string(&tape, "\xff", 1) && jdoc_tape_write(&tape, out) == JDOC_NOT_UTF8, "events: not UTF-8", 0);
    jdoc_tape_clear(&tape);
    expect(jdoc_tape_begin(&tape, false) && jdoc_tape_string(&tape, "\xc3", 1) && jdoc_tape_string(&tape, "\xa9", 1) &&
               jdoc_tape_end(&tape) && jdoc_tape_write(&tape, out) == JDOC_NOT_UTF8,
           "events: not UTF-8", 1);
    jdoc_tape_free(&tape);
}

/* Documents without a string, a key or a number, from a tape that has allocated nothing for their bytes. */
static void test_events_without_bytes(void) {
    jdoc_tape tape;
    uint8_t out[16];
    jdoc_tape_init(&tape, heap, 0);
    expect(jdoc_tape_null(&tape) && jdoc_tape_size(&tape) == 8, "events: null", 0);
    expect(jdoc_tape_write(&tape, out) == JDOC_OK && memcmp(out, "\x20\0\0\0\0\0\0\0", 8) == 0, "events: null", 1);
    expect(jdoc_tape_write(&tape, out) == JDOC_OK && memcmp(out, "\x20\0\0\0\0\0\0\0", 8) == 0, "events: null again",
           1);
    jdoc_tape_free(&tape);
    expect(jdoc_tape_begin(&tape, false) && jdoc_tape_bool(&tape, true) && jdoc_tape_begin(&tape, true) &&
               jdoc_tape_end(&tape) && jdoc_tape_end(&tape) && jdoc_tape_size(&tape) == 16,
           "events: [true,{}]", 0);
    expect(jdoc_tape_write(&tape, out) == JDOC_OK &&
               memcmp(out, "\x80\0\0\x02\x40\0\0\0\x50\0\0\x04\x40\0\0\0", 16) == 0,
           "events: [true,{}]", 1);
    jdoc_tape_free(&tape);
    expect(!held, "events: memory", 0);
}

static void test_items(void) {
    const char *text = "{\"a\":[1,\"x\"],\"b\":2.5}";
    jdoc_tape tape;
    jdoc_cursor cursor;
    jdoc_event item;
    jdoc_buffer buffer = {heap, NULL, 0, 0};
    uint8_t *made, alone[64];
    size_t len;
    jdoc_tape_init(&tape, heap, 0);
    if (jdoc_from_text(&tape, text, strlen(text), &made, &len) != JDOC_OK) exit(2);
    expect(jdoc_root(&item, made, len) == JDOC_OK && item.object && item.count == 2, "items: root", 0);
    expect(jdoc_cursor_open(made, len, &cursor) == JDOC_OK, "items: open", 0);
    expect(jdoc_next_item(made, len, &cursor, &item) == JDOC_OK && same(item.key, item.key_len, "a", 1),
           "items: first key", 0);
    expect(jdoc_write_item(&buffer, &item, JDOC_SPACES) == JDOC_OK && same(buffer.bytes, buffer.len, "[1, \"x\"]", 8),
           "items: text", 0);
    expect(jdoc_next_item(made, len, &cursor, &item) == JDOC_OK && jdoc_item_size(&item) == 18, "items: size", 0);
    jdoc_item_write(&item, alone);
    expect(jdoc_check(alone, 18) == JDOC_OK && jdoc_cursor_open(alone, 18, &cursor) == JDOC_NONE, "items: a scalar", 0);
    expect(jdoc_next_item(made, len, &cursor, &item) == JDOC_NONE, "items: no more", 0);
    release(made);
    release(buffer.bytes);
    jdoc_tape_free(&tape);
}

/* Several values, one after the other. */
static void test_texts(void) {
    const char *texts = " 1\n[2 ,3]{\"a\":4}5 null 7,8";
    const size_t sizes[] = {10, 16, 15, 10, 8}, ends[] = {3, 6, 7, 2, 5};
    jdoc_tape tape;
    size_t at = 0, used;
    jdoc_tape_init(&tape, heap, 0);
    for (size_t i = 0; i < 5; i++, at += used) {
        uint32_t status = jdoc_read_next(&tape, texts + at, strlen(texts + at), &used);
        expect(status == JDOC_OK && used == ends[i] && jdoc_tape_size(&tape) == sizes[i], "texts", i);
    }
    expect(jdoc_read_next(&tape, texts + at, strlen(texts + at), &used) == JDOC_OK && used == 1, "texts: 7", 5);
    at += used;
    expect(jdoc_read_next(&tape, texts + at, strlen(texts + at), &used) == JDOC_INVALID_JSON && tape.at == 0,
           "texts: a comma", 0);
    expect(jdoc_read_next(&tape, " \n", 2, &used) == JDOC_NONE && used == 2, "texts: none", 0);
    jdoc_tape_free(&tape);
}

int main(int count, char **words) {
    size_t damaged = count > 2 ? (size_t)atol(words[2]) : 100000;
    if (count < 2) return 2;
    run_rows(words[1]);
    test_depth("[", "", "]", 1000000);
    test_depth("{\"a\":", "null", "}", 1000000);
    test_depth("[[],{\"k\":", "1.5", "}]", 300000);
    test_keys();
    test_damage(damaged);
    test_events();
    test_events_without_bytes();
    test_items();
    test_texts();
    printf("%d passed, %d failed\n", passed, failed);
    return failed ? 1 : 0;
}
