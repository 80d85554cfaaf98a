/* Events to a document. */
#include "tape.h"

#include <stdlib.h>

void jdoc_tape_init(jdoc_tape *tape, jdoc_heap heap, unsigned options) {
    memset(tape, 0, sizeof *tape);
    tape->heap = heap;
    tape->options = options;
    tape->top = NO_EVENT;
}

void jdoc_tape_clear(jdoc_tape *tape) {
    tape->events_len = tape->bytes_len = tape->document_len = 0;
    tape->status = JDOC_OK;
    tape->what = NULL;
    tape->at = tape->source = 0;
    tape->has_key = tape->in_object = false;
    tape->top = NO_EVENT;
}

void jdoc_tape_free(jdoc_tape *tape) {
    if (tape->events) tape->heap.release(tape->events);
    if (tape->bytes) tape->heap.release(tape->bytes);
    if (tape->document) tape->heap.release(tape->document);
    jdoc_tape_init(tape, tape->heap, tape->options);
}

bool jdoc_tape_fail(jdoc_tape *tape, uint32_t status, const char *what, size_t at) {
    if (tape->status == JDOC_OK) tape->status = status, tape->what = what, tape->at = at;
    return false;
}

static bool fail_place(jdoc_tape *tape) {
    return jdoc_tape_fail(tape, JDOC_INVALID_JSON_TYPE, "an event where none can be", tape->source);
}

/* A piece of at least `need` items of `item_size` bytes in place of one of `*size`, or NULL. */
static void *grown(jdoc_tape *tape, void *piece, size_t *size, size_t need, size_t item_size) {
    size_t wanted = need + need / 2 + 64;
    void *more;
    if (need > SIZE_MAX / 2 / item_size) return jdoc_tape_fail(tape, JDOC_TOO_LARGE, NULL, tape->source), NULL;
    more = tape->heap.resize(piece, wanted * item_size);
    if (!more) return jdoc_tape_fail(tape, JDOC_OUT_OF_MEMORY, NULL, tape->source), NULL;
    *size = wanted;
    return more;
}

uint8_t *jdoc_tape_more(jdoc_tape *tape, size_t len) {
    void *more;
    if (tape->status != JDOC_OK) return NULL;
    more = grown(tape, tape->bytes, &tape->bytes_size, tape->bytes_len + len + TAPE_SLACK, 1);
    if (!more) return NULL;
    tape->bytes = more;
    return tape->bytes + tape->bytes_len;
}

bool jdoc_tape_grow(jdoc_tape *tape) {
    void *more;
    if (tape->status != JDOC_OK) return false;
    if (tape->events_len >= NO_EVENT - 1) return jdoc_tape_fail(tape, JDOC_TOO_LARGE, NULL, tape->source);
    more = grown(tape, tape->events, &tape->events_size, tape->events_len + 1, sizeof *tape->events);
    if (more) tape->events = more;
    return more;
}

bool jdoc_tape_place(jdoc_tape *tape) {
    if (tape->status != JDOC_OK) return false;
    if (tape->has_key != tape->in_object || (tape->top == NO_EVENT && tape->events_len > 0)) return fail_place(tape);
    tape->has_key = false;
    return true;
}

bool jdoc_tape_null(jdoc_tape *tape) { return jdoc_tape_place(tape) && jdoc_tape_next(tape, JDOC_TEXT_NULL); }
bool jdoc_tape_bool(jdoc_tape *tape, bool value) {
    return jdoc_tape_place(tape) && jdoc_tape_next(tape, value ? JDOC_TEXT_TRUE : JDOC_TEXT_FALSE);
}
bool jdoc_tape_u64(jdoc_tape *tape, uint64_t value) { return jdoc_tape_place(tape) && jdoc_tape_natural(tape, value); }
bool jdoc_tape_i64(jdoc_tape *tape, int64_t value) {
    if (value >= 0) return jdoc_tape_u64(tape, (uint64_t)value);
    return jdoc_tape_place(tape) && jdoc_tape_negative(tape, value);
}

static bool put(jdoc_tape *tape, const char *text, size_t len, bool is_key) {
    size_t at = tape->bytes_len;
    uint8_t *out = jdoc_tape_room(tape, len);
    if (!out) return false;
    if (len) memcpy(out, text, len);
    tape->bytes_len += len;
    return jdoc_tape_take(tape, at, is_key);
}

bool jdoc_tape_string(jdoc_tape *tape, const char *text, size_t len) {
    return jdoc_tape_place(tape) && put(tape, text, len, false);
}

bool jdoc_tape_key(jdoc_tape *tape, const char *text, size_t len) {
    if (tape->status != JDOC_OK) return false;
    if (!tape->in_object || tape->has_key) return fail_place(tape);
    tape->has_key = true;
    return put(tape, text, len, true);
}

bool jdoc_tape_begin(jdoc_tape *tape, bool object) { return jdoc_tape_place(tape) && jdoc_tape_open(tape, object); }

bool jdoc_tape_end(jdoc_tape *tape) {
    if (tape->status != JDOC_OK) return false;
    if (tape->top == NO_EVENT || tape->has_key) return fail_place(tape);
    return jdoc_tape_close(tape);
}

/* THE PLACE OF A KEY THAT COMES TWICE, which is looked for only after that error */

typedef struct named {
    uint32_t object; /* the event that begins it */
    const uint8_t *key;
    size_t len, source;
} named;

static bool same_key(const named *x, const named *y) {
    return x->object == y->object && x->len == y->len && memcmp(x->key, y->key, x->len) == 0;
}

static int order_of_keys(const void *a, const void *b) {
    const named *x = a, *y = b;
    int order = (x->object > y->object) - (x->object < y->object);
    if (!order) order = (x->len > y->len) - (x->len < y->len);
    if (!order) order = memcmp(x->key, y->key, x->len);
    return order ? order : (x->source > y->source) - (x->source < y->source);
}

/* Collects the keys of all objects, and returns how many. */
static size_t collect_keys(const jdoc_tape *tape, named *keys) {
    const uint8_t *at = tape->bytes;
    size_t count = 0;
    uint32_t top = NO_EVENT;
    for (uint32_t i = 0; i < tape->events_len; i++) {
        const jdoc_text_event *it = &tape->events[i];
        if (it->kind == JDOC_TEXT_KEY) keys[count++] = (named){top, at, (size_t)it->low, (size_t)it->high};
        if (it->kind == JDOC_TEXT_KEY || it->kind == JDOC_TEXT_STRING) at += it->low;
        if (it->kind == JDOC_TEXT_ARRAY || it->kind == JDOC_TEXT_OBJECT) top = i;
        if (it->kind == JDOC_TEXT_END) top = (uint32_t)tape->events[top].low;
    }
    return count;
}

/* Sets the error, at the first key that its object already has. */
static void fail_duplicate(jdoc_tape *tape) {
    named *keys = tape->heap.resize(NULL, tape->events_len * sizeof *keys);
    size_t count, first = SIZE_MAX;
    if (!keys) {
        jdoc_tape_fail(tape, JDOC_OUT_OF_MEMORY, NULL, 0);
        return;
    }
    count = collect_keys(tape, keys);
    qsort(keys, count, sizeof *keys, order_of_keys);
    for (size_t i = 1; i < count; i++)
        if (same_key(&keys[i - 1], &keys[i]) && keys[i].source < first) first = keys[i].source;
    tape->heap.release(keys);
    jdoc_tape_fail(tape, JDOC_OBJECT_DUPLICATE_KEY, "the key comes twice", first);
}

/* THE DOCUMENT */

/* Sets the error of a call that made no document. */
static void fail_make(jdoc_tape *tape, uint32_t status) {
    if (status == JDOC_OBJECT_DUPLICATE_KEY)
        fail_duplicate(tape);
    else if (status == JDOC_NOT_UTF8 || status == JDOC_OUT_OF_ORDER) /* a character is in two strings */
        jdoc_tape_fail(tape, JDOC_NOT_UTF8, "a string is not UTF-8", 0);
    else
        jdoc_tape_fail(tape, status, status == JDOC_TOO_LARGE ? "a value past the limits of the format" : NULL, 0);
}

void jdoc_tape_make(jdoc_tape *tape) {
    size_t need = 8 + tape->bytes_len + 22 * tape->events_len;
    uint32_t status;
    if (need > tape->document_size) {
        void *more = grown(tape, tape->document, &tape->document_size, need, 1);
        if (!more) return;
        tape->document = more;
    }
    status = jdoc_from_events((const char *)tape->bytes, tape->bytes_len, tape->events, tape->events_len,
                              tape->options & JDOC_KEEP_LAST, tape->document, tape->document_size, &tape->document_len);
    if (status != JDOC_OK) fail_make(tape, status);
}

size_t jdoc_tape_size(jdoc_tape *tape) {
    if (tape->status != JDOC_OK || tape->top != NO_EVENT || tape->events_len == 0) return 0;
    if (!tape->document_len) jdoc_tape_make(tape);
    return tape->status == JDOC_OK ? tape->document_len : 0;
}

uint32_t jdoc_tape_write(jdoc_tape *tape, uint8_t *out) {
    size_t size = jdoc_tape_size(tape);
    if (!size) return tape->status == JDOC_OK ? JDOC_INVALID_JSON_TYPE : tape->status;
    memcpy(out, tape->document, size);
    return JDOC_OK;
}
