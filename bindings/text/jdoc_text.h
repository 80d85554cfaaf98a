/* jdoc_text.h - JSON text to documents and back, for every binding
 *
 *   cc program.c $(pkg-config --cflags --libs jdoc_text)
 *
 * A document comes from events (a tape: null, a number, begin an object, a key, ..) and is read as events (a walk).
 * JSON text is read into a tape and written from a walk. Nothing here recurses, so memory alone bounds how deep values
 * nest. Numbers are exact: a number that no decimal of 128 bits with a scale of 0 to 255 equals is an error, or is
 * rounded if the caller sets that option.
 *
 * A tape collects events in memory, of which jdoc_from_events makes the document: its bytes are proved to be those of
 * the events. So is the document of an item, which jdoc_span_document makes. Nothing else here is proved. Text is
 * written from exactly the bytes that jdoc_check accepts, which tests compare.
 *
 * Statuses are those of jdoc.h, and JDOC_INVALID_JSON. Calls allocate from the caller's jdoc_heap. If it returns NULL,
 * the status is JDOC_OUT_OF_MEMORY. It may also leave by longjmp, as palloc does: calls own nothing except its memory.
 */
#ifndef JDOC_TEXT_H
#define JDOC_TEXT_H

#include "jdoc.h"

#ifdef __cplusplus
extern "C" {
#endif

/* The text is not a JSON text of RFC 8259. */
enum { JDOC_INVALID_JSON = 64 };

/* realloc and free, or functions with the same contract. */
typedef struct jdoc_heap {
    void *(*resize)(void *piece, size_t size);
    void (*release)(void *piece);
} jdoc_heap;

/* OPTIONS. Of a tape and of text. 0: numbers are exact, keys are unique, text has no spaces. */
enum {
    JDOC_ROUND_NUMBERS =
        1, /* round a number with too many digits, half away from zero, instead of JDOC_UNSUPPORTED_NUMBER */
    JDOC_KEEP_LAST = 2, /* keep the last member of a duplicate key, instead of JDOC_OBJECT_DUPLICATE_KEY */
    JDOC_SPACES = 4     /* write ", " and ": ", as PostgreSQL does */
};

/* EVENTS TO A DOCUMENT */

/* A tape copies what it is given. After an error it ignores events; `status`, `what` and `at` describe the first one.
 */
typedef struct jdoc_tape {
    uint32_t status;
    const char *what; /* a sentence without a full stop, or NULL if the status suffices */
    size_t at;        /* the byte of the JSON text, or the value of `source` at the event */
    size_t source;    /* the caller's position, which each key keeps */
    unsigned options;
    bool has_key, in_object;
    uint32_t top; /* the event that began the open container, or UINT32_MAX */
    jdoc_heap heap;
    jdoc_text_event *events;
    size_t events_len, events_size;
    uint8_t *bytes; /* of keys and strings, one after the other */
    size_t bytes_len, bytes_size;
    uint8_t *document; /* of all events, if document_len is not 0 */
    size_t document_len, document_size;
} jdoc_tape;

/* Sets a tape up, and allocates nothing. */
void jdoc_tape_init(jdoc_tape *tape, jdoc_heap heap, unsigned options);

/* Forgets the events and the error, and keeps the memory. */
void jdoc_tape_clear(jdoc_tape *tape);

/* Forgets the events and the error, and frees the memory. */
void jdoc_tape_free(jdoc_tape *tape);

/* Each adds an event, and returns whether there is no error so far. In an object a key comes before each value. */
bool jdoc_tape_null(jdoc_tape *tape);
bool jdoc_tape_bool(jdoc_tape *tape, bool value);
bool jdoc_tape_i64(jdoc_tape *tape, int64_t value);
bool jdoc_tape_u64(jdoc_tape *tape, uint64_t value);
bool jdoc_tape_string(jdoc_tape *tape, const char *text, size_t len);
bool jdoc_tape_key(jdoc_tape *tape, const char *text, size_t len);
bool jdoc_tape_begin(jdoc_tape *tape, bool object);
bool jdoc_tape_end(jdoc_tape *tape);

/* Adds a number as JSON, Python and PostgreSQL write it: sign, digits, point, exponent. With a point or an exponent it
 * becomes a decimal, otherwise an integer if 64 bits hold it. JDOC_UNSUPPORTED_NUMBER: it is another text, or is not
 * exact. */
bool jdoc_tape_number(jdoc_tape *tape, const char *text, size_t len);

/* Makes the document, unless it is made, and returns its size. 0: there is an error, no event, or an open container.
 * JDOC_OBJECT_DUPLICATE_KEY; JDOC_NOT_UTF8: a string or a key. */
size_t jdoc_tape_size(jdoc_tape *tape);

/* Writes the document, of jdoc_tape_size bytes. */
uint32_t jdoc_tape_write(jdoc_tape *tape, uint8_t *out);

/* JSON TEXT TO A DOCUMENT */

/* Reads JSON text, as UTF-8, into a tape, which it clears first. JDOC_INVALID_JSON; JDOC_UNSUPPORTED_NUMBER;
 * JDOC_OBJECT_DUPLICATE_KEY; JDOC_NOT_UTF8: an escape of half a surrogate pair; JDOC_TOO_LARGE. `at` and `what`
 * describe the error. */
uint32_t jdoc_read_text(jdoc_tape *tape, const char *text, size_t len);

/* Reads the first of several JSON values like jdoc_read_text. *used: the bytes to its end and the spaces after it.
 * JDOC_NONE: there are only spaces. */
uint32_t jdoc_read_next(jdoc_tape *tape, const char *text, size_t len, size_t *used);

/* Writes like jdoc_tape_write the document of a tape that was read from this text: of a string that is not UTF-8, `at`
 * is the first wrong byte. */
uint32_t jdoc_write_read(jdoc_tape *tape, const char *text, size_t len, uint8_t *out);

/* Reads JSON text and writes its document to *out, a new allocation of the heap, which the caller releases. */
uint32_t jdoc_from_text(jdoc_tape *tape, const char *text, size_t len, uint8_t **out, size_t *out_len);

/* A DOCUMENT AS EVENTS. Any bytes may be walked: no byte outside of them is read, and what is not a document is
 * JDOC_INVALID_JSONB at the latest when the walk comes to it. */

/* The types of entry words (docs/FORMAT.md), and the end of a container. */
enum jdoc_event_kind {
    JDOC_EVENT_NULL = 0,
    JDOC_EVENT_STRING = 1,
    JDOC_EVENT_NUMBER = 2,
    JDOC_EVENT_FALSE = 3,
    JDOC_EVENT_TRUE = 4,
    JDOC_EVENT_BEGIN = 5, /* an array, or an object if `object` */
    JDOC_EVENT_EXTENSION = 6,
    JDOC_EVENT_END = 7
};

/* An item of a document. `bytes` are those of a string or of a key, a number's payload (jdoc_number_text), or a
 * container as a document. In an object, `key` is the item's key. */
typedef struct jdoc_event {
    enum jdoc_event_kind kind;
    bool object, has_key;
    uint32_t count; /* of a container: elements or members */
    size_t len, key_len;
    const uint8_t *bytes, *key;
} jdoc_event;

/* The remaining elements or members of a container, for a walk. */
typedef struct jdoc_children {
    const uint8_t *words, *keys, *content, *end;
    uint32_t left, count;
    bool object;
} jdoc_children;

/* Reads a document as an item without a key. Containers within it are not read. */
uint32_t jdoc_root(jdoc_event *item, const uint8_t *document, size_t len);

/* Makes the value of a span, which jdoc_find_by_keypath and others store, an item without a key, whose `count` is 0.
 * False: the span is not within the document, which is then not one. */
bool jdoc_item_at(jdoc_event *item, const uint8_t *document, size_t len, const jdoc_span *span);

/* Reads the next child of a container, whose cursor jdoc_cursor_open opened, as such an item with its key. JDOC_NONE:
 * there is none. */
uint32_t jdoc_next_item(const uint8_t *document, size_t len, jdoc_cursor *cursor, jdoc_event *item);

/* Returns the size of an item as a separate document. */
size_t jdoc_item_size(const jdoc_event *item);

/* Writes that document, by jdoc_span_document. */
void jdoc_item_write(const jdoc_event *item, uint8_t *out);

/* A walk allocates only if containers are nested deeper than this. */
enum { JDOC_WALK_INLINE = 16 };

/* A document or an item that is read as events. */
typedef struct jdoc_walk {
    jdoc_heap heap;
    bool started;
    jdoc_event root;
    jdoc_children *levels, some[JDOC_WALK_INLINE];
    size_t depth, size;
} jdoc_walk;

/* Begins a walk of a document. */
uint32_t jdoc_walk_init(jdoc_walk *walk, jdoc_heap heap, const uint8_t *document, size_t len);

/* Begins a walk of an item. */
void jdoc_walk_init_item(jdoc_walk *walk, jdoc_heap heap, const jdoc_event *item);

/* Reads the next event. JDOC_NONE: the walk is done. */
uint32_t jdoc_walk_next(jdoc_walk *walk, jdoc_event *event);

/* Frees the memory of a walk. */
void jdoc_walk_free(jdoc_walk *walk);

/* A DOCUMENT TO JSON TEXT */

/* JSON text, in one allocation of a heap. `bytes` is NULL at first. */
typedef struct jdoc_buffer {
    jdoc_heap heap;
    char *bytes;
    size_t len, size;
} jdoc_buffer;

/* Appends bytes. False: the allocation fails. */
bool jdoc_append(jdoc_buffer *out, const char *text, size_t len);

/* Appends the JSON text of a document. JDOC_INVALID_JSONB, JDOC_UNSUPPORTED_NUMBER: jdoc_check returns this.
 * JDOC_INVALID_JSON_TYPE: an extension value, such as a date, which JSON does not have. */
uint32_t jdoc_write_text(jdoc_buffer *out, const uint8_t *document, size_t len, unsigned options);

/* Appends the JSON text of an item. Errors: as jdoc_write_text, except that JDOC_INVALID_JSON_TYPE says nothing of what
 * follows the extension value, and JDOC_UNSUPPORTED_NUMBER is JDOC_INVALID_JSONB. */
uint32_t jdoc_write_item(jdoc_buffer *out, const jdoc_event *item, unsigned options);

/* NUMBERS */

/* The size of a buffer for the text of any number. */
enum { JDOC_NUMBER_TEXT = 300 };

/* Writes the text of a number's payload into `out`, of JDOC_NUMBER_TEXT bytes, and returns its length. 0: it is not a
 * payload. */
size_t jdoc_number_text(const uint8_t *payload, size_t len, char *out);

/* Reads the payload of an integer of 64 bits with a sign. False: it is not one, such as that of a decimal. */
bool jdoc_number_i64(const uint8_t *payload, size_t len, int64_t *value);

/* Writes the payload of a number's text into `out`, of 18 bytes, and returns its length. 0: there is none. */
size_t jdoc_number_payload(const char *text, size_t len, bool round, uint8_t *out);

#ifdef __cplusplus
}
#endif

#endif
