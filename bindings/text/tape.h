/* How the next event of a tape is added. */
#ifndef JDOC_TEXT_TAPE_H
#define JDOC_TEXT_TAPE_H

#include "format.h"

#define NO_EVENT UINT32_MAX

/* After its bytes a tape has room for a block, so that whole blocks are written. */
enum { TAPE_SLACK = sizeof(block) };

/* Sets the error if it is the first, and returns false. */
bool jdoc_tape_fail(jdoc_tape *tape, uint32_t status, const char *what, size_t at);
/* The slow part of jdoc_tape_room. */
uint8_t *jdoc_tape_more(jdoc_tape *tape, size_t len);
/* Makes room for one event more, or sets the error. */
bool jdoc_tape_grow(jdoc_tape *tape);
/* Whether a value may come next, or the reason why not. */
bool jdoc_tape_place(jdoc_tape *tape);
/* Makes the document, or sets the error. */
void jdoc_tape_make(jdoc_tape *tape);

/* Room for `len` bytes more in the tape, at its end, or NULL. */
static inline uint8_t *jdoc_tape_room(jdoc_tape *tape, size_t len) {
    if (tape->bytes_size - tape->bytes_len < len + TAPE_SLACK || tape->status != JDOC_OK)
        return jdoc_tape_more(tape, len);
    return tape->bytes + tape->bytes_len;
}

/* Adds an event that may come next, or returns NULL. */
static inline jdoc_text_event *jdoc_tape_next(jdoc_tape *tape, uint8_t kind) {
    jdoc_text_event *event;
    if (tape->events_len == tape->events_size && !jdoc_tape_grow(tape)) return NULL;
    event = &tape->events[tape->events_len++];
    event->kind = kind;
    return event;
}

/* Adds a number of any text. */
bool jdoc_tape_put_number(jdoc_tape *tape, const char *text, size_t len);

/* Each adds a number. */
static inline bool jdoc_tape_natural(jdoc_tape *tape, uint64_t value) {
    jdoc_text_event *event = jdoc_tape_next(tape, JDOC_TEXT_UINT64);
    if (event) event->low = value;
    return event;
}

static inline bool jdoc_tape_negative(jdoc_tape *tape, int64_t value) {
    jdoc_text_event *event = jdoc_tape_next(tape, JDOC_TEXT_INT64);
    if (event) event->high = value;
    return event;
}

static inline bool jdoc_tape_decimal(jdoc_tape *tape, int64_t digits, uint8_t scale) {
    jdoc_text_event *event = jdoc_tape_next(tape, JDOC_TEXT_DECIMAL64);
    if (event) event->high = digits, event->scale = scale;
    return event;
}

/* Makes the tape's bytes from `at` on a string or the next key. */
static inline bool jdoc_tape_take(jdoc_tape *tape, size_t at, bool is_key) {
    jdoc_text_event *event = jdoc_tape_next(tape, is_key ? JDOC_TEXT_KEY : JDOC_TEXT_STRING);
    if (!event) return false;
    event->low = tape->bytes_len - at;
    event->high = (int64_t)tape->source;
    return true;
}

/* Opens a container, whose event is the next one. */
static inline bool jdoc_tape_open(jdoc_tape *tape, bool object) {
    jdoc_text_event *event = jdoc_tape_next(tape, object ? JDOC_TEXT_OBJECT : JDOC_TEXT_ARRAY);
    if (!event) return false;
    event->low = tape->top;
    tape->top = (uint32_t)tape->events_len - 1;
    tape->in_object = object;
    return true;
}

/* Closes the open container. */
static inline bool jdoc_tape_close(jdoc_tape *tape) {
    if (!jdoc_tape_next(tape, JDOC_TEXT_END)) return false;
    tape->top = (uint32_t)tape->events[tape->top].low;
    tape->in_object = tape->top != NO_EVENT && tape->events[tape->top].kind == JDOC_TEXT_OBJECT;
    return true;
}

#endif
