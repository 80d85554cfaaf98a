/* The JSON text of a document, written in one pass that compares everything that jdoc_check does. */
#include "children.h"

/* JSON text that is being written. Its end is not stored here, but passed and returned. */
typedef struct writer {
    jdoc_buffer *out;
    const char *limit;  /* of the buffer */
    const uint8_t *end; /* of the document */
    size_t spaces;      /* after a comma or a colon */
    bool is_full;       /* an allocation fails */
} writer;

enum {
    STRING_ROOM = sizeof(block) + 8,                   /* more than the length of a string that has no escapes */
    ITEM_ROOM = JDOC_NUMBER_TEXT + 2 * STRING_ROOM + 8 /* more than the lengths of a key and of a string */
};

/* Room for `len` bytes more at the end, or NULL. */
static char *room(jdoc_buffer *out, size_t len) {
    size_t wanted;
    char *more;
    if (out->size - out->len >= len && out->bytes) return out->bytes + out->len;
    if (len > SIZE_MAX / 4 - out->len) return NULL;
    wanted = out->len + len + (out->len + len) / 2 + 64;
    more = out->heap.resize(out->bytes, wanted);
    if (!more) return NULL;
    out->bytes = more;
    out->size = wanted;
    return more + out->len;
}

bool jdoc_append(jdoc_buffer *out, const char *text, size_t len) {
    char *to = room(out, len);
    if (!to) return false;
    if (len) memcpy(to, text, len);
    out->len += len;
    return true;
}

static char *more_room(writer *it, char *to, size_t len) {
    it->out->len = (size_t)(to - it->out->bytes);
    to = room(it->out, len);
    it->is_full = !to;
    it->limit = it->out->bytes + it->out->size;
    return to;
}

/* Returns the end of the text, with room for `len` bytes more, or NULL. */
static inline char *room_for(writer *it, char *to, size_t len) {
    return (size_t)(it->limit - to) >= len ? to : more_room(it, to, len);
}

static char *escape(char *to, uint8_t it) {
    static const char special[] = "\"\\\b\f\n\r\t", letters[] = "\"\\bfnrt", hex[] = "0123456789abcdef";
    const char *found = it ? strchr(special, it) : NULL;
    *to++ = '\\';
    if (found) {
        *to++ = letters[found - special];
        return to;
    }
    memcpy(to, "u00", 3);
    to[3] = hex[it >> 4], to[4] = hex[it & 15];
    return to + 5;
}

/* Copies characters up to the next one of ASCII, or returns NULL: they are not UTF-8. */
static char *put_characters(char *to, const uint8_t **at, const uint8_t *end) {
    const uint8_t *from = *at;
    while (*at < end && **at >= 0x80) {
        size_t len = character(*at, end);
        if (!len) return NULL;
        *at += len;
    }
    memcpy(to, from, (size_t)(*at - from));
    return to + (*at - from);
}

/* Writes a string, if there is room for one that has no escapes, and makes `after` bytes of room after it. NULL: it is
 * not UTF-8, or an allocation fails. */
static char *put_any_string(writer *it, char *to, const uint8_t *at, size_t len, size_t after) {
    const uint8_t *end = at + len;
    *to++ = '"';
    for (;;) {
        size_t plain = copy_ascii(to, at, (size_t)(end - at));
        to += plain, at += plain;
        if (at == end) break;
        if (*at < 0x80)
            to = escape(to, *at++), to = room_for(it, to, (size_t)(end - at) + STRING_ROOM + after);
        else
            to = put_characters(to, &at, end);
        if (!to) return NULL;
    }
    *to = '"';
    return to + 1;
}

/* Writes a string in the same way. Most are short. */
ALWAYS_INLINE char *put_string(writer *it, char *to, const uint8_t *at, size_t len, size_t after) {
    if (len <= sizeof(block) && it->end - at >= (ptrdiff_t)sizeof(block)) {
        block whole = whole_block(at);
        put_block(to + 1, whole);
        if (plain_ascii(whole) >= len) {
            to[0] = to[1 + len] = '"';
            return to + len + 2;
        }
    }
    return put_any_string(it, to, at, len, after);
}

/* Writes a comma unless the item is the first, and the key. NULL: as put_any_string. */
ALWAYS_INLINE char *put_before(writer *it, char *to, const jdoc_event *item, bool first) {
    if (!first) memcpy(to, ", ", 2), to += 1 + it->spaces;
    if (!item->has_key) return to;
    to = put_string(it, to, item->key, item->key_len, item->len + ITEM_ROOM);
    if (!to) return NULL;
    memcpy(to, ": ", 2);
    return to + 1 + it->spaces;
}

/* Writes a scalar. NULL: it is not one of a document, or has no JSON text, or an allocation fails. */
ALWAYS_INLINE char *put_scalar(writer *it, char *to, const jdoc_event *item) {
    size_t len;
    switch (item->kind) {
    case JDOC_EVENT_NULL:
        memcpy(to, "null", 4);
        return item->len ? NULL : to + 4;
    case JDOC_EVENT_TRUE:
        memcpy(to, "true", 4);
        return item->len ? NULL : to + 4;
    case JDOC_EVENT_FALSE:
        memcpy(to, "false", 5);
        return item->len ? NULL : to + 5;
    case JDOC_EVENT_NUMBER:
        len = jdoc_number_text(item->bytes, item->len, to);
        return len ? to + len : NULL;
    case JDOC_EVENT_STRING:
        return put_string(it, to, item->bytes, item->len, 0);
    default:
        return NULL;
    }
}

/* Writes a scalar, or the first bracket of a container, which becomes the level. NULL: as put_scalar. */
ALWAYS_INLINE char *put_content(writer *it, char *to, const jdoc_event *item, jdoc_children *level) {
    if (item->kind != JDOC_EVENT_BEGIN) return put_scalar(it, to, item);
    if (!open_container(level, item->bytes, item->len, true)) return NULL;
    *to = level->object ? '{' : '[';
    return to + 1;
}

/* Why an item, or the key before it, is not written. */
static uint32_t failure(const writer *it, const jdoc_event *item) {
    if (it->is_full) return JDOC_OUT_OF_MEMORY;
    return item->kind == JDOC_EVENT_EXTENSION ? JDOC_INVALID_JSON_TYPE : JDOC_INVALID_JSONB;
}

static inline bool push(jdoc_walk *walk, const jdoc_children *level) {
    if (walk->depth == walk->size && !jdoc_walk_grow(walk)) return false;
    walk->levels[walk->depth++] = *level;
    return true;
}

/* Writes what is left of a container, whose first bracket is written, and the last bracket. */
static uint32_t put_rest(writer *it, char *to, jdoc_children level, jdoc_walk *walk) {
    for (;;) {
        bool first = level.left == level.count;
        jdoc_event item;
        uint32_t status = next_child(&level, &item);
        if (status == JDOC_OK) {
            if (item.kind == JDOC_EVENT_BEGIN && !push(walk, &level)) return JDOC_OUT_OF_MEMORY;
            to = room_for(it, to, item.key_len + item.len + ITEM_ROOM);
            if (to) to = put_before(it, to, &item, first);
            if (to) to = put_content(it, to, &item, &level);
            if (!to) return failure(it, &item);
            continue;
        }
        if (status != JDOC_NONE) return status;
        to = room_for(it, to, 1);
        if (!to) return JDOC_OUT_OF_MEMORY;
        *to++ = level.object ? '}' : ']';
        if (!walk->depth) break;
        level = walk->levels[--walk->depth];
    }
    it->out->len = (size_t)(to - it->out->bytes);
    return JDOC_OK;
}

uint32_t jdoc_write_item(jdoc_buffer *out, const jdoc_event *item, unsigned options) {
    size_t len = out->len;
    char *to = room(out, item->len + ITEM_ROOM);
    writer it = {out, out->bytes + out->size, item->bytes + item->len, options & JDOC_SPACES ? 1 : 0, false};
    jdoc_walk walk;
    jdoc_children level = {0};
    uint32_t status = JDOC_OK;
    if (!to) return JDOC_OUT_OF_MEMORY;
    to = put_content(&it, to, item, &level);
    if (!to) return failure(&it, item);
    out->len = (size_t)(to - out->bytes);
    if (item->kind != JDOC_EVENT_BEGIN) return JDOC_OK;
    jdoc_walk_init_item(&walk, out->heap, item);
    status = put_rest(&it, to, level, &walk);
    jdoc_walk_free(&walk);
    if (status != JDOC_OK) out->len = len;
    return status;
}

uint32_t jdoc_write_text(jdoc_buffer *out, const uint8_t *document, size_t len, unsigned options) {
    jdoc_event root;
    uint32_t checked, status = jdoc_root(&root, document, len);
    if (status == JDOC_OK) status = jdoc_write_item(out, &root, options);
    if (status == JDOC_OK || status == JDOC_OUT_OF_MEMORY) return status;
    checked = jdoc_check(document, len); /* the reason, unless the document has an extension value */
    return checked == JDOC_OK ? status : checked;
}
