/* A document as events. */
#include "children.h"

bool jdoc_item_at(jdoc_event *item, const uint8_t *document, size_t len, const jdoc_span *span) {
    if (span->at > len || span->len > len - span->at) return false;
    item->kind = (enum jdoc_event_kind)span->entry;
    item->object = span->kind == JDOC_KIND_OBJECT;
    item->has_key = false;
    item->count = 0;
    item->bytes = document + span->at;
    item->len = span->len;
    item->key = NULL, item->key_len = 0;
    return true;
}

uint32_t jdoc_next_item(const uint8_t *document, size_t len, jdoc_cursor *cursor, jdoc_event *item) {
    jdoc_span key = {0}, value;
    uint32_t status = jdoc_cursor_next(document, len, cursor, &key, &value);
    if (status != JDOC_OK) return status;
    if (!jdoc_item_at(item, document, len, &value) || key.at > len || key.len > len - key.at) return JDOC_INVALID_JSONB;
    item->has_key = key.entry == JDOC_EVENT_STRING;
    item->key = document + key.at;
    item->key_len = key.len;
    return JDOC_OK;
}

size_t jdoc_item_size(const jdoc_event *item) { return (item->kind == JDOC_EVENT_BEGIN ? 0 : 8) + item->len; }

void jdoc_item_write(const jdoc_event *item, uint8_t *out) {
    jdoc_span whole = {.len = item->len, .entry = (uint8_t)item->kind};
    size_t len;
    uint32_t status = jdoc_span_document(item->bytes, item->len, &whole, out, jdoc_item_size(item), &len);
    (void)status; /* JDOC_OK: an item has a type, and the length of a scalar's content is that of its entry word */
}

void jdoc_walk_init_item(jdoc_walk *walk, jdoc_heap heap, const jdoc_event *item) {
    walk->heap = heap;
    walk->started = false;
    walk->root = *item;
    walk->root.has_key = false;
    walk->levels = walk->some;
    walk->depth = 0;
    walk->size = JDOC_WALK_INLINE;
}

uint32_t jdoc_root(jdoc_event *item, const uint8_t *document, size_t len) {
    bool fine;
    if (len < 4) return JDOC_INVALID_JSONB;
    if (take32(document) == HEADER_SCALAR) {
        fine = len >= 8 && make_item(item, take32(document + 4), document + 8) && item->len == len - 8;
        return fine && item->kind != JDOC_EVENT_BEGIN ? JDOC_OK : JDOC_INVALID_JSONB;
    }
    fine = make_item(item, (uint32_t)JDOC_EVENT_BEGIN << 28 | 4, document);
    item->len = len;
    return fine ? JDOC_OK : JDOC_INVALID_JSONB;
}

uint32_t jdoc_walk_init(jdoc_walk *walk, jdoc_heap heap, const uint8_t *document, size_t len) {
    jdoc_event item;
    uint32_t status = jdoc_root(&item, document, len);
    if (status != JDOC_OK) memset(&item, 0, sizeof item);
    jdoc_walk_init_item(walk, heap, &item);
    walk->started = status != JDOC_OK;
    return status;
}

bool jdoc_walk_grow(jdoc_walk *walk) {
    jdoc_children *old = walk->levels == walk->some ? NULL : walk->levels, *more;
    more = walk->heap.resize(old, 2 * walk->size * sizeof *more);
    if (!more) return false;
    if (!old) memcpy(more, walk->some, sizeof walk->some);
    walk->levels = more;
    walk->size *= 2;
    return true;
}

static uint32_t enter(jdoc_walk *walk, const jdoc_event *item) {
    if (item->kind != JDOC_EVENT_BEGIN) return JDOC_OK;
    if (walk->depth == walk->size && !jdoc_walk_grow(walk)) return JDOC_OUT_OF_MEMORY;
    if (!open_container(&walk->levels[walk->depth], item->bytes, item->len, false)) return JDOC_INVALID_JSONB;
    walk->depth++;
    return JDOC_OK;
}

uint32_t jdoc_walk_next(jdoc_walk *walk, jdoc_event *event) {
    uint32_t status;
    jdoc_children *level;
    if (!walk->started) {
        walk->started = true;
        *event = walk->root;
        return enter(walk, event);
    }
    if (!walk->depth) return JDOC_NONE;
    level = &walk->levels[walk->depth - 1];
    status = next_child(level, event);
    if (status == JDOC_OK) return enter(walk, event);
    if (status != JDOC_NONE) return status;
    event->kind = JDOC_EVENT_END;
    event->object = level->object;
    event->has_key = false;
    walk->depth--;
    return JDOC_OK;
}

void jdoc_walk_free(jdoc_walk *walk) {
    if (walk->levels != walk->some) walk->heap.release(walk->levels);
    walk->levels = walk->some;
}
