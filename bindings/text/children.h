/* How containers are read. Inline, since a walk and the writer of text do this for each item. Every length is compared
 * with what is left of its container before anything is read.
 *
 * jdoc_cursor_next reads them too, and is proved. By it, a walk of a document of 298 bytes of text takes 7,506
 * instructions in place of 2,411, and writing its text, after jdoc_check, 13,346 in place of 4,216. */
#ifndef JDOC_TEXT_CHILDREN_H
#define JDOC_TEXT_CHILDREN_H

#include "format.h"

/* Doubles the levels of a walk. False: the allocation fails. */
bool jdoc_walk_grow(jdoc_walk *walk);

/* The first eight bytes of a key, the first one highest, and zeros after it. Bytes before `end` may be read. */
ALWAYS_INLINE uint64_t key_prefix(const uint8_t *key, size_t len, const uint8_t *end) {
    if (end - key < 8) return __builtin_bswap64(take_short(key, len));
    return __builtin_bswap64(take_word(key)) & (len < 8 ? ~(UINT64_MAX >> 8 * len) : UINT64_MAX);
}

/* Whether a key is below another one, which makes them different. */
ALWAYS_INLINE bool is_below(const uint8_t *key, size_t len, const uint8_t *other, size_t other_len) {
    int order = memcmp(key, other, len < other_len ? len : other_len);
    return order < 0 || (order == 0 && len < other_len);
}

/* Reads the lengths of the keys of an object, which with `checks` have to be in order. */
ALWAYS_INLINE bool read_keys(jdoc_children *it, bool checks) {
    const uint8_t *key = it->keys, *before = key;
    uint64_t last = 0;
    for (uint32_t i = 0; i < it->count; i++) {
        uint32_t word = take32(it->words - 4 * ((size_t)it->count - i));
        size_t len = word & CONTENT_LIMIT;
        uint64_t prefix;
        if (word >> 28 != JDOC_EVENT_STRING || len > (size_t)(it->end - key)) return false;
        prefix = checks ? key_prefix(key, len, it->end) : 1;
        if (prefix <= last && checks && i && !is_below(before, (size_t)(key - before), key, len)) return false;
        before = key, last = prefix;
        key += len;
    }
    it->content = key;
    return true;
}

/* Reads the header of a container and the lengths of its keys. */
ALWAYS_INLINE bool open_container(jdoc_children *it, const uint8_t *at, size_t len, bool checks) {
    uint32_t header;
    uint64_t words;
    if (len < 4) return false;
    header = take32(at);
    it->object = (header & HEADER_KIND) == HEADER_OBJECT;
    if (!it->object && (header & HEADER_KIND) != HEADER_ARRAY) return false;
    it->count = it->left = header & COUNT_LIMIT;
    words = (uint64_t)it->count * (it->object ? 8 : 4);
    if (words > len - 4) return false;
    it->words = at + 4 + (it->object ? words / 2 : 0);
    it->keys = it->content = at + 4 + words;
    it->end = at + len;
    return !it->object || read_keys(it, checks);
}

/* The item of an entry word and its content. */
ALWAYS_INLINE bool make_item(jdoc_event *item, uint32_t word, const uint8_t *content) {
    if (word >> 28 > JDOC_EVENT_EXTENSION) return false;
    item->kind = (enum jdoc_event_kind)(word >> 28);
    item->bytes = content;
    item->len = word & CONTENT_LIMIT;
    item->has_key = item->object = false;
    item->key = NULL;
    item->key_len = item->count = 0;
    if (item->kind != JDOC_EVENT_BEGIN) return true;
    if (item->len < 4) return false;
    item->object = (take32(content) & HEADER_KIND) == HEADER_OBJECT;
    item->count = take32(content) & COUNT_LIMIT;
    return true;
}

/* Reads the next item of a container. JDOC_NONE: there is none. */
ALWAYS_INLINE uint32_t next_child(jdoc_children *it, jdoc_event *item) {
    uint32_t word;
    if (!it->left) return it->content == it->end ? JDOC_NONE : JDOC_INVALID_JSONB;
    word = take32(it->words);
    if ((word & CONTENT_LIMIT) > (size_t)(it->end - it->content)) return JDOC_INVALID_JSONB;
    if (!make_item(item, word, it->content)) return JDOC_INVALID_JSONB;
    if (it->object) {
        item->has_key = true;
        item->key = it->keys;
        item->key_len = take32(it->words - 4 * (size_t)it->count) & CONTENT_LIMIT;
        /* The words may have been changed by another thread since they were added up. */
        if (item->key_len > (size_t)(it->end - it->keys)) return JDOC_INVALID_JSONB;
        it->keys += item->key_len;
    }
    it->words += 4;
    it->content += item->len;
    it->left--;
    return JDOC_OK;
}

#endif
