/* items.c - items of documents in place, and copies of them */
#include "jdoc_pg.h"

#include "utils/builtins.h"

#include <string.h>

jdoc_event root_of(const uint8_t *document, size_t len) {
    jdoc_event root;
    uint32_t status = jdoc_root(&root, document, len);
    if (status != JDOC_OK) fail(status);
    return root;
}

bool take_item(uint32_t status, const uint8_t *document, size_t len, const jdoc_span *span, jdoc_event *child) {
    if (status == JDOC_NONE) return false;
    if (status != JDOC_OK) fail(status);
    if (!jdoc_item_at(child, document, len, span)) fail(JDOC_INVALID_JSONB);
    return true;
}

bool element_of(const uint8_t *array, size_t len, int64 index, jdoc_event *child) {
    jdoc_span span = {0};
    size_t count = 0;
    if (index < 0 && jdoc_len(array, len, &count) == JDOC_OK) index += (int64)count;
    return index >= 0 && take_item(jdoc_find_by_index(array, len, (size_t)index, &span), array, len, &span, child);
}

bool member_of(const uint8_t *object, size_t len, const char *name, size_t name_len, jdoc_event *child) {
    jdoc_span span = {0};
    return take_item(jdoc_find_by_name(object, len, name, name_len, false, &span), object, len, &span, child);
}

void open_children(children *it, const uint8_t *container, size_t len) {
    uint32_t status = jdoc_cursor_open(container, len, &it->at);
    if (status == JDOC_OK) status = jdoc_len(container, len, &it->left);
    if (status != JDOC_OK) fail(status);
    it->bytes = container, it->len = len;
}

bool next_child(children *it, jdoc_event *child) {
    uint32_t status = jdoc_next_item(it->bytes, it->len, &it->at, child);
    if (status != JDOC_OK && status != JDOC_NONE) fail(status);
    it->left -= status == JDOC_OK;
    return status == JDOC_OK;
}

bytea *document_of_item(const jdoc_event *item) {
    bool is_container = item->kind == JDOC_EVENT_BEGIN; /* it is a document already */
    size_t len = is_container ? item->len : jdoc_item_size(item);
    bytea *made = palloc(VARHDRSZ + len);
    SET_VARSIZE(made, VARHDRSZ + len);
    if (is_container)
        memcpy(VARDATA(made), item->bytes, len);
    else
        jdoc_item_write(item, (uint8_t *)VARDATA(made));
    return made;
}

text *text_of_item(const jdoc_event *item) {
    jdoc_buffer out = {.heap = pg_heap};
    uint32_t status;
    if (item->kind == JDOC_EVENT_NULL) return NULL;
    if (item->kind == JDOC_EVENT_STRING) return cstring_to_text_with_len((const char *)item->bytes, (int)item->len);
    status = jdoc_write_item(&out, item, JDOC_SPACES);
    if (status != JDOC_OK) fail(status);
    return cstring_to_text_with_len(out.bytes, (int)out.len);
}
