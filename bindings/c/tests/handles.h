/* The calls on prepared paths in the form of those that take a path's text, so that the rows run through both. The text is
 * overwritten after jdoc_path_read, each call is made twice on one path, and once more after jdoc_path_free. Included by
 * rows.c. */
#ifndef HANDLES_H
#define HANDLES_H

enum { TEXT_ROOM = 2048, WROTE_WITHOUT_PATH = 997, CHANGED_PATH = 996 };

/* A copy of the text is read and then wiped. */
#define READ(kind)                                                                                                     \
    char copy[TEXT_ROOM];                                                                                              \
    jdoc_##kind path = {0};                                                                                            \
    if (text_len > sizeof copy) abort();                                                                               \
    if (text_len) memcpy(copy, text, text_len);                                                                        \
    enum jdoc_status status = jdoc_##kind##_read(text ? copy : NULL, text_len, &path);                                 \
    memset(copy, 0, sizeof copy)

#define BY_BYTES(kind, call, PARAMETERS, ...)                                                                          \
    static enum jdoc_status jdoc_by_##kind##_##call PARAMETERS {                                                       \
        READ(kind);                                                                                                    \
        size_t asked = 0, nothing = 99;                                                                                \
        *out_len = 0;                                                                                                  \
        if (status == JDOC_OK) status = jdoc_##kind##_##call(&path, __VA_ARGS__, NULL, 0, &asked);                     \
        if (status == JDOC_OK || status == JDOC_BUFFER_TOO_SMALL) {                                                    \
            status = jdoc_##kind##_##call(&path, __VA_ARGS__, out, size, out_len);                                     \
            if (status != JDOC_OUT_OF_MEMORY && asked != *out_len) status = (enum jdoc_status)CHANGED_PATH;            \
        }                                                                                                              \
        jdoc_##kind##_free(&path);                                                                                     \
        jdoc_##kind##_free(&path);                                                                                     \
        if (jdoc_##kind##_##call(&path, __VA_ARGS__, NULL, 0, &nothing) != JDOC_NO_PATH || nothing != 0)               \
            return (enum jdoc_status)WROTE_WITHOUT_PATH;                                                               \
        return status;                                                                                                 \
    }

#define BY_TRUTH(call)                                                                                                 \
    static enum jdoc_status jdoc_by_path_##call(BYTES_IN_NAMED, TEXT_IN_NAMED, bool strict, uint8_t *truth) {          \
        READ(path);                                                                                                    \
        uint8_t asked = FILL, nothing = FILL;                                                                          \
        if (status == JDOC_OK) status = jdoc_path_##call(&path, document, document_len, strict, &asked);               \
        if (status == JDOC_OK) {                                                                                       \
            status = jdoc_path_##call(&path, document, document_len, strict, truth);                                   \
            if (status == JDOC_OK && asked != *truth) status = (enum jdoc_status)CHANGED_PATH;                         \
        }                                                                                                              \
        jdoc_path_free(&path);                                                                                         \
        if (jdoc_path_##call(&path, document, document_len, strict, &nothing) != JDOC_NO_PATH || nothing != FILL)      \
            return (enum jdoc_status)WROTE_WITHOUT_PATH;                                                               \
        return status;                                                                                                 \
    }

#define BYTES_IN_NAMED  const uint8_t *document, size_t document_len
#define TEXT_IN_NAMED   const char *text, size_t text_len
#define BYTES_OUT_NAMED uint8_t *out, size_t size, size_t *out_len
#define SELECTION       (BYTES_IN_NAMED, TEXT_IN_NAMED, bool strict, BYTES_OUT_NAMED)
#define PLACE           (BYTES_IN_NAMED, TEXT_IN_NAMED, BYTES_OUT_NAMED)
BY_BYTES(path, select_value, SELECTION, document, document_len, strict)
BY_BYTES(path, select_first, SELECTION, document, document_len, strict)
BY_BYTES(path, select_array, SELECTION, document, document_len, strict)
BY_TRUTH(exists)
BY_TRUTH(match)
BY_BYTES(keypath, get, PLACE, document, document_len)
BY_BYTES(keypath, delete, PLACE, document, document_len)

/* The value at a span, as a document: that of jdoc_get_by_keypath. If it is damaged, the buffer is left as by a call that fails. */
static enum jdoc_status value_at(const jdoc_span *span, BYTES_IN_NAMED, BYTES_OUT_NAMED) {
    enum jdoc_status status = jdoc_span_document(document, document_len, span, out, size, out_len);
    if (status != JDOC_OK) return status;
    uint8_t kind = 99;
    status = jdoc_type(out, *out_len, &kind);
    if (status != JDOC_OK) return memset(out, FILL, *out_len), *out_len = 0, status;
    return kind != span->kind ? (enum jdoc_status)CHANGED_PATH : status;
}

static enum jdoc_status jdoc_by_span PLACE {
    jdoc_span span = {.at = 99}, unchanged = {.at = 99};
    enum jdoc_status status = jdoc_find_by_keypath(document, document_len, text, text_len, &span);
    *out_len = 0;
    if (status == JDOC_OK) return value_at(&span, document, document_len, out, size, out_len);
    return memcmp(&span, &unchanged, sizeof span) ? (enum jdoc_status)WROTE_WITHOUT_PATH : status;
}

static enum jdoc_status jdoc_by_keypath_span PLACE {
    READ(keypath);
    jdoc_span span = {.at = 99}, unchanged = {.at = 99};
    *out_len = 0;
    if (status == JDOC_OK) status = jdoc_keypath_find(&path, document, document_len, &span);
    if (status == JDOC_OK) status = value_at(&span, document, document_len, out, size, out_len);
    jdoc_keypath_free(&path);
    span = unchanged;
    if (jdoc_keypath_find(&path, document, document_len, &span) != JDOC_NO_PATH ||
        memcmp(&span, &unchanged, sizeof span))
        return (enum jdoc_status)WROTE_WITHOUT_PATH;
    return status;
}

/* The items of a path one at a time, as an array: that of jdoc_select_array. Each call is made twice, first without room. */
static enum jdoc_status jdoc_by_items SELECTION {
    enum { ITEMS = 512, ITEM_BYTES = 1 << 20 };
    static uint8_t bytes[ITEM_BYTES];
    uint64_t offsets[ITEMS + 1] = {0};
    jdoc_items items = {0};
    size_t count = 0, len = 0, asked = 0, nothing = 99;
    READ(path);
    *out_len = 0;
    if (status == JDOC_OK) status = jdoc_path_items(&path, document, document_len, strict, &items);
    jdoc_path_free(&path);
    bool is_open = status == JDOC_OK;
    for (; is_open && status == JDOC_OK; count++, offsets[count] = offsets[count - 1] + len) {
        if (count == ITEMS) abort();
        uint8_t *to = bytes + offsets[count];
        status = jdoc_items_next(&items, document, document_len, NULL, 0, &asked);
        if (status != JDOC_BUFFER_TOO_SMALL) break;
        status = jdoc_items_next(&items, document, document_len, to, ITEM_BYTES - offsets[count], &len);
        if (status != JDOC_OK) break;
        if (asked != len) status = (enum jdoc_status)CHANGED_PATH;
    }
    if (is_open && status == JDOC_NONE) {
        status = jdoc_items_next(&items, document, document_len, out, size, &len) == JDOC_NONE && len == 0
                     ? jdoc_array_from_column(bytes, offsets[count], offsets, count + 1, out, size, out_len)
                     : (enum jdoc_status)CHANGED_PATH;
    }
    jdoc_items_free(&items);
    jdoc_items_free(&items);
    if (jdoc_items_next(&items, document, document_len, out, size, &nothing) != JDOC_NO_PATH || nothing != 0)
        return (enum jdoc_status)WROTE_WITHOUT_PATH;
    return status;
}

/* The spans of children and strings, and children by a cursor, in the form of the calls that copy them. */
static enum jdoc_status copied(enum jdoc_status status, const jdoc_span *span, BYTES_IN_NAMED, BYTES_OUT_NAMED) {
    jdoc_span unchanged = {.at = 99};
    *out_len = 0;
    if (status == JDOC_OK) return value_at(span, document, document_len, out, size, out_len);
    return memcmp(span, &unchanged, sizeof unchanged) ? (enum jdoc_status)WROTE_WITHOUT_PATH : status;
}

static enum jdoc_status jdoc_span_by_index(BYTES_IN_NAMED, size_t index, BYTES_OUT_NAMED) {
    jdoc_span span = {.at = 99};
    enum jdoc_status status = jdoc_find_by_index(document, document_len, index, &span);
    return copied(status, &span, document, document_len, out, size, out_len);
}

static enum jdoc_status jdoc_span_by_name SELECTION {
    jdoc_span span = {.at = 99};
    enum jdoc_status status = jdoc_find_by_name(document, document_len, text, text_len, strict, &span);
    return copied(status, &span, document, document_len, out, size, out_len);
}

/* The document whose content these bytes are, with this entry type; and that of as many bytes after a position. */
static enum jdoc_status jdoc_span_of_type(BYTES_IN_NAMED, size_t type, BYTES_OUT_NAMED) {
    jdoc_span span = {.len = document_len, .kind = 99, .entry = (uint8_t)type};
    return jdoc_span_document(document, document_len, &span, out, size, out_len);
}

static enum jdoc_status jdoc_span_from(BYTES_IN_NAMED, size_t at, BYTES_OUT_NAMED) {
    jdoc_span span = {.at = at, .len = document_len, .kind = 99, .entry = 1};
    return jdoc_span_document(document, document_len, &span, out, size, out_len);
}

static enum jdoc_status content_at(enum jdoc_status status, const jdoc_span *span, const uint8_t *document,
                                   uint8_t *out, size_t size, size_t *out_len) {
    *out_len = 0;
    if (status != JDOC_OK) return status;
    if (span->kind != JDOC_KIND_STRING || span->entry != 1) return (enum jdoc_status)CHANGED_PATH;
    *out_len = span->len;
    if (size < span->len) return JDOC_BUFFER_TOO_SMALL;
    if (span->len) memcpy(out, document + span->at, span->len);
    return JDOC_OK;
}

static enum jdoc_status jdoc_span_str(BYTES_IN_NAMED, char *out, size_t size, size_t *out_len) {
    jdoc_span span = {.at = 99};
    enum jdoc_status status = jdoc_find_str(document, document_len, &span);
    return content_at(status, &span, document, (uint8_t *)out, size, out_len);
}

/* The child at an index; the key is unchanged if it is an element. */
static enum jdoc_status nth_child(BYTES_IN_NAMED, size_t index, jdoc_span *key, jdoc_span *value) {
    jdoc_cursor cursor = {.left = 99}, unchanged = {.left = 99};
    enum jdoc_status status = jdoc_cursor_open(document, document_len, &cursor);
    if (status != JDOC_OK)
        return memcmp(&cursor, &unchanged, sizeof cursor) ? (enum jdoc_status)WROTE_WITHOUT_PATH : status;
    for (size_t i = 0; i <= index && status == JDOC_OK; i++) {
        unchanged = cursor;
        status = jdoc_cursor_next(document, document_len, &cursor, key, value);
    }
    if (status != JDOC_OK && memcmp(&cursor, &unchanged, sizeof cursor)) return (enum jdoc_status)WROTE_WITHOUT_PATH;
    return status;
}

static enum jdoc_status jdoc_cursor_element(BYTES_IN_NAMED, size_t index, BYTES_OUT_NAMED) {
    jdoc_span key = {.at = 99}, value = {.at = 99};
    enum jdoc_status status = nth_child(document, document_len, index, &key, &value);
    if (status == JDOC_OK && key.at != 99) return *out_len = 0, JDOC_NONE;
    return status == JDOC_OK ? value_at(&value, document, document_len, out, size, out_len) : (*out_len = 0, status);
}

static enum jdoc_status jdoc_cursor_value(BYTES_IN_NAMED, size_t index, BYTES_OUT_NAMED) {
    jdoc_span key = {.at = 99}, value = {.at = 99};
    enum jdoc_status status = nth_child(document, document_len, index, &key, &value);
    if (status == JDOC_OK && key.at == 99) return *out_len = 0, JDOC_NONE;
    return status == JDOC_OK ? value_at(&value, document, document_len, out, size, out_len) : (*out_len = 0, status);
}

static enum jdoc_status jdoc_cursor_key(BYTES_IN_NAMED, size_t index, BYTES_OUT_NAMED) {
    jdoc_span key = {.at = 99}, value = {.at = 99};
    enum jdoc_status status = nth_child(document, document_len, index, &key, &value);
    if (status == JDOC_OK && key.at == 99) return *out_len = 0, JDOC_NONE;
    return content_at(status, &key, document, out, size, out_len);
}

static enum jdoc_status jdoc_cursor_len(BYTES_IN_NAMED, size_t *len) {
    jdoc_cursor cursor;
    jdoc_span key, value;
    size_t count = 0;
    enum jdoc_status status = jdoc_cursor_open(document, document_len, &cursor);
    if (status != JDOC_OK) return status;
    while ((status = jdoc_cursor_next(document, document_len, &cursor, &key, &value)) == JDOC_OK) count++;
    if (status == JDOC_NONE) *len = count;
    return status == JDOC_NONE ? JDOC_OK : status;
}

/* The first item in place; one that is computed is copied. */
static enum jdoc_status jdoc_first_in_place SELECTION {
    jdoc_span span = {.at = 99};
    enum jdoc_status status = jdoc_find_first(document, document_len, text, text_len, strict, &span);
    return copied(status, &span, document, document_len, out, size, out_len);
}

static enum jdoc_status jdoc_by_first_span SELECTION {
    enum jdoc_status status = jdoc_first_in_place(document, document_len, text, text_len, strict, out, size, out_len);
    if (status != JDOC_COMPUTED) return status;
    return jdoc_select_first(document, document_len, text, text_len, strict, out, size, out_len);
}

static enum jdoc_status jdoc_by_path_first_span SELECTION {
    READ(path);
    jdoc_span span = {.at = 99}, unchanged = {.at = 99};
    *out_len = 0;
    if (status == JDOC_OK) status = jdoc_path_find_first(&path, document, document_len, strict, &span);
    status = copied(status, &span, document, document_len, out, size, out_len);
    if (status == JDOC_COMPUTED)
        status = jdoc_path_select_first(&path, document, document_len, strict, out, size, out_len);
    jdoc_path_free(&path);
    span = unchanged;
    if (jdoc_path_find_first(&path, document, document_len, strict, &span) != JDOC_NO_PATH ||
        memcmp(&span, &unchanged, sizeof span))
        return (enum jdoc_status)WROTE_WITHOUT_PATH;
    return status;
}

/* A path with a limit, in lax mode. It has none before, and none after it is set to UINT64_MAX or read again. */
static enum jdoc_status read_limited(jdoc_path *path, const char *text, size_t text_len, uint64_t limit) {
    if (jdoc_path_limit(path, limit) != JDOC_NO_PATH) return (enum jdoc_status)WROTE_WITHOUT_PATH;
    enum jdoc_status status = jdoc_path_read(text, text_len, path);
    if (status == JDOC_OK) status = jdoc_path_limit(path, 0);
    if (status == JDOC_OK) status = jdoc_path_limit(path, limit);
    return status;
}

/* Whether a call without a limit fails with JDOC_LIMIT_EXCEEDED. */
static bool stays_limited(jdoc_path *path, const char *text, size_t text_len, uint64_t limit) {
    const uint8_t null[] = {0x20, 0, 0, 0, 0, 0, 0, 0};
    uint8_t truth = FILL;
    if (jdoc_path_limit(path, UINT64_MAX) != JDOC_OK) return true;
    if (jdoc_path_exists(path, null, sizeof null, false, &truth) == JDOC_LIMIT_EXCEEDED) return true;
    if (jdoc_path_limit(path, limit) != JDOC_OK) return true;
    enum jdoc_status status = jdoc_path_read(text, text_len, path);
    return status == JDOC_OK && jdoc_path_exists(path, null, sizeof null, false, &truth) == JDOC_LIMIT_EXCEEDED;
}

#define LIMITED (BYTES_IN_NAMED, TEXT_IN_NAMED, uint64_t limit, BYTES_OUT_NAMED)
#define BY_LIMIT(call, PARAMETERS, BEFORE, ...)                                                                        \
    static enum jdoc_status jdoc_by_limit_##call PARAMETERS {                                                          \
        jdoc_path path = {0};                                                                                          \
        BEFORE;                                                                                                        \
        enum jdoc_status status = read_limited(&path, text, text_len, limit);                                          \
        if (status == JDOC_OK) {                                                                                       \
            status = jdoc_path_##call(&path, document, document_len, false, __VA_ARGS__);                              \
            if (status != JDOC_OUT_OF_MEMORY && stays_limited(&path, text, text_len, limit))                           \
                status = (enum jdoc_status)CHANGED_PATH;                                                               \
        }                                                                                                              \
        jdoc_path_free(&path);                                                                                         \
        return status;                                                                                                 \
    }
BY_LIMIT(select_value, LIMITED, *out_len = 0, out, size, out_len)
BY_LIMIT(select_first, LIMITED, *out_len = 0, out, size, out_len)
BY_LIMIT(select_array, LIMITED, *out_len = 0, out, size, out_len)
BY_LIMIT(exists, (BYTES_IN_NAMED, TEXT_IN_NAMED, uint64_t limit, uint8_t *truth), (void)0, truth)
BY_LIMIT(match, (BYTES_IN_NAMED, TEXT_IN_NAMED, uint64_t limit, uint8_t *truth), (void)0, truth)

/* The span of the first item, copied. */
static enum jdoc_status jdoc_by_limit_find_first LIMITED {
    jdoc_path path = {0};
    jdoc_span span = {.at = 99};
    enum jdoc_status status = read_limited(&path, text, text_len, limit);
    if (status == JDOC_OK) status = jdoc_path_find_first(&path, document, document_len, false, &span);
    jdoc_path_free(&path);
    return copied(status, &span, document, document_len, out, size, out_len);
}

/* The first of the items. If the call fails, there are none, even if there were before. */
static enum jdoc_status jdoc_by_limit_items LIMITED {
    jdoc_path path = {0};
    jdoc_items items = {0};
    enum jdoc_status status = jdoc_path_read("$", 1, &path);
    *out_len = 0;
    if (status == JDOC_OK) status = jdoc_path_items(&path, document, document_len, false, &items);
    jdoc_path_free(&path);
    if (status == JDOC_OK) status = read_limited(&path, text, text_len, limit);
    if (status == JDOC_OK) {
        status = jdoc_path_items(&path, document, document_len, false, &items);
        enum jdoc_status next = jdoc_items_next(&items, document, document_len, out, size, out_len);
        if (status == JDOC_OK) status = next;
        else if (next != JDOC_NO_PATH) status = (enum jdoc_status)WROTE_WITHOUT_PATH;
    }
    jdoc_path_free(&path);
    jdoc_items_free(&items);
    return status;
}

static enum jdoc_status jdoc_by_most_items(BYTES_IN_NAMED, TEXT_IN_NAMED, uint64_t *bound) {
    READ(path);
    uint64_t nothing = FILL;
    if (status == JDOC_OK) status = jdoc_path_most_items(&path, document, document_len, bound);
    jdoc_path_free(&path);
    if (jdoc_path_most_items(&path, document, document_len, &nothing) != JDOC_NO_PATH || nothing != FILL)
        return (enum jdoc_status)WROTE_WITHOUT_PATH;
    return status;
}

/* The next item by its span, or copied if it is computed. */
static enum jdoc_status next_in_place(jdoc_items *items, const uint8_t *document, size_t document_len, uint8_t *out,
                                      size_t size, size_t *out_len) {
    jdoc_span span = {.at = 99};
    enum jdoc_status status = jdoc_items_find_next(items, document, document_len, &span);
    status = copied(status, &span, document, document_len, out, size, out_len);
    return status == JDOC_COMPUTED ? jdoc_items_next(items, document, document_len, out, size, out_len) : status;
}

/* The items of a path by their spans, as an array: that of jdoc_select_array. */
static enum jdoc_status jdoc_by_item_spans SELECTION {
    enum { ITEMS = 512, ITEM_BYTES = 1 << 20 };
    static uint8_t bytes[ITEM_BYTES];
    uint64_t offsets[ITEMS + 1] = {0};
    jdoc_items items = {0};
    size_t count = 0, len = 0;
    READ(path);
    *out_len = 0;
    if (status == JDOC_OK) status = jdoc_path_items(&path, document, document_len, strict, &items);
    jdoc_path_free(&path);
    bool is_open = status == JDOC_OK;
    while (is_open && status == JDOC_OK) {
        if (count == ITEMS) abort();
        uint8_t *to = bytes + offsets[count];
        status = next_in_place(&items, document, document_len, to, ITEM_BYTES - offsets[count], &len);
        if (status == JDOC_OK) count++, offsets[count] = offsets[count - 1] + len;
    }
    if (is_open && status == JDOC_NONE)
        status = jdoc_array_from_column(bytes, offsets[count], offsets, count + 1, out, size, out_len);
    jdoc_items_free(&items);
    if (next_in_place(&items, document, document_len, out, size, &len) != JDOC_NO_PATH || len != 0)
        return (enum jdoc_status)WROTE_WITHOUT_PATH;
    return status;
}

/* Events, as letters: `[` and `{` begin a container, `.` ends it, `a`, `b` and `k` are the keys "a", "b" and "asd", `d` is
 * the document, and the others are values. `x` and `y` are a string and a key that are not UTF-8. */
static enum jdoc_status pass(jdoc_builder *builder, char letter, const uint8_t *document, size_t document_len) {
    switch (letter) {
    case '[':
        return jdoc_builder_begin_array(builder);
    case '{':
        return jdoc_builder_begin_object(builder);
    case '.':
        return jdoc_builder_end(builder);
    case 'a':
    case 'b':
        return jdoc_builder_key(builder, &letter, 1);
    case 'k':
        return jdoc_builder_key(builder, "asd", 3);
    case 'y':
        return jdoc_builder_key(builder, "\xff", 1);
    case 'n':
        return jdoc_builder_null(builder);
    case 't':
    case 'f':
        return jdoc_builder_bool(builder, letter == 't');
    case 'i':
        return jdoc_builder_i64(builder, -100);
    case 'u':
        return jdoc_builder_u64(builder, 1);
    case 'm':
        return jdoc_builder_decimal(builder, 0, 1234, 2);
    case 's':
        return jdoc_builder_str(builder, "adf", 3);
    case 'x':
        return jdoc_builder_str(builder, "\xff", 1);
    case 'd':
        return jdoc_builder_document(builder, document, document_len);
    default:
        abort();
    }
}

/* The document of events, or the status of the first that fails. */
static enum jdoc_status jdoc_by_events PLACE {
    jdoc_builder builder = {0};
    enum jdoc_status status = JDOC_OK;
    *out_len = 0;
    for (size_t i = 0; i < text_len && status == JDOC_OK; i++)
        status = pass(&builder, text[i], document, document_len);
    if (status == JDOC_OK) status = jdoc_builder_finish(&builder, out, size, out_len);
    jdoc_builder_free(&builder);
    jdoc_builder_free(&builder);
    return status;
}

/* The document of the events that do not fail. It is written twice, first without room. */
static enum jdoc_status jdoc_by_events_that_fit PLACE {
    jdoc_builder builder = {0};
    enum jdoc_status status = JDOC_OK;
    size_t asked = 0;
    *out_len = 0;
    for (size_t i = 0; i < text_len && status != JDOC_OUT_OF_MEMORY; i++)
        status = pass(&builder, text[i], document, document_len);
    if (status != JDOC_OUT_OF_MEMORY) status = jdoc_builder_finish(&builder, NULL, 0, &asked);
    if (status == JDOC_BUFFER_TOO_SMALL) {
        status = jdoc_builder_finish(&builder, out, size, out_len);
        if (status != JDOC_OUT_OF_MEMORY && asked != *out_len) status = (enum jdoc_status)CHANGED_PATH;
    }
    jdoc_builder_free(&builder);
    return status;
}

/* The event of a letter. Its bytes are appended to the text. */
static jdoc_text_event event_of(char letter, char *text, size_t *len) {
    static const char letters[] = "nftium   [{.", keys[] = "abky", strings[] = "sx";
    const char *bytes = letter == 'k' ? "asd" : letter == 's' ? "adf" : letter == 'a' ? "a" : letter == 'b' ? "b" : "\xff";
    jdoc_text_event event = {.kind = strchr(keys, letter) ? JDOC_TEXT_KEY : JDOC_TEXT_STRING};
    if (strchr(keys, letter) || strchr(strings, letter)) {
        event.low = strlen(bytes);
        memcpy(text + *len, bytes, event.low);
        *len += event.low;
        return event;
    }
    if (!strchr(letters, letter)) abort();
    event.kind = (uint8_t)(strchr(letters, letter) - letters);
    if (event.kind == JDOC_TEXT_INT64) event.high = -100;
    if (event.kind == JDOC_TEXT_UINT64) event.low = 1;
    if (event.kind == JDOC_TEXT_DECIMAL64) event.high = 1234, event.scale = 2;
    return event;
}

/* The document of events in an array. Of members with the same key the last is kept if the flag is set. */
static enum jdoc_status jdoc_by_event_list SELECTION {
    jdoc_text_event events[1024];
    char bytes[3 * 1024];
    size_t len = 0;
    (void)document, (void)document_len;
    if (text_len > sizeof events / sizeof *events) abort();
    for (size_t i = 0; i < text_len; i++) events[i] = event_of(text[i], bytes, &len);
    return jdoc_from_events(bytes, len, events, text_len, strict, out, size, out_len);
}

/* A struct that was cast contains a path of the other kind: calls return JDOC_NO_PATH and write nothing. */
static enum jdoc_status jdoc_by_wrong_kind SELECTION {
    jdoc_path path = {0};
    jdoc_keypath keys = {0};
    jdoc_items items = {0};
    jdoc_builder builder = {0};
    jdoc_span span = {.at = 99};
    uint8_t truth = FILL;
    size_t len = 99;
    enum jdoc_status status = jdoc_path_read(text, text_len, &path);
    if (status == JDOC_OK) status = jdoc_keypath_read("{a}", 3, &keys);
    if (status == JDOC_OK) status = jdoc_path_items(&path, document, document_len, strict, &items);
    if (status == JDOC_OK) status = jdoc_builder_null(&builder);
    *out_len = 0;
    if (status == JDOC_OK) {
        void *as_keys = &path, *as_path = &keys, *as_items = &path, *of_items = &items, *of_events = &builder;
        if (jdoc_keypath_get(as_keys, document, document_len, out, size, &len) != JDOC_NO_PATH || len != 0 ||
            jdoc_keypath_delete(as_keys, document, document_len, out, size, &len) != JDOC_NO_PATH || len != 0 ||
            jdoc_path_select_first(as_path, document, document_len, strict, out, size, &len) != JDOC_NO_PATH ||
            jdoc_path_exists(as_path, document, document_len, strict, &truth) != JDOC_NO_PATH ||
            jdoc_path_exists(of_items, document, document_len, strict, &truth) != JDOC_NO_PATH ||
            jdoc_path_limit(as_path, 0) != JDOC_NO_PATH || jdoc_path_limit(of_items, 0) != JDOC_NO_PATH ||
            jdoc_items_next(as_items, document, document_len, out, size, &len) != JDOC_NO_PATH || len != 0 ||
            jdoc_items_find_next(of_events, document, document_len, &span) != JDOC_NO_PATH || span.at != 99 ||
            jdoc_path_exists(of_events, document, document_len, strict, &truth) != JDOC_NO_PATH ||
            jdoc_builder_null(of_items) != JDOC_NO_PATH || jdoc_builder_end(as_keys) != JDOC_NO_PATH ||
            jdoc_builder_finish(as_path, out, size, &len) != JDOC_NO_PATH || len != 0 ||
            jdoc_path_items(as_path, document, document_len, strict, &items) != JDOC_NO_PATH ||
            jdoc_items_next(&items, document, document_len, out, size, &len) != JDOC_NO_PATH ||
            jdoc_path_match(as_path, document, document_len, strict, &truth) != JDOC_NO_PATH || truth != FILL)
            status = (enum jdoc_status)WROTE_WITHOUT_PATH;
        else
            status = JDOC_NO_PATH;
    }
    jdoc_path_free(&path);
    jdoc_keypath_free(&keys);
    jdoc_items_free(&items);
    jdoc_builder_free(&builder);
    return status;
}

/* A path that is read into a struct that keeps one takes its span; one that cannot be read leaves none. */
static enum jdoc_status jdoc_by_path_read_again SELECTION {
    jdoc_path path = {0};
    enum jdoc_status status = jdoc_path_read("$", 1, &path);
    if (status == JDOC_OK) status = jdoc_path_read(text, text_len, &path);
    *out_len = 0;
    if (status == JDOC_OK) status = jdoc_path_select_first(&path, document, document_len, strict, out, size, out_len);
    else if (jdoc_path_select_first(&path, document, document_len, strict, out, size, out_len) != JDOC_NO_PATH)
        status = (enum jdoc_status)WROTE_WITHOUT_PATH;
    jdoc_path_free(&path);
    return status;
}

#endif
