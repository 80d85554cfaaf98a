/* path_predicate.h - whether a JSON path is a predicate: a comparison, "&&", "||" or exists(..) as the whole path
 *
 * Every other path consists of steps, which in parentheses are not a path, or is arithmetic, which has no operator of a
 * predicate outside of its keys and strings.
 */
#ifndef JDOC_PATH_PREDICATE_H
#define JDOC_PATH_PREDICATE_H

#include "jdoc.h"

#include <stdbool.h>
#include <stddef.h>
#include <string.h>

/* The bytes that end a key without quotes (docs/PATHS.md). */
#define PATH_PREDICATE_STOPS " ,.:{}[]()?@$|<>!=+-*/%\"'"

static inline bool path_predicate_is_of(char it, const char *bytes) { return it && strchr(bytes, it); }

/* The position after an escape or another byte. */
static inline size_t path_predicate_after_unit(const char *text, size_t len, size_t at) {
    bool is_braced = len - at > 2 && text[at + 1] == 'u' && text[at + 2] == '{'; /* \u{XXXX} */
    return at + (text[at] != '\\' ? 1 : is_braced ? 8 : 2);
}

/* The position of the first of these bytes, or of the end. */
static inline size_t path_predicate_end(const char *text, size_t len, size_t at, const char *bytes) {
    while (at < len && !path_predicate_is_of(text[at], bytes)) at = path_predicate_after_unit(text, len, at);
    return at;
}

static inline bool path_predicate_begins(const char *text, size_t len, const char *word) {
    return len >= strlen(word) && memcmp(text, word, strlen(word)) == 0;
}

/* Whether an expression has an operator of a predicate. */
static inline bool path_predicate_has_operator(const char *text, size_t len) {
    size_t at = 0;
    while (at < len) {
        if (text[at] == '"')
            at = path_predicate_end(text, len, at + 1, "\"") + 1;
        else if (text[at] == '.' || text[at] == ':')
            at = path_predicate_end(text, len, at + 1, PATH_PREDICATE_STOPS);
        else if (path_predicate_is_of(text[at], "=<>|&") || path_predicate_begins(text + at, len - at, "exists") ||
                 path_predicate_begins(text + at, len - at, "starts"))
            return true;
        else
            at++;
    }
    return false;
}

/* *is_predicate: whether text that is a JSON path is a predicate. `room` is a buffer of len + 2 bytes. JDOC_OK, or
 * JDOC_OUT_OF_MEMORY. */
static inline enum jdoc_status path_is_predicate(const char *text, size_t len, char *room, bool *is_predicate) {
    jdoc_path expression = {0};
    room[0] = '(', room[len + 1] = ')';
    if (len) memcpy(room + 1, text, len);
    enum jdoc_status status = jdoc_path_read(room, len + 2, &expression);
    jdoc_path_free(&expression);
    *is_predicate = status == JDOC_OK && path_predicate_has_operator(text, len);
    return status == JDOC_INVALID_JSON_PATH ? JDOC_OK : status;
}

#endif
