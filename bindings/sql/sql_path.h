/* sql_path.h - a JSON path with its mode, in SQL: "lax $.a", "strict $.a", or "$.a", which is lax; and its errors
 *
 * A mode is a word at the beginning, before white space, "$", "(" or the end. SQL has no empty path, with or without a
 * mode: it would select the whole document, and is more likely a mistake.
 */
#ifndef JDOC_SQL_PATH_H
#define JDOC_SQL_PATH_H

#include "jdoc.h"
#include "path_fault.h"
#include "path_predicate.h"

#include <stdbool.h>
#include <stddef.h>
#include <string.h>

typedef struct sql_path {
    const char *text;
    size_t len;
    bool strict;
} sql_path;

static inline bool sql_path_space(char it) { return it == ' ' || it == '\t' || it == '\n' || it == '\r'; }

/* Whether the path begins with this word, and the word ends there. */
static inline bool sql_path_begins(const sql_path *path, const char *word, size_t word_len) {
    if (path->len < word_len || memcmp(path->text, word, word_len) != 0) return false;
    if (path->len == word_len) return true;
    return sql_path_space(path->text[word_len]) || path->text[word_len] == '$' || path->text[word_len] == '(';
}

/* The path without the first bytes, and without white space after them. */
static inline sql_path sql_path_after(const char *text, size_t len, size_t bytes, bool strict) {
    while (bytes < len && sql_path_space(text[bytes])) bytes++;
    return (sql_path){text + bytes, len - bytes, strict};
}

static inline sql_path sql_path_of(const char *text, size_t len) {
    sql_path it = sql_path_after(text, len, 0, false);
    if (sql_path_begins(&it, "strict", 6)) return sql_path_after(it.text, it.len, 6, true);
    if (sql_path_begins(&it, "lax", 3)) return sql_path_after(it.text, it.len, 3, false);
    return it;
}

/* What is wrong at the byte at which a path does not parse. */
static inline const char *sql_path_fault(const sql_path *path, size_t at) {
    const char *what = path_fault(path->text, path->len, at);
    return what ? what : jdoc_status_text(JDOC_INVALID_JSON_PATH);
}

/* Likewise of a key path. */
static inline const char *sql_key_path_fault(const char *text, size_t len, size_t at) {
    const char *what = key_path_fault(text, len, at);
    return what ? what : jdoc_status_text(JDOC_INVALID_KEY_PATH);
}

#endif
