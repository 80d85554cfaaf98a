/* path_fault.h - why text is not a path, if it looks like something that SQL, PostgreSQL or JSONPath accepts */
#ifndef JDOC_PATH_FAULT_H
#define JDOC_PATH_FAULT_H

#include <stdbool.h>
#include <stddef.h>
#include <string.h>

static inline bool path_fault_digit(char it) { return it >= '0' && it <= '9'; }

static inline bool path_fault_letter(char it) {
    return it == '_' || (it >= 'a' && it <= 'z') || (it >= 'A' && it <= 'Z');
}

static inline bool path_fault_is_of(char it, const char *bytes) { return it && strchr(bytes, it); }

/* Whether this word in lower case is there, in any case. */
static inline bool path_fault_word(const char *text, size_t len, size_t at, const char *word) {
    for (; *word && at < len; word++, at++)
        if ((text[at] >= 'A' && text[at] <= 'Z' ? text[at] + ('a' - 'A') : text[at]) != *word) return false;
    return !*word && !(at < len && path_fault_letter(text[at]));
}

/* Likewise, with capitals. */
static inline bool path_fault_capitals(const char *text, size_t len, size_t at, const char *word) {
    return path_fault_word(text, len, at, word) && memcmp(text + at, word, strlen(word)) != 0;
}

static inline bool path_fault_constant(const char *text, size_t len, size_t at) {
    return path_fault_word(text, len, at, "null") || path_fault_word(text, len, at, "true") ||
           path_fault_word(text, len, at, "false");
}

/* Whether a word is there, and a parenthesis next to it. */
static inline bool path_fault_call(const char *text, size_t len, size_t at) {
    while (at < len && (path_fault_letter(text[at]) || path_fault_digit(text[at]))) at++;
    return at < len && text[at] == '(';
}

/* Whether the text before a position ends with these bytes. */
static inline bool path_fault_ends(const char *text, size_t end, const char *bytes) {
    return end >= strlen(bytes) && memcmp(text + end - strlen(bytes), bytes, strlen(bytes)) == 0;
}

/* Whether the text begins with a key, and not with another word of conditions. */
static inline bool path_fault_begins_with_key(const char *text, size_t len) {
    return len && path_fault_letter(text[0]) && !path_fault_word(text, len, 0, "exists") &&
           !path_fault_constant(text, len, 0);
}

/* What is wrong with a word in place of an operand or an operator. What is before it, without spaces, ends at `end`. */
static inline const char *path_fault_of_word(const char *text, size_t len, size_t at, size_t end) {
    char before = end > 0 ? text[end - 1] : 0;
    bool is_apart = at > end;
    bool is_compared = path_fault_is_of(before, "=<>") || path_fault_ends(text, end, "starts with");
    bool is_operand = is_compared || path_fault_is_of(before, "&|(") || (is_apart && path_fault_is_of(before, "+-*/%"));
    if (before == '$' && !is_apart) return "paths have no variables";
    if (path_fault_word(text, len, at, "and")) return "and is written &&";
    if (path_fault_word(text, len, at, "or")) return "or is written ||";
    if (path_fault_word(text, len, at, "not")) return "paths have no negation";
    if (path_fault_capitals(text, len, at, "exists")) return "exists is in lower case";
    if (is_operand && path_fault_constant(text, len, at)) return "null, true and false are in lower case";
    if (is_operand && path_fault_call(text, len, at)) return "paths have no methods or functions";
    if (is_compared) return "strings are in double quotes";
    if (is_operand || path_fault_begins_with_key(text, len)) return "a key in a condition begins with $. or @.";
    return is_apart ? "conditions have the operators ==, !=, <, <=, >, >=, starts with, && and ||" : NULL;
}

/* What is wrong with brackets, except in a key in double quotes. */
static inline const char *path_fault_of_brackets(const char *text, size_t len, size_t at) {
    bool is_quoted = false;
    for (size_t i = at; i < len && (is_quoted || text[i] != ']'); i++) {
        if (text[i] == '"') is_quoted = !is_quoted;
        if (is_quoted) continue;
        if (text[i] == '\'') return "strings are in double quotes";
        if (text[i] == ':') return "a slice is written [1 to 3]";
        if (path_fault_is_of(text[i], "?@$")) return "in brackets are integers, last, * or a key in double quotes";
    }
    return NULL;
}

/* What is wrong with one byte, by the bytes next to it. */
static inline const char *path_fault_of_byte(char before, char here, char after) {
    if (here == '\'') return "strings are in double quotes";
    if (here == '.' && path_fault_digit(before) && path_fault_digit(after)) return "numbers in a path are integers";
    if (here == '.' && after == '.') return "descendants are selected by .**";
    if (here == '(' && path_fault_letter(before)) return "paths have no methods or functions";
    if (here == '!' && after != '=') return "paths have no negation";
    if (here == '=' && !path_fault_is_of(after, "=<>~")) return "equality is written ==";
    return NULL;
}

/* What is wrong at the byte at which text is not a JSON path (jdoc_path_error_position), or NULL: nothing is known. */
static inline const char *path_fault(const char *text, size_t len, size_t at) {
    char here = at < len ? text[at] : 0, after = at + 1 < len ? text[at + 1] : 0;
    size_t end = at;
    long open = 0;
    while (end > 0 && text[end - 1] == ' ') end--;
    for (size_t i = 0; i < at; i++) open += (text[i] == '(') - (text[i] == ')');
    if (path_fault_letter(here)) return path_fault_of_word(text, len, at, end);
    if (here == '(' && end >= 6 && path_fault_capitals(text, len, end - 6, "exists")) return "exists is in lower case";
    if (here == '{' && end == 0) return "key paths begin with {, JSON paths with $";
    if (here == '[') return path_fault_of_brackets(text, len, at);
    if (here == ')' && open > 0) return "a condition is a comparison or exists(..)";
    if (path_fault_is_of(here, "=!<>") && path_fault_begins_with_key(text, len))
        return "a key in a condition begins with $. or @.";
    return path_fault_of_byte(at > 0 ? text[at - 1] : 0, here, after);
}

/* Likewise of text that is not a key path (jdoc_keypath_error_position). */
static inline const char *key_path_fault(const char *text, size_t len, size_t at) {
    char here = at < len ? text[at] : 0;
    if (here == '$' && !memchr(text, '{', at)) return "JSON paths begin with $, key paths with {";
    if (at == 0 && here && here != '{') return "a key path is in braces, such as {a,0}";
    if (here == '.') return "the steps of a key path are separated by commas";
    if (here == '\'') return "keys are in double quotes";
    return NULL;
}

#endif
