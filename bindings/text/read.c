/* JSON text to events: the grammar of RFC 8259, without recursion. The tape knows which container is open. */
#include "tape.h"

typedef struct reader {
    jdoc_tape *tape;
    const uint8_t *start, *end;
} reader;

/* What reads a part of the text takes its first byte, and returns the byte after it, or NULL after an error. */
typedef const uint8_t *place;

static place fail(reader *it, place at, const char *what) {
    return jdoc_tape_fail(it->tape, JDOC_INVALID_JSON, what, (size_t)(at - it->start)), NULL;
}

/* NUMBERS */

static bool is_digit(const reader *it, place at) { return at < it->end && *at >= '0' && *at <= '9'; }

/* The end of the digits from a place on, which are appended to a number. */
static inline place read_digits(const reader *it, place at, uint64_t *number) {
    for (; is_digit(it, at); at++) *number = *number * 10 + (*at - '0');
    return at;
}

/* Reads a number that begins at `first` and whose exponent, if it has one, begins at `at`. */
static place read_exponent(reader *it, place first, place at) {
    uint64_t exponent = 0;
    if (at < it->end && (*at | 0x20) == 'e') {
        at++;
        at += at < it->end && (*at == '+' || *at == '-');
        if (!is_digit(it, at)) return fail(it, at, "a digit is expected in the exponent");
        at = read_digits(it, at, &exponent);
    }
    return jdoc_tape_put_number(it->tape, (const char *)first, (size_t)(at - first)) ? at : NULL;
}

/* Reads a number, by the short way if it has no exponent and at most 18 digits. */
static place read_number(reader *it, place first) {
    place at = first + (*first == '-'), point = NULL;
    uint64_t digits = 0;
    int64_t value;
    if (!is_digit(it, at)) return fail(it, at, "a digit is expected");
    at = *at == '0' ? at + 1 : read_digits(it, at, &digits);
    if (at < it->end && *at == '.') {
        point = at + 1;
        if (!is_digit(it, point)) return fail(it, point, "a digit is expected after the point");
        at = read_digits(it, point, &digits);
    }
    if (at - first > 18 || (at < it->end && (*at | 0x20) == 'e')) return read_exponent(it, first, at);
    if (point) {
        value = *first == '-' ? -(int64_t)digits : (int64_t)digits;
        return jdoc_tape_decimal(it->tape, value, (uint8_t)(at - point)) ? at : NULL;
    }
    return (*first == '-' ? jdoc_tape_negative(it->tape, -(int64_t)digits) : jdoc_tape_natural(it->tape, digits))
               ? at
               : NULL;
}

/* STRINGS: their bytes go to the tape's end, which has room for the rest of the text */

static int hex_digit(uint8_t it) {
    if (it >= '0' && it <= '9') return it - '0';
    it |= 0x20;
    return it >= 'a' && it <= 'f' ? it - 'a' + 10 : -1;
}

/* The four digits of an escape, or -1. */
static int32_t hex_unit(const uint8_t *at, const uint8_t *end) {
    int32_t unit = 0;
    if (end - at < 4) return -1;
    for (int i = 0; i < 4; i++) {
        int digit = hex_digit(at[i]);
        if (digit < 0) return -1;
        unit = unit << 4 | digit;
    }
    return unit;
}

static uint8_t *put_utf8(uint8_t *out, uint32_t code) {
    if (code < 0x80) {
        *out++ = (uint8_t)code;
    } else if (code < 0x800) {
        *out++ = (uint8_t)(0xc0 | code >> 6), *out++ = (uint8_t)(0x80 | (code & 0x3f));
    } else if (code < 0x10000) {
        *out++ = (uint8_t)(0xe0 | code >> 12), *out++ = (uint8_t)(0x80 | (code >> 6 & 0x3f));
        *out++ = (uint8_t)(0x80 | (code & 0x3f));
    } else {
        *out++ = (uint8_t)(0xf0 | code >> 18), *out++ = (uint8_t)(0x80 | (code >> 12 & 0x3f));
        *out++ = (uint8_t)(0x80 | (code >> 6 & 0x3f)), *out++ = (uint8_t)(0x80 | (code & 0x3f));
    }
    return out;
}

/* The error of an escape, unless the string has one that matters more: it has a control character, or does not end. */
static place fail_escape(reader *it, place slash, uint32_t status, const char *what) {
    place at = slash;
    for (; at < it->end && *at != '"'; at++) {
        if (*at < 0x20) return fail(it, at, "a control character in a string");
        at += *at == '\\' && it->end - at > 1;
    }
    if (at == it->end) return fail(it, at, "the string does not end");
    return jdoc_tape_fail(it->tape, status, what, (size_t)(slash - it->start)), NULL;
}

/* Reads an escape of the form \uXXXX, or two of them for a surrogate pair. */
static place unescape_unit(reader *it, place slash, uint8_t **out) {
    int32_t unit = hex_unit(slash + 2, it->end), low;
    if (unit < 0) return fail_escape(it, slash, JDOC_INVALID_JSON, "four hexadecimal digits are expected after \\u");
    if (unit < 0xd800 || unit > 0xdfff) return *out = put_utf8(*out, (uint32_t)unit), slash + 6;
    low = it->end - slash >= 12 && slash[6] == '\\' && slash[7] == 'u' ? hex_unit(slash + 8, it->end) : -1;
    if (unit > 0xdbff || low < 0xdc00 || low > 0xdfff)
        return fail_escape(it, slash, JDOC_NOT_UTF8, "an escape of half a surrogate pair");
    *out = put_utf8(*out, 0x10000 + ((uint32_t)(unit - 0xd800) << 10) + (uint32_t)(low - 0xdc00));
    return slash + 12;
}

/* Reads an escape, which is at least as long as what it stands for. */
static place unescape(reader *it, place slash, uint8_t **out) {
    static const char letters[] = "\"\\/bfnrt", meant[] = "\"\\/\b\f\n\r\t";
    uint8_t letter = it->end - slash < 2 ? 0 : slash[1];
    const char *found = letter ? strchr(letters, letter) : NULL;
    if (letter == 'u') return unescape_unit(it, slash, out);
    if (!found) return fail_escape(it, slash, JDOC_INVALID_JSON, "an escape that JSON does not have");
    *(*out)++ = (uint8_t)meant[found - letters];
    return slash + 2;
}

/* Makes the bytes that are at the tape's end a string or the next key. The place is that of the quotation mark. */
static inline place end_string(reader *it, place at, uint8_t *out, bool is_key) {
    size_t from = it->tape->bytes_len;
    it->tape->bytes_len = (size_t)(out - it->tape->bytes);
    return jdoc_tape_take(it->tape, from, is_key) ? at + 1 : NULL;
}

/* Copies the part of a string before its next quotation mark, backslash or control character, and returns its end. */
static inline place read_plain(const reader *it, place at, uint8_t **out) {
    size_t plain = copy_plain(*out, at, (size_t)(it->end - at));
    *out += plain;
    return at + plain;
}

/* Reads the rest of a string that has an escape or an error, from there on. */
static place read_escapes(reader *it, place at, uint8_t *out, bool is_key) {
    while (at) {
        if (at == it->end) return fail(it, at, "the string does not end");
        if (*at == '"') return end_string(it, at, out, is_key);
        if (*at != '\\') return fail(it, at, "a control character in a string");
        at = unescape(it, at, &out);
        if (at) at = read_plain(it, at, &out);
    }
    return NULL;
}

ALWAYS_INLINE place read_string(reader *it, place at, bool is_key) {
    uint8_t *out = it->tape->bytes + it->tape->bytes_len;
    at = read_plain(it, at + 1, &out);
    return at < it->end && *at == '"' ? end_string(it, at, out, is_key) : read_escapes(it, at, out, is_key);
}

/* VALUES */

static bool is_open(const jdoc_tape *tape) { return tape->top != NO_EVENT; }

static inline place skip_space(const reader *it, place at) {
    while (at < it->end && *at <= ' ' && (*at == ' ' || *at == '\n' || *at == '\r' || *at == '\t')) at++;
    return at;
}

/* The place of the next event, which must not be the end of the text. */
static inline bool has_more(reader *it, place at) {
    it->tape->source = (size_t)(at - it->start);
    return at < it->end || fail(it, at, "the text ends too early");
}

/* Reads a key, the colon and the spaces after it. */
static inline place read_key(reader *it, place at) {
    if (!has_more(it, at)) return NULL;
    if (*at != '"') return fail(it, at, "a key is expected");
    at = read_string(it, at, true);
    if (!at) return NULL;
    at = skip_space(it, at);
    if (at == it->end || *at != ':') return fail(it, at, "a colon is expected");
    return skip_space(it, at + 1);
}

static place read_word(reader *it, place at, const char *word, size_t len, uint8_t kind) {
    if ((size_t)(it->end - at) < len || memcmp(at, word, len)) return fail(it, at, "a value is expected");
    return jdoc_tape_next(it->tape, kind) ? at + len : NULL;
}

/* Reads a scalar, or the bracket that begins a container. */
static inline place read_value(reader *it, place at) {
    if (!has_more(it, at)) return NULL;
    switch (*at) {
    case '{':
    case '[':
        return jdoc_tape_open(it->tape, *at == '{') ? at + 1 : NULL;
    case '"':
        return read_string(it, at, false);
    case 'n':
        return read_word(it, at, "null", 4, JDOC_TEXT_NULL);
    case 't':
        return read_word(it, at, "true", 4, JDOC_TEXT_TRUE);
    case 'f':
        return read_word(it, at, "false", 5, JDOC_TEXT_FALSE);
    default:
        if (*at != '-' && !is_digit(it, at)) return fail(it, at, "a value is expected");
        return read_number(it, at);
    }
}

/* Reads what is between two values: brackets that end containers, and a comma if the place is not the beginning of a
 * container. */
static inline place read_between(reader *it, place at, bool begins) {
    while (is_open(it->tape)) {
        bool object = it->tape->in_object;
        if (at == it->end) return fail(it, at, "the text ends too early");
        if (*at == (object ? '}' : ']')) {
            if (!jdoc_tape_close(it->tape)) return NULL;
            begins = false;
            at = skip_space(it, at + 1);
            continue;
        }
        if (begins) return at;
        if (*at == ',') return skip_space(it, at + 1);
        return fail(it, at, object ? "a comma or } is expected" : "a comma or ] is expected");
    }
    return at;
}

/* Makes the document of what was read. jdoc_write_read returns JDOC_NOT_UTF8, since it looks for the byte. */
static uint32_t make(jdoc_tape *tape) {
    jdoc_tape_make(tape);
    return tape->status == JDOC_NOT_UTF8 ? JDOC_OK : tape->status;
}

/* Reads one value and the spaces around it. */
static place read_all(reader *it) {
    place at = skip_space(it, it->start);
    jdoc_tape_clear(it->tape);
    if (!jdoc_tape_room(it->tape, (size_t)(it->end - at))) return NULL;
    do {
        size_t depth = it->tape->top;
        if (it->tape->in_object && !(at = read_key(it, at))) return NULL;
        at = read_value(it, at);
        if (at) at = read_between(it, skip_space(it, at), depth != it->tape->top);
    } while (at && is_open(it->tape));
    return at;
}

uint32_t jdoc_read_text(jdoc_tape *tape, const char *text, size_t len) {
    reader it = {tape, (place)text, (place)text + len};
    place at = read_all(&it);
    if (at && at < it.end) at = fail(&it, at, "text after the value");
    return at ? make(tape) : tape->status;
}

uint32_t jdoc_read_next(jdoc_tape *tape, const char *text, size_t len, size_t *used) {
    reader it = {tape, (place)text, (place)text + len};
    place at = skip_space(&it, it.start);
    uint32_t status;
    if (at == it.end) return jdoc_tape_clear(tape), *used = len, JDOC_NONE;
    at = read_all(&it);
    status = at ? make(tape) : tape->status;
    *used = status == JDOC_OK ? (size_t)(at - it.start) : tape->at;
    return status;
}

/* THE FIRST BYTE THAT IS NOT UTF-8 */

static size_t first_wrong_byte(const char *text, size_t len) {
    const uint8_t *start = (const uint8_t *)text, *at = start, *end = start + len;
    size_t step = 1;
    while (at < end && step) at += step = character(at, end);
    return (size_t)(at - start);
}

uint32_t jdoc_write_read(jdoc_tape *tape, const char *text, size_t len, uint8_t *out) {
    uint32_t status = jdoc_tape_write(tape, out);
    if (status == JDOC_NOT_UTF8) tape->at = first_wrong_byte(text, len);
    return status;
}

uint32_t jdoc_from_text(jdoc_tape *tape, const char *text, size_t len, uint8_t **out, size_t *out_len) {
    uint32_t status = jdoc_read_text(tape, text, len);
    *out = NULL, *out_len = 0;
    if (status != JDOC_OK) return status;
    *out_len = jdoc_tape_size(tape);
    *out = tape->heap.resize(NULL, *out_len);
    if (!*out) return jdoc_tape_fail(tape, JDOC_OUT_OF_MEMORY, NULL, 0), tape->status;
    status = jdoc_write_read(tape, text, len, *out);
    if (status == JDOC_OK) return status;
    tape->heap.release(*out);
    *out = NULL, *out_len = 0;
    return status;
}
