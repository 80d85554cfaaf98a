/* loops.h - what a program writes that has no library: loops over the entry words of docs/FORMAT.md, safe on any bytes, for integers
 * of 64 bits. bench.c compares the library's calls with them. */
#ifndef LOOPS_H
#define LOOPS_H

#include <stdbool.h>
#include <stddef.h>
#include <stdint.h>
#include <string.h>

enum { TEXT_TYPE = 1, NUMBER_TYPE = 2, CONTAINER_TYPE = 5 };

/* An element of an array, or a value of an object. */
struct value {
    uint32_t type;
    const uint8_t *content;
    size_t len;
};

/* The elements of an array that are left. */
struct elements {
    const uint8_t *words, *words_end, *contents, *end;
};

static inline uint32_t word_at(const uint8_t *at) {
    return (uint32_t)at[0] << 24 | (uint32_t)at[1] << 16 | (uint32_t)at[2] << 8 | at[3];
}

/* The count of a container of this type, or false if the entry words do not fit. An object has two words for each member. */
static inline bool count_of(const uint8_t *bytes, size_t len, uint32_t header, size_t words_each, size_t *count) {
    if (len < 4 || (word_at(bytes) & 0xe0000000) != header) return false;
    *count = word_at(bytes) & 0x1fffffff;
    return *count <= (len - 4) / 4 / words_each;
}

static inline struct elements elements_of(const uint8_t *array, size_t len) {
    size_t count;
    if (!count_of(array, len, 0x80000000, 1, &count)) return (struct elements){0};
    const uint8_t *contents = array + 4 + 4 * count;
    return (struct elements){array + 4, contents, contents, array + len};
}

static inline bool next_element(struct elements *left, struct value *found) {
    if (left->words == left->words_end) return false;
    uint32_t word = word_at(left->words);
    size_t len = word & 0x0fffffff;
    if (len > (size_t)(left->end - left->contents)) return false;
    *found = (struct value){word >> 28, left->contents, len};
    left->words += 4, left->contents += len;
    return true;
}

/* Finds the value of a key: adds up the lengths of the entries before it, and compares the keys of its length. */
static inline bool find_member(const uint8_t *object, size_t len, const char *key, size_t key_len, struct value *found) {
    size_t count, place, start = 0;
    if (!count_of(object, len, 0x40000000, 2, &count)) return false;
    const uint8_t *words = object + 4, *contents = words + 8 * count;
    size_t room = (size_t)(object + len - contents);
    for (place = 0;; place++) {
        if (place == count) return false;
        size_t entry_len = word_at(words + 4 * place) & 0x0fffffff;
        if (entry_len > room - start) return false;
        if (entry_len == key_len && !memcmp(contents + start, key, key_len)) break;
        start += entry_len;
    }
    for (size_t before = place; before < count + place; before++) {
        size_t entry_len = word_at(words + 4 * before) & 0x0fffffff;
        if (entry_len > room - start) return false;
        start += entry_len;
    }
    uint32_t word = word_at(words + 4 * (count + place));
    size_t value_len = word & 0x0fffffff;
    if (value_len > room - start) return false;
    *found = (struct value){word >> 28, contents + start, value_len};
    return true;
}

/* Reads an integer of 1, 2, 4 or 8 bytes, or zero. */
static inline bool int_of(const struct value *value, int64_t *number) {
    const uint8_t *at = value->content;
    if (value->type != NUMBER_TYPE || value->len == 0) return false;
    if (value->len == 1) return *number = 0, at[0] == 0;
    if ((at[0] != 0x40 && at[0] != 0x50) || value->len > 9) return false;
    uint64_t bits = at[0] == 0x40 && at[1] >> 7 ? UINT64_MAX : 0;
    for (size_t i = 1; i < value->len; i++) bits = bits << 8 | at[i];
    *number = (int64_t)bits;
    return at[0] == 0x40 || *number >= 0;
}

/* The integer that an object has for a key. */
static inline bool member_int(const struct value *item, const char *key, int64_t *number) {
    struct value member;
    return item->type == CONTAINER_TYPE && find_member(item->content, item->len, key, strlen(key), &member) &&
           int_of(&member, number);
}

/* Whether an object has a key. */
static inline bool has_member(const struct value *item, const char *key) {
    struct value member;
    return item->type == CONTAINER_TYPE && find_member(item->content, item->len, key, strlen(key), &member);
}

/* Whether the string that an object has for a key begins with another one, or equals it. */
static inline bool member_begins(const struct value *item, const char *key, const char *text, bool is_whole) {
    struct value member;
    size_t len = strlen(text);
    return item->type == CONTAINER_TYPE && find_member(item->content, item->len, key, strlen(key), &member) &&
           member.type == TEXT_TYPE && (is_whole ? member.len == len : member.len >= len) &&
           !memcmp(member.content, text, len);
}

/* Whether a value of an object is this integer. */
static inline bool any_member_is(const struct value *item, int64_t wanted) {
    size_t count, start = 0;
    if (item->type != CONTAINER_TYPE || !count_of(item->content, item->len, 0x40000000, 2, &count)) return false;
    const uint8_t *words = item->content + 4, *contents = words + 8 * count;
    size_t room = (size_t)(item->content + item->len - contents);
    for (size_t place = 0; place < 2 * count; place++) {
        uint32_t word = word_at(words + 4 * place);
        struct value value = {word >> 28, contents + start, word & 0x0fffffff};
        int64_t number;
        if (value.len > room - start) return false;
        if (place >= count && int_of(&value, &number) && number == wanted) return true;
        start += value.len;
    }
    return false;
}

/* The position of the first byte that is not ASCII, or the length. */
static inline size_t ascii_len(const uint8_t *text, size_t len) {
    size_t at = 0;
    for (uint64_t eight; at + 8 <= len && (memcpy(&eight, text + at, 8), !(eight & 0x8080808080808080)); at += 8) {}
    while (at < len && text[at] < 0x80) at++;
    return at;
}

static inline bool is_utf8(const uint8_t *text, size_t len) {
    static const uint32_t least[4] = {0, 0x80, 0x800, 0x10000};
    for (size_t at = ascii_len(text, len); at < len; at += ascii_len(text + at, len - at)) {
        int more = text[at] >= 0xf0 ? 3 : text[at] >= 0xe0 ? 2 : 1;
        uint32_t letter = text[at] & (0x3f >> more);
        if (text[at] < 0xc0 || text[at] > 0xf7 || len - at <= (size_t)more) return false;
        for (int i = 1; i <= more; i++) {
            if ((text[at + (size_t)i] & 0xc0) != 0x80) return false;
            letter = letter << 6 | (text[at + (size_t)i] & 0x3f);
        }
        if (letter < least[more] || letter > 0x10ffff || (letter >= 0xd800 && letter < 0xe000)) return false;
        at += (size_t)more + 1;
    }
    return true;
}

static inline bool is_number(const uint8_t *at, size_t len) {
    if (len == 0 || at[0] == 0) return len == 1;
    if (at[0] == 0x70) return len == 10 || len == 18;
    return (at[0] == 0x40 || at[0] == 0x50) && (len == 2 || len == 3 || len == 5 || len == 9);
}

static inline bool is_value(const struct value *value);

/* Whether the values are valid and fill the contents. */
static inline bool are_values(const uint8_t *words, size_t count, const uint8_t *contents, const uint8_t *end) {
    for (size_t i = 0; i < count; i++) {
        uint32_t word = word_at(words + 4 * i);
        struct value value = {word >> 28, contents, word & 0x0fffffff};
        if (value.len > (size_t)(end - contents) || !is_value(&value)) return false;
        contents += value.len;
    }
    return contents == end;
}

/* Whether the keys are strings in ascending order; *contents is then where the values begin. */
static inline bool are_keys(const uint8_t *words, size_t count, const uint8_t **contents, const uint8_t *end) {
    const uint8_t *last = NULL;
    size_t last_len = 0;
    for (size_t i = 0; i < count; i++) {
        uint32_t word = word_at(words + 4 * i);
        size_t len = word & 0x0fffffff;
        if (word >> 28 != TEXT_TYPE || len > (size_t)(end - *contents) || !is_utf8(*contents, len)) return false;
        if (last) {
            int order = memcmp(last, *contents, last_len < len ? last_len : len);
            if (order > 0 || (order == 0 && last_len >= len)) return false;
        }
        last = *contents, last_len = len, *contents += len;
    }
    return true;
}

static inline bool is_container(const uint8_t *bytes, size_t len) {
    size_t count;
    if (count_of(bytes, len, 0x80000000, 1, &count))
        return are_values(bytes + 4, count, bytes + 4 + 4 * count, bytes + len);
    if (!count_of(bytes, len, 0x40000000, 2, &count)) return false;
    const uint8_t *contents = bytes + 4 + 8 * count;
    return are_keys(bytes + 4, count, &contents, bytes + len) &&
           are_values(bytes + 4 + 4 * count, count, contents, bytes + len);
}

/* Whether a value is valid and no extension value. */
static inline bool is_value(const struct value *value) {
    switch (value->type) {
    case 0:
    case 3:
    case 4: return value->len == 0;
    case TEXT_TYPE: return is_utf8(value->content, value->len);
    case NUMBER_TYPE: return is_number(value->content, value->len);
    case CONTAINER_TYPE: return is_container(value->content, value->len);
    default: return false;
    }
}

/* The next three write the sortable key of a string, of an integer and of a valid document without decimals, of at most 255 levels, and
 * return the position after it. */
static inline uint8_t *put_text_key(uint8_t *out, const uint8_t *text, size_t len) {
    *out++ = 5;
    for (size_t i = 0; i < len; i++) {
        if (text[i] < 2) *out++ = 1;
        *out++ = text[i] + (text[i] < 2);
    }
    *out++ = 0;
    return out;
}

static inline uint8_t *put_int_key(uint8_t *out, int64_t number) {
    uint64_t left = number < 0 ? -(uint64_t)number : (uint64_t)number;
    uint8_t digits[20], turn = number < 0 ? 0xff : 0;
    int count = 0, zeros = 0;
    *out++ = 4;
    if (left == 0) return *out++ = 0x80, out;
    for (; left; left /= 10) digits[count++] = (uint8_t)(left % 10);
    while (digits[zeros] == 0) zeros++;
    *out++ = number < 0 ? 0x7f : 0x81;
    *out++ = (uint8_t)((count + 1000) >> 8) ^ turn, *out++ = (uint8_t)(count + 1000) ^ turn;
    for (int i = count - 1; i >= zeros; i--) *out++ = (digits[i] + 1) ^ turn;
    *out++ = turn;
    return out;
}

static inline uint8_t *put_key(uint8_t *out, const struct value *value, uint8_t depth) {
    static const uint8_t types[5] = {8, 5, 4, 2, 3};
    int64_t number = 0;
    size_t count;
    *out++ = depth;
    if (value->type == TEXT_TYPE) return put_text_key(out, value->content, value->len);
    if (value->type == NUMBER_TYPE) return (void)int_of(value, &number), put_int_key(out, number);
    if (value->type != CONTAINER_TYPE) return *out++ = types[value->type], out;
    bool is_object = count_of(value->content, value->len, 0x40000000, 2, &count);
    if (!is_object) count = word_at(value->content) & 0x1fffffff;
    const uint8_t *words = value->content + 4, *keys = words + (is_object ? 8 : 4) * count, *contents = keys;
    for (size_t i = 0; is_object && i < count; i++) contents += word_at(words + 4 * i) & 0x0fffffff;
    *out++ = is_object ? 6 : 7;
    for (size_t i = 0; i < count; i++) {
        uint32_t word = word_at(words + 4 * (is_object ? count + i : i));
        struct value inner = {word >> 28, contents, word & 0x0fffffff};
        if (is_object) {
            size_t len = word_at(words + 4 * i) & 0x0fffffff;
            *out++ = depth + 1;
            out = put_text_key(out, keys, len), keys += len;
        }
        out = put_key(out, &inner, depth + 1), contents += inner.len;
    }
    return out;
}

/* Writes a value as a document. False: the buffer is too small. */
static inline bool put_value(const struct value *value, uint8_t *out, size_t out_size, size_t *out_len) {
    bool is_container = value->type == CONTAINER_TYPE;
    *out_len = value->len + (is_container ? 0 : 8);
    if (*out_len > out_size) return false;
    if (!is_container) {
        uint32_t word = value->type << 28 | (uint32_t)value->len;
        memcpy(out, (uint8_t[]){0x20, 0, 0, 0, word >> 24, word >> 16 & 255, word >> 8 & 255, word & 255}, 8);
        out += 8;
    }
    memcpy(out, value->content, value->len);
    return true;
}

#endif
