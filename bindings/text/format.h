/* What the files here share: words of the format (docs/FORMAT.md), and text by words and blocks. In words of
 * eight bytes the first byte is the lowest. */
#ifndef JDOC_TEXT_FORMAT_H
#define JDOC_TEXT_FORMAT_H

#include "jdoc_text.h"

#include <string.h>

#define ALWAYS_INLINE static inline __attribute__((always_inline))

#define HEADER_SCALAR 0x20000000u
#define HEADER_OBJECT 0x40000000u
#define HEADER_ARRAY  0x80000000u
#define HEADER_KIND   0xe0000000u
#define COUNT_LIMIT   0x1fffffffu
#define CONTENT_LIMIT 0x0fffffffu
#define ENTRY_STRING  0x10000000u

static inline uint32_t take32(const uint8_t *at) {
    uint32_t word;
    memcpy(&word, at, sizeof word);
    return __builtin_bswap32(word);
}

static inline uint64_t take_word(const void *at) {
    uint64_t word;
    memcpy(&word, at, sizeof word);
    return word;
}

/* The 0 to 7 bytes from a place on, and zeros after them. */
static inline uint64_t take_short(const uint8_t *at, size_t len) {
    uint64_t word = len & 1 ? at[len - 1] : 0;
    uint32_t four;
    uint16_t two;
    if (len & 2) memcpy(&two, at + (len & 4), sizeof two), word = word << 16 | two;
    if (len & 4) memcpy(&four, at, sizeof four), word = word << 32 | four;
    return word;
}

/* Sixteen bytes of text. */
typedef uint8_t block __attribute__((vector_size(16)));
typedef int8_t signed_block __attribute__((vector_size(16)));

static inline block whole_block(const uint8_t *at) {
    typedef block unaligned __attribute__((aligned(1), may_alias));
    return *(const unaligned *)at;
}

static inline void put_block(void *to, block it) { memcpy(to, &it, sizeof it); }

/* The first 16 bytes from a place on, or if there are fewer those, and zeros after them. */
static inline block take_block(const uint8_t *at, size_t len) {
    uint64_t words[2] = {0, 0};
    block it;
    if (len >= sizeof it) return whole_block(at);
    words[0] = len >= 8 ? take_word(at) : take_short(at, len);
    if (len > 8) words[1] = take_short(at + 8, len - 8);
    memcpy(&it, words, sizeof it);
    return it;
}

/* The number of bytes that are 255 before the first one that is 0, or 16. */
static inline size_t marked_bytes(block marks) {
#ifdef __SSE2__
    typedef char chars __attribute__((vector_size(16)));
    return (size_t)__builtin_ctz(~(unsigned)__builtin_ia32_pmovmskb128((chars)marks));
#else
    uint64_t halves[2];
    memcpy(halves, &marks, sizeof halves);
    if (~halves[0]) return (size_t)__builtin_ctzll(~halves[0]) / 8;
    return ~halves[1] ? 8 + (size_t)__builtin_ctzll(~halves[1]) / 8 : sizeof marks;
#endif
}

/* The number of bytes before the first quotation mark, backslash or control character, or 16. */
static inline size_t plain_bytes(block it) {
    return marked_bytes(~((block)(it == '"') | (block)(it == '\\') | (block)(it < 0x20)));
}

/* The number of bytes before the first one that is not plain or not ASCII, or 16. */
static inline size_t plain_ascii(block it) {
    return marked_bytes(~((block)(it == '"') | (block)(it == '\\')) & (block)((signed_block)it > 0x1f));
}

/* Copies text up to its end or to the first byte that is not plain, and returns how much. `to` has room for a block
 * more. */
static inline size_t copy_plain(void *to, const uint8_t *at, size_t len) {
    for (size_t done = 0;; done += sizeof(block)) {
        block it = take_block(at + done, len - done); /* a zero after the end is not plain */
        size_t plain = plain_bytes(it);
        put_block((uint8_t *)to + done, it);
        if (plain < sizeof it) return done + plain;
    }
}

/* Copies text like copy_plain, and only up to the first byte that is not ASCII. */
static inline size_t copy_ascii(void *to, const uint8_t *at, size_t len) {
    for (size_t done = 0;; done += sizeof(block)) {
        block it = take_block(at + done, len - done);
        size_t plain = plain_ascii(it);
        put_block((uint8_t *)to + done, it);
        if (plain < sizeof it) return done + plain;
    }
}

/* The length of the character at a place, 0 if it is not UTF-8 (RFC 3629). */
static inline size_t character(const uint8_t *at, const uint8_t *end) {
    size_t len = *at < 0x80 ? 1 : *at < 0xc2 ? 0 : *at < 0xe0 ? 2 : *at < 0xf0 ? 3 : *at < 0xf5 ? 4 : 0;
    if (len < 2 || (size_t)(end - at) < len) return len < 2 ? len : 0;
    for (size_t i = 1; i < len; i++)
        if ((at[i] & 0xc0) != 0x80) return 0;
    if ((*at == 0xe0 && at[1] < 0xa0) || (*at == 0xed && at[1] > 0x9f)) return 0;
    if ((*at == 0xf0 && at[1] < 0x90) || (*at == 0xf4 && at[1] > 0x8f)) return 0;
    return len;
}

#endif
