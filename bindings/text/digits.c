/* Numbers: a payload of the format to JSON text. */
#include "format.h"

typedef unsigned __int128 wide;

/* A number: digits / 10^scale, which is less than 0 if it is negative. */
typedef struct number {
    bool negative;
    size_t scale;
    wide digits;
} number;

enum { MOST_DIGITS = 39, CHUNK_DIGITS = 19, INTEGER_DIGITS = 20 };
static const uint64_t CHUNK = 10000000000000000000u;

/* The integer of 1, 2, 4 or 8 bytes, of which the first has the sign. */
static inline int64_t take_integer(const uint8_t *at, size_t width) {
    uint64_t word = width < 8 ? take_short(at, width) : take_word(at);
    return (int64_t)__builtin_bswap64(word) >> (64 - 8 * width);
}

static inline bool is_integer(const uint8_t *payload, size_t len) {
    return (len == 2 || len == 3 || len == 5 || len == 9) && (payload[0] == 0x40 || payload[0] == 0x50);
}

static bool read_decimal(const uint8_t *payload, size_t len, number *it) {
    int64_t high;
    if ((len != 10 && len != 18) || payload[0] != 0x70) return false;
    high = take_integer(payload + 1, 8);
    it->scale = payload[len - 1];
    it->negative = high < 0;
    it->digits = len == 10 ? (wide)high : (wide)(uint64_t)high << 64 | __builtin_bswap64(take_word(payload + 9));
    if (it->negative) it->digits = -it->digits;
    return true;
}

/* Writes digits so that they end before `end`, two at a time, and returns the first one. */
static inline char *digits_before(uint64_t value, char *end) {
    static const char pairs[] =
        "00010203040506070809101112131415161718192021222324252627282930313233343536373839404142434445464748495051"
        "525354555657585960616263646566676869707172737475767778798081828384858687888990919293949596979899";
    for (; value >= 100; value /= 100) memcpy(end -= 2, pairs + 2 * (value % 100), 2);
    if (value < 10) return *--end = (char)('0' + value), end;
    return memcpy(end - 2, pairs + 2 * value, 2);
}

/* Writes the digits of a number that 64 bits need not hold in the same way. */
static char *wide_before(wide value, char *end) {
    char *first, *chunk = end - CHUNK_DIGITS;
    if (value <= UINT64_MAX) return digits_before((uint64_t)value, end);
    first = digits_before((uint64_t)(value % CHUNK), end);
    memset(chunk, '0', (size_t)(first - chunk));
    return digits_before((uint64_t)(value / CHUNK), chunk);
}

/* Writes digits with a point before the last `scale` of them, and returns the end. */
static char *put_point(char *to, const char *digits, size_t count, size_t scale) {
    size_t whole = count > scale ? count - scale : 0, zeros = count > scale ? 0 : scale - count;
    if (!whole) *to++ = '0';
    memcpy(to, digits, whole);
    to[whole] = '.';
    memset(to + whole + 1, '0', zeros);
    memcpy(to + whole + 1 + zeros, digits + whole, count - whole);
    return to + whole + 1 + scale;
}

static size_t decimal_text(const uint8_t *payload, size_t len, char *out) {
    char digits[MOST_DIGITS], *first, *end = digits + sizeof digits, *to = out;
    number it = {false, 0, 0};
    if (!read_decimal(payload, len, &it) && (len != 1 || payload[0] != 0)) return 0;
    first = wide_before(it.digits, end);
    if (it.negative) *to++ = '-';
    if (it.scale && it.digits) return (size_t)(put_point(to, first, (size_t)(end - first), it.scale) - out);
    memcpy(to, first, (size_t)(end - first));
    return (size_t)(to + (end - first) - out);
}

bool jdoc_number_i64(const uint8_t *payload, size_t len, int64_t *value) {
    if (!is_integer(payload, len)) return len == 1 && payload[0] == 0 && (*value = 0, true);
    *value = take_integer(payload + 1, len - 1);
    if (payload[0] == 0x40) return true;
    if (len < 9) *value &= INT64_MAX >> (71 - 8 * len);
    return *value >= 0;
}

size_t jdoc_number_text(const uint8_t *payload, size_t len, char *out) {
    char digits[2 * INTEGER_DIGITS], *first, *to = out;
    int64_t value;
    uint64_t size;
    if (!is_integer(payload, len)) return decimal_text(payload, len, out);
    value = take_integer(payload + 1, len - 1);
    if (payload[0] == 0x50)
        size = (uint64_t)value & UINT64_MAX >> (72 - 8 * len);
    else
        size = value < 0 ? -(uint64_t)value : (uint64_t)value;
    if (payload[0] == 0x40 && value < 0) *to++ = '-';
    first = digits_before(size, digits + INTEGER_DIGITS);
    memcpy(to, first, INTEGER_DIGITS); /* more than there are, which is faster */
    return (size_t)(to - out) + (size_t)(digits + INTEGER_DIGITS - first);
}
