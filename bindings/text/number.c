/* Numbers: text to an event. */
#include "tape.h"

typedef unsigned __int128 wide;

#define TOP         ((wide)1 << 127) /* the largest magnitude of a negative number */
#define SCALE_LIMIT 255

/* A number that is being read: digits * 10^exponent. */
typedef struct number {
    bool negative, whole, point, full;
    bool lost;      /* a digit other than 0 is not in `digits` */
    unsigned next;  /* the first digit that is not in `digits` */
    unsigned count; /* whether there was a digit */
    wide digits;
    int64_t exponent;
} number;

static void add_digit(number *it, unsigned digit) {
    const wide tenth = (TOP - 1) / 10;
    unsigned last = (unsigned)((TOP - 1) % 10) + it->negative;
    it->count = 1;
    if (!it->full && (it->digits < tenth || (it->digits == tenth && digit <= last))) {
        it->digits = it->digits * 10 + digit;
        it->exponent -= it->point;
        return;
    }
    if (!it->full) it->next = digit;
    it->full = true;
    it->lost |= digit != 0;
    it->exponent += !it->point;
}

/* The exponent of a number from its sign on, held below 10^18, or false. */
static bool read_exponent(const char *at, const char *end, int64_t *exponent) {
    bool down = at < end && *at == '-';
    int64_t value = 0;
    at += at < end && (*at == '-' || *at == '+');
    if (at == end) return false;
    for (; at < end; at++) {
        if (*at < '0' || *at > '9') return false;
        if (value < 100000000000000000) value = value * 10 + (*at - '0');
    }
    *exponent += down ? -value : value;
    return true;
}

static bool read_number(const char *at, const char *end, number *it) {
    it->negative = at < end && *at == '-';
    it->whole = true;
    at += at < end && (*at == '-' || *at == '+');
    for (; at < end && *at != 'e' && *at != 'E'; at++) {
        if (*at == '.' && !it->point) {
            it->point = true, it->whole = false;
            continue;
        }
        if (*at < '0' || *at > '9') return false;
        add_digit(it, (unsigned)(*at - '0'));
    }
    if (!it->count) return false;
    if (at == end) return true;
    it->whole = false;
    return read_exponent(at + 1, end, &it->exponent);
}

/* Takes digits off the end until the scale fits. */
static void cut_scale(number *it) {
    while (it->exponent < -SCALE_LIMIT && it->digits) {
        it->next = (unsigned)(it->digits % 10);
        it->lost |= it->next != 0;
        it->digits /= 10;
        it->exponent++;
    }
    if (it->exponent < -SCALE_LIMIT) it->next = 0;
}

/* The limit ends in 7 or 8: one digit less of it is rounded up too. */
static bool round_up(number *it, wide limit) {
    bool at_limit = it->digits == limit;
    if (at_limit && it->exponent >= 0) return false;
    it->digits = (at_limit ? limit / 10 : it->digits) + 1;
    it->exponent += at_limit;
    return true;
}

/* Brings the exponent to -255..0. False: the number is too large. */
static bool fit(number *it) {
    wide limit = TOP - !it->negative;
    if (!it->digits && !it->lost) return true;
    cut_scale(it);
    if (it->lost && it->next >= 5 && !round_up(it, limit)) return false;
    for (; it->exponent > 0 && it->digits; it->exponent--) {
        if (it->digits > limit / 10) return false;
        it->digits *= 10;
    }
    return true;
}

/* Reads a number's text into an event. False: there is none. */
static bool read_event(const char *text, size_t len, bool round, jdoc_text_event *event) {
    number it = {0};
    bool narrow;
    wide value;
    if (!read_number(text, text + len, &it) || !fit(&it) || (it.lost && !round)) return false;
    narrow = it.digits <= INT64_MAX || (it.negative && it.digits == (wide)1 << 63);
    value = it.negative ? -it.digits : it.digits;
    event->scale = it.digits ? (uint8_t)-it.exponent : 0;
    event->low = (uint64_t)value;
    event->high = narrow ? (int64_t)value : (int64_t)(value >> 64);
    event->kind = it.whole && !it.negative && it.digits <= UINT64_MAX ? JDOC_TEXT_UINT64
                  : it.whole && it.negative && narrow                 ? JDOC_TEXT_INT64
                  : narrow                                            ? JDOC_TEXT_DECIMAL64
                                                                      : JDOC_TEXT_DECIMAL128;
    return true;
}

bool jdoc_tape_put_number(jdoc_tape *tape, const char *text, size_t len) {
    jdoc_text_event it, *event;
    if (!read_event(text, len, tape->options & JDOC_ROUND_NUMBERS, &it))
        return jdoc_tape_fail(tape, JDOC_UNSUPPORTED_NUMBER, NULL, tape->source);
    event = jdoc_tape_next(tape, it.kind);
    if (event) *event = it;
    return event;
}

bool jdoc_tape_number(jdoc_tape *tape, const char *text, size_t len) {
    return jdoc_tape_place(tape) && jdoc_tape_put_number(tape, text, len);
}

size_t jdoc_number_payload(const char *text, size_t len, bool round, uint8_t *out) {
    enum { ROOT = 8 }; /* the words before the payload in the document of a number */
    uint8_t document[ROOT + 18];
    jdoc_text_event event;
    size_t made;
    if (!read_event(text, len, round, &event) ||
        jdoc_from_events(NULL, 0, &event, 1, false, document, sizeof document, &made) != JDOC_OK)
        return 0;
    memcpy(out, document + ROOT, made - ROOT);
    return made - ROOT;
}
