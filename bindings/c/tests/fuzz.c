/* A program for libFuzzer or AFL++: each input is a call of calls.h and its arguments, in memory between pages that cannot be
 * accessed. A call that fails must leave its buffer as it was; one that returns bytes must return them again in a buffer of just their
 * length, and their length in one that is a byte too short. `make fuzz` makes it, docs/HACKING.md has the commands, and
 * `tools/fuzz.py --corpus` writes inputs to begin with. */
#define _DEFAULT_SOURCE
#define main run_rows
#include "rows.c"
#undef main
#include <sys/mman.h>
#include <unistd.h>

/* An input begins with: the number of the call; bits (1: the flag, 2: memory begins at a page, otherwise it ends at one, 4: offsets
 * as they are); the scale; eight bytes of a number; and the lengths of the second and the third argument, two bytes each, which the
 * last bytes hold. The first argument is what precedes them. */
enum { ROOM = 1 << 14, HEAD = 15, AREAS = 6, STATUSES = 64, CALLS = sizeof calls / sizeof *calls };
enum { FLAG = 1, AT_FRONT = 2, ANY_OFFSETS = 4 };

/* What was reached, for libFuzzer: each status of each call, with the magnitude of the length of its result. */
__attribute__((section("__libfuzzer_extra_counters"), used)) static uint8_t reached[CALLS][STATUSES][16];

static uint8_t *areas[AREAS];

/* The letters of events in handles.h. The calls there that build documents take these alone. */
static const char EVENTS[] = "[{.abkyntfiumsx";

static bool takes_events(const struct row *row) { return !strncmp(row->call->name, "by_event", 8); }

static void make_areas(void) {
    size_t page = (size_t)sysconf(_SC_PAGESIZE);
    for (int i = 0; i < AREAS; i++) {
        uint8_t *all = mmap(NULL, ROOM + 2 * page, PROT_NONE, MAP_PRIVATE | MAP_ANONYMOUS, -1, 0);
        if (all == MAP_FAILED || mprotect(all + page, ROOM, PROT_READ | PROT_WRITE)) abort();
        areas[i] = all + page;
    }
}

/* Memory of this length next to a page that cannot be accessed. */
static uint8_t *guarded(int area, size_t len, bool at_front) { return areas[area] + (at_front ? 0 : ROOM - len); }

static struct bytes placed(int area, const uint8_t *from, size_t len, bool at_front) {
    struct bytes made = {guarded(area, len, at_front), len};
    if (len) memcpy(made.at, from, len);
    return made;
}

/* A column of up to four rows: in order, or as the bytes say. */
static struct column cut(int area, struct bytes bytes, int bits) {
    size_t count = 1 + bytes.len % 4, size = (count + 1) * sizeof(uint64_t);
    struct column made = {bytes, (uint64_t *)(void *)guarded(area, size, bits & AT_FRONT), count + 1};
    for (size_t i = 0; i <= count; i++)
        made.offsets[i] = bits & ANY_OFFSETS && i < bytes.len ? bytes.at[i] : bytes.len * i / count;
    return made;
}

static void must_hold(bool holds, const struct row *row, const char *what) {
    if (holds) return;
    fprintf(stderr, "jdoc_%s: %s\n", row->call->name, what);
    abort();
}

/* Runs a call with a buffer of this size, whose other bytes must keep their values. */
static struct result run_in(const struct row *row, uint8_t *out, size_t size) {
    char name[40];
    size_t name_len;
    memset(out, FILL, size);
    struct result r = run(row, out, size);
    must_hold(r.status < STATUSES && !jdoc_status_name(r.status, name, sizeof name, &name_len), row, "no status");
    if (!gives_bytes(row)) return r;
    size_t written = r.status == JDOC_OK ? r.len : 0;
    must_hold(written <= size && is_filled(out + written, size - written), row, "the rest of the buffer is changed");
    return r;
}

/* Runs a call again that returned these bytes. (Positions are in memory for eight bytes.) */
static void run_again(const struct row *row, const uint8_t *bytes, size_t len, bool at_front) {
    uint8_t *out = guarded(5, len, at_front);
    struct result r = run_in(row, out, len);
    must_hold(r.status == JDOC_OK && r.len == len && (!len || !memcmp(out, bytes, len)), row, "another result in less memory");
    if (!len) return;
    out = guarded(5, (len + 7) / 8 * 8, at_front);
    r = run_in(row, out, len - 1);
    must_hold(r.status == JDOC_BUFFER_TOO_SMALL && r.len == len, row, "a byte too little suffices");
}

/* The length of an argument of this letter. (handles.h copies paths, and lists as many events as it has room for.) */
static size_t cut_len(const struct row *row, char letter, size_t len) {
    size_t most = letter != 't' ? ROOM : takes_events(row) ? sizeof EVENTS * 64 : TEXT_ROOM;
    return len < most ? len : most;
}

static struct row row_of(const uint8_t *input, size_t len) {
    struct row row = {.call = &calls[input[0] % CALLS], .flag = input[1] & FLAG, .scale = input[2]};
    memcpy(&row.whole, input + 3, sizeof row.whole);
    memcpy(&row.number, input + 3, sizeof row.number);
    bool at_front = input[1] & AT_FRONT;
    size_t left = len - HEAD, second = (size_t)(input[11] | input[12] << 8), third = (size_t)(input[13] | input[14] << 8);
    second = second < left ? second : left;
    third = third < left - second ? third : left - second;
    const size_t lens[] = {left - second - third, second, third};
    const uint8_t *from = input + HEAD;
    int at = 0, bytes = 0, columns = 0;
    for (const char *letter = letters[row.call->shape]; *letter && !isupper((unsigned char)*letter); letter++) {
        if (!strchr("btcn", *letter)) continue;
        struct bytes part = placed(at, from, cut_len(&row, *letter, lens[at]), at_front);
        for (size_t i = 0; *letter == 't' && takes_events(&row) && i < part.len; i++)
            part.at[i] = (uint8_t)EVENTS[part.at[i] % (sizeof EVENTS - 1)];
        if (strchr("bt", *letter)) row.bytes[bytes++] = part;
        if (strchr("cn", *letter)) row.columns[columns] = cut(3 + columns, part, input[1]), columns++;
        from += lens[at++];
    }
    return row;
}

int LLVMFuzzerTestOneInput(const uint8_t *input, size_t len);

int LLVMFuzzerTestOneInput(const uint8_t *input, size_t len) {
    static uint8_t kept[ROOM];
    if (!areas[0]) make_areas();
    if (len < HEAD || len > ROOM) return 0;
    bool at_front = input[1] & AT_FRONT;
    struct row row = row_of(input, len);
    struct result r = run_in(&row, guarded(5, ROOM, at_front), ROOM);
    int magnitude = 0;
    for (size_t it = r.status == JDOC_OK && gives_bytes(&row) ? r.len : r.truth; it && magnitude < 15; it /= 2) magnitude++;
    reached[row.call - calls][r.status][magnitude] = 1;
    if (r.status != JDOC_OK || !gives_bytes(&row)) return 0;
    memcpy(kept, areas[5], r.len);
    run_again(&row, kept, r.len, at_front);
    return 0;
}
