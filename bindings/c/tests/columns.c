/* Each call on a column compared with the same call on each of its rows: buffers of every size with guard bytes after them,
 * damaged rows among good ones, offsets that decrease, repeat and exceed the end, and with -DREFUSING each allocation failed in turn.
 * The last line is `N passed, M failed`. */
#include "jdoc.h"
#include "growths.h"

#include <stdio.h>
#include <stdlib.h>
#include <string.h>

enum { FILL = 0xee, GUARD = 4, MOST = 4096, MOST_ROWS = 32 };
#define TEXT(text)  (text), sizeof(text) - 1
#define BYTES(text) (const uint8_t *)(text), sizeof(text) - 1

struct column {
    uint8_t bytes[1024];
    size_t len;
    uint64_t offsets[MOST_ROWS + 1];
    size_t offsets_len;
};

/* [false,10,{"k":"v"}], {"k":5}, no document, [1], a float, nothing, {"k":"a"}, 12.34 and [[1]]. */
static const char *const documents[] = {"8000000330000000200000025000000e500a4000000110000001100000016b76",
                                        "4000000110000001200000026b5005",
                                        "800000",
                                        "80000001200000025001",
                                        "2000000020000009603ff8000000000000",
                                        "",
                                        "4000000110000001100000016b61",
                                        "200000002000000a7000000000000004d202",
                                        "800000015000000a80000001200000025001"};
enum { DOCUMENTS = sizeof documents / sizeof *documents };

static void fill_column(struct column *column) {
    column->len = 0, column->offsets_len = 1, column->offsets[0] = 0;
    for (size_t i = 0; i < DOCUMENTS; i++) {
        for (const char *text = documents[i]; *text; text += 2) {
            unsigned byte;
            if (sscanf(text, "%2x", &byte) == 1) column->bytes[column->len++] = (uint8_t)byte;
        }
        column->offsets[column->offsets_len++] = column->len;
    }
}

/* These documents with offsets that repeat, decrease, or exceed the end, by little and by much. */
static void spoil_column(struct column *column) {
    uint64_t end = column->len;
    const uint64_t more[] = {end, end, 3, 35, end + 1, end, UINT64_MAX, (uint64_t)1 << 63, 0, 32, (uint64_t)1 << 32,
                             32,  47};
    for (size_t i = 0; i < sizeof more / sizeof *more; i++) column->offsets[column->offsets_len++] = more[i];
}

/* The result of one row: its status, and its bytes (those of a Boolean or a number). */
struct cell {
    _Alignas(8) uint8_t bytes[256];
    size_t len;
    uint8_t status;
};

struct rows {
    uint8_t *answers;
    size_t room; /* in places */
    uint8_t *statuses;
    size_t statuses_len;
    size_t done;
};

struct runs {
    uint8_t *out;
    size_t size;
    uint64_t *positions;
    size_t positions_len;
    uint8_t *statuses;
    size_t statuses_len;
    jdoc_progress progress;
};

#define COLUMN column->bytes, column->len, column->offsets + first, column->offsets_len - first
#define ROW    document, len
#define ROWS   rows->statuses, rows->statuses_len, &rows->done
#define RUNS                                                                                                           \
    runs->out, runs->size, runs->positions, runs->positions_len, runs->statuses, runs->statuses_len, &runs->progress
#define CELL      cell->bytes, sizeof cell->bytes, &cell->len
#define TEXT_CELL (char *)cell->bytes, sizeof cell->bytes, &cell->len
typedef uint32_t fixed_fn(const struct column *column, size_t first, struct rows *rows);
typedef uint32_t runs_fn(const struct column *column, size_t first, struct runs *runs);
typedef uint32_t cell_fn(const uint8_t *document, size_t len, struct cell *cell);

#define FIXED(name, size, of_column, of_row)                                                                           \
    static uint32_t name##_column(const struct column *column, size_t first, struct rows *rows) { return of_column; }  \
    static uint32_t name##_row(const uint8_t *document, size_t len, struct cell *cell) {                               \
        cell->len = size;                                                                                              \
        return of_row;                                                                                                 \
    }
FIXED(check, 0, jdoc_column_check(COLUMN, ROWS), jdoc_check(ROW))
FIXED(exists, 1, jdoc_column_exists(COLUMN, TEXT("$.k"), false, rows->answers, rows->room, ROWS),
      jdoc_exists(ROW, TEXT("$.k"), false, cell->bytes))
FIXED(match, 1, jdoc_column_match(COLUMN, TEXT("$.k > 1"), false, rows->answers, rows->room, ROWS),
      jdoc_match(ROW, TEXT("$.k > 1"), false, cell->bytes))
FIXED(match_strict, 1, jdoc_column_match(COLUMN, TEXT("$.k > 1"), true, rows->answers, rows->room, ROWS),
      jdoc_match(ROW, TEXT("$.k > 1"), true, cell->bytes))
FIXED(contains, 1, jdoc_column_contains(COLUMN, BYTES("\x80\0\0\1\x20\0\0\2\x50\1"), rows->answers, rows->room, ROWS),
      jdoc_contains(ROW, BYTES("\x80\0\0\1\x20\0\0\2\x50\1"), cell->bytes))
FIXED(to_i64, 8, jdoc_column_to_i64(COLUMN, (int64_t *)(void *)rows->answers, rows->room, ROWS),
      jdoc_to_i64(ROW, (int64_t *)(void *)cell->bytes))

#define BYTES_CALLS(name, of_column, of_row)                                                                                 \
    static uint32_t name##_column(const struct column *column, size_t first, struct runs *runs) { return of_column; }  \
    static uint32_t name##_row(const uint8_t *document, size_t len, struct cell *cell) { return of_row; }
BYTES_CALLS(get, jdoc_column_get(COLUMN, TEXT("{k}"), RUNS), jdoc_get_by_keypath(ROW, TEXT("{k}"), CELL))
BYTES_CALLS(select_first, jdoc_column_select_first(COLUMN, TEXT("$.**"), false, RUNS),
      jdoc_select_first(ROW, TEXT("$.**"), false, CELL))
BYTES_CALLS(select_value, jdoc_column_select_value(COLUMN, TEXT("$.*"), false, RUNS),
      jdoc_select_value(ROW, TEXT("$.*"), false, CELL))
BYTES_CALLS(select_array, jdoc_column_select_array(COLUMN, TEXT("$.k"), false, RUNS),
      jdoc_select_array(ROW, TEXT("$.k"), false, CELL))
BYTES_CALLS(select_strict, jdoc_column_select_array(COLUMN, TEXT("$.k"), true, RUNS),
      jdoc_select_array(ROW, TEXT("$.k"), true, CELL))
BYTES_CALLS(key, jdoc_column_key(COLUMN, false, RUNS), jdoc_sort_key(ROW, false, CELL))
BYTES_CALLS(key_wide, jdoc_column_key(COLUMN, true, RUNS), jdoc_sort_key(ROW, true, CELL))
BYTES_CALLS(equality_key, jdoc_column_equality_key(COLUMN, RUNS), jdoc_equality_key(ROW, CELL))
BYTES_CALLS(to_str, jdoc_column_to_str(COLUMN, (char *)RUNS), jdoc_to_str(ROW, TEXT_CELL))
BYTES_CALLS(delete_by_keypath, jdoc_column_delete_by_keypath(COLUMN, TEXT("{k}"), RUNS),
      jdoc_delete_by_keypath(ROW, TEXT("{k}"), CELL))

struct fixed_call {
    const char *name;
    fixed_fn *column;
    cell_fn *row;
    size_t width; /* of a result, in bytes */
    uint8_t none; /* the first byte of a missing result */
};
static const struct fixed_call fixed_calls[] = {
    {"check", check_column, check_row, 0, 0},          {"exists", exists_column, exists_row, 1, 2},
    {"match", match_column, match_row, 1, 2},          {"match strict", match_strict_column, match_strict_row, 1, 2},
    {"contains", contains_column, contains_row, 1, 2}, {"to_i64", to_i64_column, to_i64_row, 8, 0}};

struct bytes_call {
    const char *name;
    runs_fn *column;
    cell_fn *row;
};
#define BYTES_CALL(name)                                                                                               \
    { #name, name##_column, name##_row }
static const struct bytes_call bytes_calls[] = {BYTES_CALL(get),           BYTES_CALL(select_first),
                                                BYTES_CALL(select_value),  BYTES_CALL(select_array),
                                                BYTES_CALL(select_strict), BYTES_CALL(key),
                                                BYTES_CALL(key_wide),      BYTES_CALL(equality_key),
                                                BYTES_CALL(to_str),        BYTES_CALL(delete_by_keypath)};

/* What each row has to give, by the call on one document. */
static size_t wanted_cells(const struct column *column, cell_fn *row, const struct fixed_call *fixed,
                           struct cell *cells) {
    size_t rows = column->offsets_len - 1;
    for (size_t i = 0; i < rows; i++) {
        uint64_t from = column->offsets[i], to = column->offsets[i + 1];
        memset(&cells[i], 0, sizeof cells[i]);
        bool is_inside = from <= to && to <= column->len;
        cells[i].status = (uint8_t)(is_inside ? row(column->bytes + from, to - from, &cells[i]) : JDOC_BAD_OFFSETS);
        if (fixed) {
            cells[i].len = fixed->width;
            if (cells[i].status != JDOC_OK) memset(cells[i].bytes, 0, fixed->width), cells[i].bytes[0] = fixed->none;
        } else if (cells[i].status != JDOC_OK) {
            cells[i].len = 0;
        }
    }
    return rows;
}

static bool is_filled(const void *at, size_t len) {
    for (size_t i = 0; i < len; i++)
        if (((const uint8_t *)at)[i] != FILL) return false;
    return true;
}

static int passed, failed;

static void judge(bool right, const char *call, const char *what, size_t room) {
    right ? passed++ : failed++;
    if (!right) printf("WRONG: %s, %s, room %zu\n", call, what, room);
}

/* Rows of one width, with space for these numbers of results and statuses. */
static bool fixed_is_right(const struct column *column, const struct fixed_call *call, const struct cell *cells,
                           size_t room, size_t statuses) {
    size_t rows = column->offsets_len - 1, most = call->width && room < statuses ? room : statuses,
           done = rows < most ? rows : most;
    struct rows given = {malloc((room + GUARD) * 8), room, malloc(statuses + GUARD), statuses, 99};
    memset(given.answers, FILL, (room + GUARD) * 8), memset(given.statuses, FILL, statuses + GUARD);
    uint32_t status = call->column(column, 0, &given);
    bool right = given.done == done && status == (uint32_t)(done == rows ? JDOC_OK : JDOC_BUFFER_TOO_SMALL);
    for (size_t i = 0; right && i < done; i++)
        right = given.statuses[i] == cells[i].status &&
                !memcmp(given.answers + i * call->width, cells[i].bytes, call->width);
    size_t written = done * call->width;
    right = right && is_filled(given.answers + written, (room + GUARD) * 8 - written);
    right = right && is_filled(given.statuses + done, statuses + GUARD - done);
    free(given.answers), free(given.statuses);
    return right;
}

/* Rows of bytes from one on, in rooms of these sizes. Says how many rows were done. */
static bool runs_are_right(const struct column *column, const struct bytes_call *call, const struct cell *cells,
                           size_t first, size_t size, size_t positions, size_t statuses, size_t *done) {
    size_t rows = column->offsets_len - 1 - first, most = rows < statuses ? rows : statuses, total = 0, next = 0;
    if (!positions || positions - 1 < most) most = positions ? positions - 1 : 0;
    for (*done = 0; *done < most && total + cells[first + *done].len <= size; ++*done)
        total += cells[first + *done].len;
    if (positions && *done < most) next = cells[first + *done].len;
    struct runs given = {
        malloc(size + GUARD), size, malloc((positions + GUARD) * 8), positions, malloc(statuses + GUARD), statuses,
        {99, 99, 99}};
    memset(given.out, FILL, size + GUARD), memset(given.positions, FILL, (positions + GUARD) * 8);
    memset(given.statuses, FILL, statuses + GUARD);
    uint32_t status = call->column(column, first, &given);
    bool is_whole = *done == rows && positions;
    bool right = status == (uint32_t)(is_whole ? JDOC_OK : JDOC_BUFFER_TOO_SMALL) && given.progress.rows == *done &&
                 given.progress.bytes == total && given.progress.next == next;
    uint64_t at = 0;
    for (size_t i = 0; right && i < *done; i++) {
        const struct cell *cell = &cells[first + i];
        right = given.statuses[i] == cell->status && given.positions[i] == at &&
                !memcmp(given.out + at, cell->bytes, cell->len);
        at += cell->len;
    }
    size_t ends = positions ? *done + 1 : 0;
    right = right && (!positions || given.positions[*done] == total) &&
            is_filled(given.positions + ends, (positions + GUARD - ends) * 8);
    right = right && is_filled(given.out + total, size + GUARD - total) &&
            is_filled(given.statuses + *done, statuses + GUARD - *done);
    free(given.out), free(given.positions), free(given.statuses);
    return right;
}

/* Continues after the rows that are done until all are. */
static bool going_on_is_right(const struct column *column, const struct bytes_call *call, const struct cell *cells,
                              size_t size) {
    size_t rows = column->offsets_len - 1;
    for (size_t first = 0, done, room = size; first < rows; first += done, room = size) {
        if (!runs_are_right(column, call, cells, first, room, rows + 1, rows, &done)) return false;
        if (done == 0 && !runs_are_right(column, call, cells, first, cells[first].len, rows + 1, rows, &done))
            return false;
    }
    return true;
}

static void test_fixed(const struct column *column, const char *what) {
    for (size_t i = 0; i < sizeof fixed_calls / sizeof *fixed_calls; i++) {
        struct cell cells[MOST_ROWS];
        size_t rows = wanted_cells(column, fixed_calls[i].row, &fixed_calls[i], cells);
        for (size_t room = 0; room <= rows + 2; room++) {
            judge(fixed_is_right(column, &fixed_calls[i], cells, room, rows), fixed_calls[i].name, what, room);
            judge(fixed_is_right(column, &fixed_calls[i], cells, rows, room), fixed_calls[i].name, what, room);
        }
    }
}

static void test_bytes(const struct column *column, const char *what) {
    for (size_t i = 0; i < sizeof bytes_calls / sizeof *bytes_calls; i++) {
        struct cell cells[MOST_ROWS];
        size_t rows = wanted_cells(column, bytes_calls[i].row, NULL, cells), total = 0, done;
        for (size_t row = 0; row < rows; row++) total += cells[row].len;
        for (size_t size = 0; size <= total + 2; size++) {
            judge(runs_are_right(column, &bytes_calls[i], cells, 0, size, rows + 1, rows, &done), bytes_calls[i].name,
                  what, size);
            judge(going_on_is_right(column, &bytes_calls[i], cells, size), bytes_calls[i].name, "going on", size);
        }
        for (size_t room = 0; room <= rows + 2; room++) {
            judge(runs_are_right(column, &bytes_calls[i], cells, 0, total, room, rows, &done), bytes_calls[i].name,
                  what, room);
            judge(runs_are_right(column, &bytes_calls[i], cells, 0, total, rows + 1, room, &done), bytes_calls[i].name,
                  what, room);
        }
    }
}

/* A path outside the grammar is the status of the call, and nothing is written. */
static void test_refused_paths(const struct column *column) {
    const size_t first = 0;
    uint8_t bytes[8];
    uint64_t places[8];
    memset(bytes, FILL, sizeof bytes), memset(places, FILL, sizeof places);
    struct rows given = {bytes, 8, bytes, 8, 99}, *rows = &given;
    struct runs asked = {bytes, 8, places, 8, bytes, 8, {99, 99, 99}}, *runs = &asked;
    judge(jdoc_column_match(COLUMN, TEXT("$["), false, bytes, 8, ROWS) == JDOC_INVALID_JSON_PATH && rows->done == 0,
          "match", "path", 0);
    judge(jdoc_column_exists(COLUMN, TEXT("\xff"), false, bytes, 8, ROWS) == JDOC_INVALID_JSON_PATH, "exists", "path",
          0);
    judge(jdoc_column_get(COLUMN, TEXT("{"), RUNS) == JDOC_INVALID_KEY_PATH && asked.progress.rows == 0, "get",
          "path", 0);
    judge(jdoc_column_select_value(COLUMN, TEXT("$["), false, RUNS) == JDOC_INVALID_JSON_PATH, "select_value", "path",
          0);
    judge(jdoc_column_select_first(COLUMN, TEXT("@ > 10"), false, RUNS) == JDOC_INVALID_JSON_PATH, "select_first",
          "path", 0);
    judge(jdoc_column_select_array(COLUMN, TEXT("$.**{300}"), true, RUNS) == JDOC_INVALID_JSON_PATH, "select_array",
          "path", 0);
    judge(jdoc_column_delete_by_keypath(COLUMN, TEXT("{\xff}"), RUNS) == JDOC_INVALID_KEY_PATH, "delete", "path", 0);
    judge(is_filled(bytes, sizeof bytes) && is_filled(places, sizeof places), "all", "path: nothing written", 0);
}

/* No offsets, one offset, and NULL with length 0 have zero rows. */
static void test_no_rows(void) {
    uint64_t one = 0, position = FILL;
    size_t done = 99;
    jdoc_progress progress = {99, 99, 99};
    judge(!jdoc_column_match(NULL, 0, NULL, 0, TEXT("$ == 1"), false, NULL, 0, NULL, 0, &done) && done == 0, "match",
          "no offsets", 0);
    judge(!jdoc_column_match(NULL, 0, &one, 1, TEXT("$ == 1"), false, NULL, 0, NULL, 0, &done) && done == 0, "match",
          "one offset", 0);
    judge(!jdoc_column_key(NULL, 0, &one, 1, false, NULL, 0, &position, 1, NULL, 0, &progress) && progress.rows == 0 &&
              position == 0,
          "key", "one offset", 0);
    judge(jdoc_check(NULL, 0) == JDOC_INVALID_JSONB, "check", "NULL", 0);
    uint32_t status = jdoc_select_value(BYTES("\x80\0\0\0"), NULL, 0, false, NULL, 0, &done);
    judge(status == JDOC_BUFFER_TOO_SMALL && done == 4, "select_value", "NULL for the path and the buffer", 0);
}

/* Fail each allocation in turn: its rows report it, all others have results, and nothing is leaked. */
static void test_growths(const struct column *column, const struct bytes_call *call) {
    struct cell cells[MOST_ROWS];
    size_t rows = wanted_cells(column, call->row, NULL, cells);
    for (long refused = 0, growths = 1; can_refuse() && growths > refused; refused++) {
        struct runs given = {malloc(MOST), MOST, malloc((rows + 1) * 8), rows + 1, malloc(rows), rows, {99, 99, 99}};
        start_counting(refused);
        uint32_t status = call->column(column, 0, &given);
        growths = stop_counting();
        bool met = growths > refused, right = live_blocks() == 0;
        size_t lacking = 0;
        for (size_t i = 0; status == JDOC_OK && i < rows; i++) {
            size_t len = given.positions[i + 1] - given.positions[i];
            bool is_refused = given.statuses[i] == JDOC_OUT_OF_MEMORY;
            lacking += is_refused;
            right = right && (is_refused ? len == 0
                                         : given.statuses[i] == cells[i].status && len == cells[i].len &&
                                               !memcmp(given.out + given.positions[i], cells[i].bytes, len));
        }
        if (status != JDOC_OK) right = right && met && status == JDOC_OUT_OF_MEMORY && given.progress.rows == 0;
        judge(right && (status != JDOC_OK || lacking == met), call->name, "growth refused", (size_t)refused);
        free(given.out), free(given.positions), free(given.statuses);
    }
}

/* Fail each allocation in turn for rows of one width. A call without a path does not allocate. */
static void test_fixed_growths(const struct column *column, const struct fixed_call *call) {
    struct cell cells[MOST_ROWS];
    size_t rows = wanted_cells(column, call->row, call, cells);
    for (long refused = 0, growths = 1; can_refuse() && growths > refused; refused++) {
        struct rows given = {malloc(rows * 8), rows, malloc(rows), rows, 99};
        memset(given.answers, FILL, rows * 8), memset(given.statuses, FILL, rows);
        start_counting(refused);
        uint32_t status = call->column(column, 0, &given);
        growths = stop_counting();
        bool met = growths > refused, right = live_blocks() == 0;
        size_t lacking = 0;
        for (size_t i = 0; status == JDOC_OK && i < rows; i++) {
            bool is_refused = given.statuses[i] == JDOC_OUT_OF_MEMORY;
            lacking += is_refused;
            right = right && (is_refused ? given.answers[i * call->width] == call->none
                                         : given.statuses[i] == cells[i].status &&
                                               !memcmp(given.answers + i * call->width, cells[i].bytes, call->width));
        }
        if (status != JDOC_OK)
            right = right && met && status == JDOC_OUT_OF_MEMORY && given.done == 0 &&
                    is_filled(given.answers, rows * 8) && is_filled(given.statuses, rows);
        judge(right && (status != JDOC_OK || lacking == met), call->name, "growth refused", (size_t)refused);
        free(given.answers), free(given.statuses);
    }
}

int main(void) {
    struct column column;
    fill_column(&column);
    test_fixed(&column, "damaged rows among good ones");
    test_bytes(&column, "damaged rows among good ones");
    test_refused_paths(&column);
    test_no_rows();
    for (size_t i = 0; i < sizeof bytes_calls / sizeof *bytes_calls; i++) test_growths(&column, &bytes_calls[i]);
    for (size_t i = 0; i < sizeof fixed_calls / sizeof *fixed_calls; i++) test_fixed_growths(&column, &fixed_calls[i]);
    spoil_column(&column);
    test_fixed(&column, "wrong positions");
    test_bytes(&column, "wrong positions");
    failed += !has_refused();
    printf("%d passed, %d failed\n", passed, failed);
    return failed != 0;
}
