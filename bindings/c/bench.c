/* The calls that are measured: each on a column, and on one document after the other with the path's text or a prepared path. The
 * documents have about 200 bytes. Filters select of one array that has them as its elements. */
#include "bench.h"
#include "jdoc.h"
#include "loops.h"

#include <stdio.h>
#include <stdlib.h>
#include <string.h>

enum { FIELDS = 5 };
#define TEXT(text) (text), sizeof(text) - 1

static uint8_t *bytes, *array;
static uint64_t *offsets, *positions;
static size_t rows, bytes_len, array_len, room;
static uint8_t *truths, *statuses, *out;
static int64_t *numbers;
static uint64_t sum;

static uint32_t next_random(void) {
    static uint64_t state = 1;
    state = state * 6364136223846793005u + 1442695040888963407u;
    return (uint32_t)(state >> 33);
}

static uint8_t *put_word(uint8_t *at, uint32_t word) {
    for (int shift = 24; shift >= 0; shift -= 8) *at++ = (uint8_t)(word >> shift);
    return at;
}

static uint8_t *put_number(uint8_t *at, uint32_t number, int width) {
    *at++ = 0x50;
    for (int shift = 8 * (width - 1); shift >= 0; shift -= 8) *at++ = (uint8_t)(number >> shift);
    return at;
}

/* {"age":..,"city":"xx..","name":"n000001","note":"yy..","score":..}, written from docs/FORMAT.md. */
static uint8_t *put_document(uint8_t *at, size_t row) {
    static const char *const keys[FIELDS] = {"age", "city", "name", "note", "score"};
    uint32_t city = 20 + next_random() % 40, note = 80;
    const uint32_t values[FIELDS] = {0x20000002, 0x10000000 | city, 0x10000007, 0x10000000 | note, 0x20000005};
    at = put_word(at, 0x40000000 | FIELDS);
    for (int i = 0; i < FIELDS; i++) at = put_word(at, 0x10000000 | (uint32_t)strlen(keys[i]));
    for (int i = 0; i < FIELDS; i++) at = put_word(at, values[i]);
    for (int i = 0; i < FIELDS; i++) memcpy(at, keys[i], strlen(keys[i])), at += strlen(keys[i]);
    at = put_number(at, 1 + next_random() % 99, 1);
    memset(at, 'x', city), at += city;
    char name[16];
    snprintf(name, sizeof name, "n%06zu", row % 1000000);
    memcpy(at, name, 7), at += 7;
    memset(at, 'y', note), at += note;
    return put_number(at, 0x10000000 | next_random(), 4);
}

static void make_column(size_t count) {
    rows = count;
    bytes = malloc(rows * 256), offsets = malloc((rows + 1) * 8), positions = malloc((rows + 1) * 8);
    truths = malloc(rows), statuses = malloc(rows), numbers = malloc(rows * 8);
    room = rows * 1024, out = malloc(room);
    if (!bytes || !offsets || !positions || !truths || !statuses || !numbers || !out) exit(1);
    uint8_t *at = bytes;
    offsets[0] = 0;
    for (size_t row = 0; row < rows; row++) at = put_document(at, row), offsets[row + 1] = (uint64_t)(at - bytes);
    bytes_len = offsets[rows];
}

static void make_array(void) {
    array_len = 4 + 4 * rows + bytes_len;
    array = malloc(array_len);
    if (!array) exit(1);
    uint8_t *at = put_word(array, 0x80000000 | (uint32_t)rows);
    for (size_t row = 0; row < rows; row++) at = put_word(at, 0x50000000 | (uint32_t)(offsets[row + 1] - offsets[row]));
    memcpy(at, bytes, bytes_len);
}

#define COLUMN bytes, bytes_len, offsets, rows + 1
#define ROW    bytes + offsets[row], offsets[row + 1] - offsets[row]
#define FIXED  statuses, rows, &done
#define RUNS   out, room, positions, rows + 1, statuses, rows, &progress
#define OUT    out, room, &len
#define PAIR(name, of_column, of_row)                                                                                  \
    static uint32_t name##_column(void) {                                                                              \
        size_t done = 0;                                                                                               \
        jdoc_progress progress = {0, 0, 0};                                                                           \
        uint32_t status = of_column;                                                                                   \
        sum += done + progress.bytes;                                                                                  \
        return status;                                                                                                 \
    }                                                                                                                  \
    static uint32_t name##_rows(void) {                                                                                \
        size_t len = 0;                                                                                                \
        uint32_t status = 0;                                                                                           \
        for (size_t row = 0; row < rows; row++) status |= of_row, sum += len;                                          \
        return status;                                                                                                 \
    }
PAIR(check, jdoc_column_check(COLUMN, FIXED), jdoc_check(ROW))
PAIR(exists, jdoc_column_exists(COLUMN, TEXT("$.age"), false, truths, rows, FIXED),
     jdoc_exists(ROW, TEXT("$.age"), false, truths + row))
PAIR(exists_last, jdoc_column_exists(COLUMN, TEXT("$.score"), false, truths, rows, FIXED),
     jdoc_exists(ROW, TEXT("$.score"), false, truths + row))
PAIR(no_condition, jdoc_column_match(COLUMN, TEXT("$.age"), false, truths, rows, FIXED),
     jdoc_match(ROW, TEXT("$.age"), false, truths + row))
PAIR(match, jdoc_column_match(COLUMN, TEXT("$.age < 50"), false, truths, rows, FIXED),
     jdoc_match(ROW, TEXT("$.age < 50"), false, truths + row))
PAIR(contains, jdoc_column_contains(COLUMN, bytes, offsets[1], truths, rows, FIXED),
     jdoc_contains(ROW, bytes, offsets[1], truths + row))
PAIR(get, jdoc_column_get(COLUMN, TEXT("{age}"), RUNS), jdoc_get_by_keypath(ROW, TEXT("{age}"), OUT))
PAIR(select_first, jdoc_column_select_first(COLUMN, TEXT("$.name"), false, RUNS),
     jdoc_select_first(ROW, TEXT("$.name"), false, OUT))
PAIR(select_value, jdoc_column_select_value(COLUMN, TEXT("$.name"), false, RUNS),
     jdoc_select_value(ROW, TEXT("$.name"), false, OUT))
PAIR(select_array, jdoc_column_select_array(COLUMN, TEXT("$.name"), false, RUNS),
     jdoc_select_array(ROW, TEXT("$.name"), false, OUT))
PAIR(key, jdoc_column_key(COLUMN, false, RUNS), jdoc_sort_key(ROW, false, OUT))
PAIR(key_wide, jdoc_column_key(COLUMN, true, RUNS), jdoc_sort_key(ROW, true, OUT))
PAIR(equality_key, jdoc_column_equality_key(COLUMN, RUNS), jdoc_equality_key(ROW, OUT))
PAIR(delete, jdoc_column_delete_by_keypath(COLUMN, TEXT("{note}"), RUNS),
     jdoc_delete_by_keypath(ROW, TEXT("{note}"), OUT))

/* The calls on a prepared path, one document after the other. */
#define PREPARED(name, kind, text, of_row)                                                                             \
    static uint32_t name##_prepared(void) {                                                                            \
        jdoc_##kind path = {0};                                                                                        \
        size_t len = 0;                                                                                                \
        uint32_t status = jdoc_##kind##_read(TEXT(text), &path);                                                       \
        for (size_t row = 0; row < rows; row++) status |= of_row, sum += len;                                          \
        jdoc_##kind##_free(&path);                                                                                     \
        return status;                                                                                                 \
    }
PREPARED(exists, path, "$.age", jdoc_path_exists(&path, ROW, false, truths + row))
PREPARED(exists_last, path, "$.score", jdoc_path_exists(&path, ROW, false, truths + row))
PREPARED(no_condition, path, "$.age", jdoc_path_match(&path, ROW, false, truths + row))
PREPARED(match, path, "$.age < 50", jdoc_path_match(&path, ROW, false, truths + row))
PREPARED(get, keypath, "{age}", jdoc_keypath_get(&path, ROW, OUT))
PREPARED(select_first, path, "$.name", jdoc_path_select_first(&path, ROW, false, OUT))
PREPARED(select_value, path, "$.name", jdoc_path_select_value(&path, ROW, false, OUT))
PREPARED(select_array, path, "$.name", jdoc_path_select_array(&path, ROW, false, OUT))
PREPARED(delete, keypath, "{note}", jdoc_keypath_delete(&path, ROW, OUT))

/* The column of the ages, for the casts. */
static uint8_t *ages;
static uint64_t *age_offsets;
#define AGES ages, age_offsets[rows], age_offsets, rows + 1
#define AGE  ages + age_offsets[row], age_offsets[row + 1] - age_offsets[row]
PAIR(to_i64, jdoc_column_to_i64(AGES, numbers, rows, FIXED), jdoc_to_i64(AGE, numbers + row))
PAIR(to_str, jdoc_column_to_str(AGES, (char *)RUNS), jdoc_to_str(AGE, (char *)OUT))

/* Loops in place of a call, one document after the other. */
#define LOOP(name, of_row)                                                                                             \
    static uint32_t name##_loop(void) {                                                                                \
        size_t len = 0;                                                                                                \
        for (size_t row = 0; row < rows; row++) {                                                                      \
            struct value item = {CONTAINER_TYPE, bytes + offsets[row], offsets[row + 1] - offsets[row]}, member;       \
            int64_t number;                                                                                            \
            (void)member, (void)number;                                                                                \
            of_row;                                                                                                    \
            sum += len;                                                                                                \
        }                                                                                                              \
        return JDOC_OK;                                                                                                \
    }
LOOP(check, len = !is_container(item.content, item.len))
LOOP(exists, truths[row] = has_member(&item, "age"))
LOOP(exists_last, truths[row] = has_member(&item, "score"))
LOOP(match, truths[row] = member_int(&item, "age", &number) && number < 50)
LOOP(key, len = (size_t)(put_key(out, &item, 0) - out))
LOOP(get, if (find_member(item.content, item.len, TEXT("age"), &member)) put_value(&member, OUT))

/* Paths over the elements of the array, and loops in their place. The first ones select nothing, so that only filters are measured. */
#define FILTER(name, text, condition)                                                                                  \
    static uint32_t name##_prepared(void) {                                                                            \
        jdoc_path path = {0};                                                                                          \
        size_t len = 0;                                                                                                \
        uint32_t status = jdoc_path_read(TEXT(text), &path);                                                           \
        status |= jdoc_path_select_array(&path, array, array_len, false, OUT);                                         \
        jdoc_path_free(&path);                                                                                         \
        sum += word_at(out) & 0x1fffffff;                                                                              \
        return status;                                                                                                 \
    }                                                                                                                  \
    static uint32_t name##_loop(void) {                                                                                \
        struct elements left = elements_of(array, array_len);                                                          \
        for (struct value item; next_element(&left, &item);) {                                                         \
            int64_t age, score;                                                                                        \
            (void)age, (void)score;                                                                                    \
            if (condition) sum++;                                                                                      \
        }                                                                                                              \
        return JDOC_OK;                                                                                                \
    }
#define AGE_IS(condition)   (member_int(&item, "age", &age) && age condition)
#define SCORE_IS(condition) (member_int(&item, "score", &score) && score condition)
FILTER(filter_right, "$[*]?(@.age > 1000)", AGE_IS(> 1000))
FILTER(filter_left, "$[*]?(1000 < @.age)", AGE_IS(> 1000))
FILTER(filter_and, "$[*]?(@.age > 1000 && @.score > 7)", AGE_IS(> 1000) && SCORE_IS(> 7))
FILTER(filter_or, "$[*]?(@.age > 1000 || @.score < 7)", AGE_IS(> 1000) || SCORE_IS(< 7))
FILTER(filter_mixed, "$[*]?(@.age > 0 && @.score < 7 || @.age > 1000)",
       (AGE_IS(> 0) && SCORE_IS(< 7)) || AGE_IS(> 1000))
FILTER(filter_members, "$[*]?(@.age > @.score)",
       member_int(&item, "age", &age) && member_int(&item, "score", &score) && age > score)
FILTER(filter_exists, "$[*]?(exists(@.zz))", has_member(&item, "zz"))
FILTER(filter_equal, "$[*]?(@.name == \"zz\")", member_begins(&item, "name", "zz", true))
FILTER(filter_starts, "$[*]?(@.name starts with \"zz\")", member_begins(&item, "name", "zz", false))
FILTER(filter_any, "$[*]?(@.* == 5000)", any_member_is(&item, 5000))

/* Predicates over all elements, which are false, and loops in their place. */
#define PREDICATE(name, text, condition)                                                                               \
    static uint32_t name##_prepared(void) {                                                                            \
        jdoc_path path = {0};                                                                                          \
        uint32_t status = jdoc_path_read(TEXT(text), &path);                                                           \
        status |= jdoc_path_match(&path, array, array_len, false, truths);                                             \
        jdoc_path_free(&path);                                                                                         \
        return status;                                                                                                 \
    }                                                                                                                  \
    static uint32_t name##_loop(void) {                                                                                \
        struct elements left = elements_of(array, array_len);                                                          \
        bool found = false;                                                                                            \
        for (struct value item; !found && next_element(&left, &item);) {                                               \
            int64_t age;                                                                                               \
            found = condition;                                                                                         \
        }                                                                                                              \
        truths[0] = found;                                                                                             \
        return JDOC_OK;                                                                                                \
    }
PREDICATE(match_any, "$[*].age > 1000", AGE_IS(> 1000))
PREDICATE(match_either, "$[*].age > 1000 || $[*].age < 0", AGE_IS(> 1000) || AGE_IS(< 0))

#define NAMED(name)                                                                                                    \
    { #name, { name##_column, name##_rows } }
#define NAMED_LOOP(name)                                                                                               \
    { #name, { name##_column, name##_rows, NULL, name##_loop } }
#define BY_PATH(name)                                                                                                  \
    { #name, { name##_column, name##_rows, name##_prepared } }
#define BY_LOOP(name)                                                                                                  \
    { #name, { name##_column, name##_rows, name##_prepared, name##_loop } }
#define IN_ARRAY(name)                                                                                                 \
    { #name, { NULL, NULL, name##_prepared, name##_loop } }
const char *const bench_forms[BENCH_FORMS] = {"column", "one", "prepared", "loop"};
const struct bench_call bench_calls[] = {
    NAMED_LOOP(check),
    BY_PATH(no_condition),
    BY_LOOP(exists),
    BY_LOOP(exists_last),
    BY_LOOP(match),
    NAMED(contains),
    NAMED(to_i64),
    BY_LOOP(get),
    BY_PATH(select_first),
    BY_PATH(select_value),
    BY_PATH(select_array),
    NAMED(to_str),
    NAMED_LOOP(key),
    NAMED(key_wide),
    NAMED(equality_key),
    BY_PATH(delete),
    IN_ARRAY(filter_right),
    IN_ARRAY(filter_left),
    IN_ARRAY(filter_and),
    IN_ARRAY(filter_or),
    IN_ARRAY(filter_mixed),
    IN_ARRAY(filter_members),
    IN_ARRAY(filter_exists),
    IN_ARRAY(filter_equal),
    IN_ARRAY(filter_starts),
    IN_ARRAY(filter_any),
    IN_ARRAY(match_any),
    IN_ARRAY(match_either),
};
const size_t bench_calls_len = sizeof bench_calls / sizeof *bench_calls;

uint64_t bench_sum(void) {
    uint64_t total = sum;
    for (size_t row = 0; row < rows; row++) total += truths[row], truths[row] = 0;
    sum = 0;
    return total;
}

bool bench_start(size_t count) {
    jdoc_progress progress;
    make_column(count);
    make_array();
    ages = malloc(rows * 32), age_offsets = malloc((rows + 1) * 8);
    return ages && age_offsets &&
           jdoc_column_get(COLUMN, TEXT("{age}"), ages, rows * 32, age_offsets, rows + 1, statuses, rows, &progress) == JDOC_OK;
}
