/* threads [ROUNDS]: four threads, each with its own prepared paths, whose results are those of the calls that parse the
 * path. Each thread leaves one path to the main thread, which uses and frees it after the join. The last line is
 * `N passed, M failed`. */
#include "jdoc.h"

#include <pthread.h>
#include <stdio.h>
#include <stdlib.h>
#include <string.h>

enum { THREADS = 4, ROOM = 64, CALLS = 20 };

/* {"age":31,"name":"Ann"} and {"age":47,"name":"Bob"} (docs/FORMAT.md). */
static const uint8_t people[] = "\x40\0\0\x02\x10\0\0\x03\x10\0\0\x04\x20\0\0\x02\x10\0\0\x03"
                                "agename\x50\x1f"
                                "Ann"
                                "\x40\0\0\x02\x10\0\0\x03\x10\0\0\x04\x20\0\0\x02\x10\0\0\x03"
                                "agename\x50\x2f"
                                "Bob";
enum { PERSON = 32 };

static const char *const texts[] = {"$.age > 40", "$.name ? (@ starts with \"A\")", "$.*", "$.age + $.name", "$.nobody", "$"};
enum { TEXTS = sizeof texts / sizeof *texts };

struct result {
    enum jdoc_status status;
    size_t len;
    uint8_t out[ROOM];
};

static bool is_same(const struct result *a, const struct result *b) {
    return a->status == b->status && a->len == b->len && !memcmp(a->out, b->out, ROOM);
}

/* Whether a path has the same result as its text for both people. */
static bool agrees(jdoc_path *path, const char *text) {
    for (size_t at = 0; at < 2 * PERSON; at += PERSON) {
        struct result by_path[3] = {0}, by_text[3] = {0};
#define BY_PATH(call) jdoc_path_##call(path, people + at, PERSON, false
#define BY_TEXT(call) jdoc_##call(people + at, PERSON, text, strlen(text), false
        for (int form = 0; form < 2; form++) {
            struct result *r = form ? by_path : by_text;
            r[0].status = form ? BY_PATH(match), r[0].out) : BY_TEXT(match), r[0].out);
            r[1].status = form ? BY_PATH(exists), r[1].out) : BY_TEXT(exists), r[1].out);
            r[2].status = form ? BY_PATH(select_array), r[2].out, ROOM, &r[2].len)
                               : BY_TEXT(select_array), r[2].out, ROOM, &r[2].len);
        }
        for (int i = 0; i < 3; i++)
            if (!is_same(&by_path[i], &by_text[i])) return false;
    }
    return true;
}

static size_t rounds = 200;

/* The result of a thread: an error or NULL, and a path of the first text. */
struct left {
    const char *fault;
    jdoc_path path;
};

/* Parses each path, uses and frees it, in each round. Returns an error, or NULL. */
static const char *run_rounds(void) {
    for (size_t round = 0; round < rounds; round++) {
        const char *text = texts[round % TEXTS];
        char copy[ROOM];
        strcpy(copy, text);
        jdoc_path path = {0};
        if (jdoc_path_read(copy, strlen(copy), &path) != JDOC_OK) return "a path was not read";
        memset(copy, 0, sizeof copy);
        for (int call = 0; call < CALLS; call++)
            if (!agrees(&path, text)) return "a path and its text differ";
        jdoc_path_free(&path);
        if (jdoc_path_read("$.", 2, &path) != JDOC_INVALID_JSON_PATH) return "a text that is not a path was read";
    }
    return NULL;
}

static void *work(void *to) {
    struct left *left = to;
    left->fault = run_rounds();
    if (!left->fault && jdoc_path_read(texts[0], strlen(texts[0]), &left->path) != JDOC_OK) left->fault = "no path is left";
    return NULL;
}

/* Returns the error of a thread that was joined, or of the path that it left, or NULL. */
static const char *fault_of(struct left *left) {
    if (left->fault) return left->fault;
    bool is_right = agrees(&left->path, texts[0]);
    jdoc_path_free(&left->path);
    return is_right ? NULL : "the path that a thread left differs from its text";
}

int main(int argc, char **argv) {
    if (argc > 1) rounds = strtoul(argv[1], NULL, 10);
    pthread_t threads[THREADS];
    struct left left[THREADS] = {{0}};
    int passed = 0, started = 0;
    while (started < THREADS && !pthread_create(&threads[started], NULL, work, &left[started])) started++;
    for (int i = 0; i < started; i++) {
        pthread_join(threads[i], NULL);
        const char *fault = fault_of(&left[i]);
        if (fault) printf("thread %d: %s\n", i, fault);
        passed += !fault;
    }
    printf("%d passed, %d failed\n", passed, THREADS - passed);
    return passed != THREADS;
}
