/* The calls of jsonb_speed.rt.txt, for tools/measure_growth.py and tools/measure_stack.py --more.

   calls once CALL ARGUMENT OTHER DOCUMENT   makes one call and prints its result. The last three are files
   calls times CASES LIMIT                   prints a line a case: series, size, nanoseconds of the processor. A series ends if its next
                                             call would take more nanoseconds than LIMIT, extrapolated
   calls few CASES LIMIT                     the same, the best of three calls each and not of many
   calls counts CASES                        the same calls once each, for callgrind: a dump a case, by its line's number
   calls twice CASES                         for callgrind, which dumps each `counted`: three a case, of one call, one and two

   A line of CASES has a series, a size, a call and three files, with tabs between; `-` is a missing file. The cases of a series are
   consecutive, by size. */
#include <stdbool.h>
#include <stdint.h>
#include <stdio.h>
#include <stdlib.h>
#include <string.h>
#include <time.h>

#if __has_include(<valgrind/callgrind.h>)
#include <valgrind/callgrind.h>
#else
#define CALLGRIND_ZERO_STATS
#define CALLGRIND_DUMP_STATS_AT(name) (void)(name)
#endif

typedef struct {
    uint8_t *bytes;
    size_t len;
} Buffer;

typedef struct {
    char series[128], size[32], call[64];
    Buffer argument, other, document;
} Case;

uint64_t jsonb_speed(const char *name, size_t name_len, const uint8_t *argument, size_t argument_len, const uint8_t *other,
                     size_t other_len, const uint8_t *document, size_t document_len, size_t zero, size_t times);

static const uint64_t REFUSED = UINT64_MAX;
static const double BATCH = 5e6;
static volatile size_t zero = 0;

static void fail(const char *what, const char *name)
{
    fprintf(stderr, "calls: %s: %s\n", what, name);
    exit(2);
}

static Buffer read_file(const char *name)
{
    if (!strcmp(name, "-")) return (Buffer){(uint8_t *)"", 0};
    FILE *file = fopen(name, "rb");
    if (!file || fseek(file, 0, SEEK_END)) fail("cannot be read", name);
    size_t len = (size_t)ftell(file);
    Buffer made = {malloc(len ? len : 1), len};
    rewind(file);
    if (!made.bytes || fread(made.bytes, 1, len, file) != len) fail("cannot be read", name);
    fclose(file);
    return made;
}

static void let_go(Buffer buffer)
{
    if (buffer.len) free(buffer.bytes);
}

/* Two more, to compare `check` with: how fast memory is read and written. */
static uint64_t copies(const Case *c, size_t times)
{
    uint8_t *to = malloc(c->document.len);
    if (!to) fail("no memory", c->series);
    for (size_t i = 0; i < times; i++) {
        memcpy(to, c->document.bytes + (i & zero), c->document.len);
        __asm__ volatile("" ::"r"(to) : "memory");
    }
    free(to);
    return c->document.len;
}

static uint64_t make_calls(const Case *c, size_t times)
{
    if (!strcmp(c->call, "memcpy")) return copies(c, times);
    return jsonb_speed(c->call, strlen(c->call), c->argument.bytes, c->argument.len, c->other.bytes, c->other.len,
                       c->document.bytes, c->document.len, zero, times);
}

static double nanoseconds(const Case *c, size_t times)
{
    struct timespec before, after;
    clock_gettime(CLOCK_PROCESS_CPUTIME_ID, &before);
    uint64_t said = make_calls(c, times);
    clock_gettime(CLOCK_PROCESS_CPUTIME_ID, &after);
    if (said == REFUSED) fail("was refused", c->series);
    return (double)(after.tv_sec - before.tv_sec) * 1e9 + (double)(after.tv_nsec - before.tv_nsec);
}

/* The best time of a call, of five batches; of one call if it is long. */
static double best(const Case *c)
{
    size_t times = 1;
    double took = nanoseconds(c, times);
    while (took < BATCH) times *= 2, took = nanoseconds(c, times);
    double least = took / (double)times;
    for (int i = 0; i < 4 && took < 10 * BATCH; i++) {
        double again = nanoseconds(c, times) / (double)times;
        if (again < least) least = again;
    }
    return least;
}

static bool next_case(FILE *cases, Case *c)
{
    char files[3][512];
    if (fscanf(cases, "%127[^\t]\t%31[^\t]\t%63[^\t]\t%511[^\t]\t%511[^\t]\t%511[^\n]\n", c->series, c->size, c->call, files[0],
               files[1], files[2]) != 6)
        return false;
    c->argument = read_file(files[0]), c->other = read_file(files[1]), c->document = read_file(files[2]);
    return true;
}

static void let_case_go(Case *c) { let_go(c->argument), let_go(c->other), let_go(c->document); }

static double best_of_three(const Case *c)
{
    double least = nanoseconds(c, 1);
    for (int i = 0; i < 2; i++) {
        double again = nanoseconds(c, 1);
        if (again < least) least = again;
    }
    return least;
}

static void time_all(FILE *cases, double limit, bool is_few)
{
    char series[128] = "";
    double before = 0, last = 0, last_size = 1;
    bool ended = false;
    for (Case c; next_case(cases, &c); let_case_go(&c)) {
        if (strcmp(series, c.series)) strcpy(series, c.series), before = last = 0, ended = false;
        /* The third size is guessed from the first two, the second as if the time grew by the square, which is the most. */
        double size = atof(c.size), most = size / last_size * (size / last_size);
        double guessed = last * (before > 0 && last / before < most ? last / before : most);
        ended = ended || guessed > limit;
        if (ended) continue;
        before = last, last_size = size, last = is_few ? best_of_three(&c) : best(&c);
        printf("%s\t%s\t%.1f\n", c.series, c.size, last);
        fflush(stdout);
    }
}

static void count_all(FILE *cases)
{
    int line = 0;
    for (Case c; next_case(cases, &c); let_case_go(&c)) {
        char name[16];
        snprintf(name, sizeof name, "%d", line++);
        CALLGRIND_ZERO_STATS;
        if (make_calls(&c, 1) == REFUSED) fail("was refused", c.series);
        CALLGRIND_DUMP_STATS_AT(name);
    }
}

/* Makes calls, whose cost callgrind dumps when this returns. */
__attribute__((noinline)) void counted(const Case *c, size_t times);
void counted(const Case *c, size_t times)
{
    if (make_calls(c, times) == REFUSED) fail("was refused", c->series);
}

static void count_twice(FILE *cases)
{
    for (Case c; next_case(cases, &c); let_case_go(&c)) counted(&c, 1), counted(&c, 1), counted(&c, 2);
}

static int once(char **words)
{
    Case c = {.argument = read_file(words[1]), .other = read_file(words[2]), .document = read_file(words[3])};
    snprintf(c.call, sizeof c.call, "%s", words[0]);
    uint64_t said = make_calls(&c, 1);
    if (said == REFUSED)
        puts("refused");
    else
        printf("%llu\n", (unsigned long long)said);
    return 0;
}

int main(int argc, char **argv)
{
    if (argc == 6 && !strcmp(argv[1], "once")) return once(argv + 2);
    FILE *cases = argc >= 3 ? fopen(argv[2], "r") : NULL;
    if (!cases) fail("no cases", argc >= 3 ? argv[2] : "");
    bool is_few = !strcmp(argv[1], "few");
    if (argc == 4 && (is_few || !strcmp(argv[1], "times"))) time_all(cases, atof(argv[3]), is_few);
    if (!strcmp(argv[1], "counts")) count_all(cases);
    if (!strcmp(argv[1], "twice")) count_twice(cases);
    return 0;
}
