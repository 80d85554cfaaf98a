/* The switch of tools/witness.py. When a test enters a function that has a mutant, its process forks: the child goes on with the mutant, the
 * parent waits for it, notes whether it failed, and goes on without. A mutant that a test rejected is not tried again. */
#include <fcntl.h>
#include <signal.h>
#include <stdint.h>
#include <stdio.h>
#include <stdlib.h>
#include <string.h>
#include <sys/resource.h>
#include <sys/wait.h>
#include <unistd.h>

/* The folder that has a file for each rejected mutant, named by its number: what the test wrote to standard error, and a line with how it
 * ended and the test's name. tools/witness.py puts the path here. */
#define REJECTED "@REJECTED@"
/* The test in which each mutant is tried, or NULL if it is tried in all. The first is none. tools/witness.py puts them here. */
static const char *const tests[] = {NULL, @TESTS@};
/* A child may run this many seconds, and use this much more memory than the test does. */
enum { SECONDS = 5, MEMORY = 1 << 30, COUNT = sizeof tests / sizeof *tests };

/* The mutant that runs: none in the process that the test began in. */
static uint32_t running;
static unsigned char is_tried[COUNT];

static void limit(int what, rlim_t most) {
    struct rlimit limits = {most, most};
    if (setrlimit(what, &limits))
        abort();
}

static void limit_child(void) {
    unsigned long pages = 0;
    FILE *sizes = fopen("/proc/self/statm", "r");
    if (!sizes || fscanf(sizes, "%lu", &pages) != 1)
        abort();
    fclose(sizes);
    limit(RLIMIT_AS, (rlim_t)pages * (rlim_t)sysconf(_SC_PAGESIZE) + MEMORY);
    limit(RLIMIT_CPU, SECONDS);
    limit(RLIMIT_CORE, 0);
}

static void begin_child(uint32_t number, const char *file) {
    int errors = open(file, O_CREAT | O_TRUNC | O_WRONLY, 0644), nowhere = open("/dev/null", O_WRONLY);
    if (errors < 0 || nowhere < 0 || dup2(errors, 2) < 0 || dup2(nowhere, 1) < 0)
        abort();
    limit_child();
    running = number;
}

/* Returns the name of the test that runs: the last argument of its process. */
static const char *this_test(void) {
    static char words[4096];
    static const char *name;
    if (name)
        return name;
    FILE *command = fopen("/proc/self/cmdline", "r");
    size_t len = command ? fread(words, 1, sizeof words - 1, command) : 0;
    if (!len)
        abort();
    fclose(command);
    name = words;
    for (size_t at = 0; at + 1 < len; at++)
        name = words[at] ? name : words + at + 1;
    return name;
}

/* Writes how a child ended to its file. */
static void note_end(const char *file, int status) {
    FILE *to = fopen(file, "a");
    if (!to)
        abort();
    fprintf(to, "\nstatus %d: %s", status, this_test());
    fclose(to);
}

/* Whether a child failed. One that has no more time says nothing: the test may take long by itself. */
static int has_failed(int status) {
    int signal = WIFSIGNALED(status) ? WTERMSIG(status) : 0;
    return status && signal != SIGXCPU && signal != SIGKILL;
}

/* Returns 1 in a child that runs the mutant, and 0 in the parent once that has ended. */
static uint32_t fork_for(uint32_t number, const char *file) {
    char unfinished[sizeof REJECTED + 32];
    int status;
    snprintf(unfinished, sizeof unfinished, REJECTED "/%u.%d", number, (int)getpid());
    pid_t child = fork();
    if (!child) {
        begin_child(number, unfinished);
        return 1;
    }
    if (child < 0 || waitpid(child, &status, 0) != child)
        abort();
    if (has_failed(status))
        note_end(unfinished, status);
    if (has_failed(status) ? rename(unfinished, file) : unlink(unfinished))
        abort();
    return 0;
}

uint32_t jsonb_witness_is(uint32_t number) {
    char file[sizeof REJECTED + 16];
    if (running || number >= COUNT || is_tried[number])
        return running == number;
    is_tried[number] = 1;
    if (tests[number] && strcmp(tests[number], this_test()))
        return 0;
    snprintf(file, sizeof file, REJECTED "/%u", number);
    return access(file, F_OK) ? fork_for(number, file) : 0;
}
