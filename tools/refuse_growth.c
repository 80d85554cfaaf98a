// Preloaded before the C library. Allocations (malloc, and realloc) are counted, and fail, between the marks `[` and `]` that
// jsonb_sweep writes, and nowhere else. Environment variables:
//   `REFUSE=N`        fails the Nth allocation after each `[`; 0 fails none
//   `REFUSE_BEHIND`   fails each allocation after that one too
//   `REFUSE_ALL`      takes the whole run as marked, for a program that writes no marks
// For each line that the program writes, a line goes to descriptor 3: the allocations between its marks, how many of them
// failed, and how many blocks are held.
#define _GNU_SOURCE
#include <errno.h>
#include <stdio.h>
#include <stdlib.h>
#include <sys/syscall.h>
#include <unistd.h>

extern void *__libc_malloc(size_t size);
extern void *__libc_realloc(void *block, size_t size);
extern void __libc_free(void *block);

static long first = 0;
static int is_behind_too = 0;
static int is_whole_run = 0;
static int is_marked = 0;
static long growths = 0;
static long refused = 0;
static long held = 0;

__attribute__((constructor)) static void start(void) {
    const char *number = getenv("REFUSE");
    first = number ? atol(number) : 0;
    is_behind_too = getenv("REFUSE_BEHIND") != NULL;
    is_whole_run = getenv("REFUSE_ALL") != NULL;
    is_marked = is_whole_run;
    // What the C library allocated for itself until here is not the program's.
    held = 0;
}

static int is_refused(void) {
    if (!is_marked) {
        return 0;
    }
    growths += 1;
    if (first == 0 || growths < first || (growths > first && !is_behind_too)) {
        return 0;
    }
    refused += 1;
    errno = ENOMEM;
    return 1;
}

void *malloc(size_t size) {
    void *block = is_refused() ? NULL : __libc_malloc(size);
    held += block != NULL;
    return block;
}

void *realloc(void *block, size_t size) {
    void *moved = is_refused() ? NULL : __libc_realloc(block, size);
    held += moved != NULL && block == NULL;
    return moved;
}

void free(void *block) {
    held -= block != NULL;
    __libc_free(block);
}

static void tell(void) {
    char line[96];
    int length = snprintf(line, sizeof line, "%ld %ld %ld\n", growths, refused, held);
    syscall(SYS_write, 3, line, (size_t)length);
}

static void see(const char *text, size_t size) {
    if (size == 1 && text[0] == '[') {
        growths = 0;
        refused = 0;
        is_marked = 1;
    } else if (size == 1 && text[0] == ']') {
        is_marked = 0;
    } else if (size > 0 && text[size - 1] == '\n' && !is_whole_run) {
        tell();
    }
}

static ssize_t written(int file, const void *bytes, size_t size) {
    if (file == STDOUT_FILENO) {
        see(bytes, size);
    }
    return syscall(SYS_write, file, bytes, size);
}

ssize_t write(int file, const void *bytes, size_t size) { return written(file, bytes, size); }
ssize_t __write(int file, const void *bytes, size_t size) { return written(file, bytes, size); }

__attribute__((destructor)) static void stop(void) {
    if (is_whole_run) {
        tell();
    }
}
