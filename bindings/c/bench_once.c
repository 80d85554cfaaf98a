/* Makes calls of bench.c once on each row, for callgrind.
 *
 *   bench ROWS                                 each call in each form; fails if a loop returns something else than the call
 *   bench ROWS CALL column|one|prepared|loop   one of them; `nothing` is no call */
#include "bench.h"

#include <stdio.h>
#include <stdlib.h>
#include <string.h>

static bool runs(const struct bench_call *it, int form) { return it->forms[form] && it->forms[form]() <= 1; }

/* Runs each form of a call. A loop has to return the same as the form before it, or as the call on one document. */
static bool run_forms(const struct bench_call *it) {
    uint64_t sums[BENCH_FORMS] = {0};
    for (int form = 0; form < BENCH_FORMS; form++) {
        bench_sum();
        if (it->forms[form] && !runs(it, form)) return false;
        sums[form] = bench_sum();
    }
    if (!it->forms[3] || sums[it->forms[2] ? 2 : 1] == sums[3]) return true;
    fprintf(stderr, "%s: the loop returns something else\n", it->name);
    return false;
}

static bool run_all(void) {
    bool fine = true;
    for (const struct bench_call *it = bench_calls; it < bench_calls + bench_calls_len; it++) fine = run_forms(it) && fine;
    return fine;
}

static bool run_named(const char *name, const char *form) {
    for (const struct bench_call *it = bench_calls; it < bench_calls + bench_calls_len; it++)
        for (int at = 0; at < BENCH_FORMS; at++)
            if (!strcmp(it->name, name) && !strcmp(bench_forms[at], form)) return runs(it, at);
    return !strcmp(name, "nothing");
}

int main(int argc, char **argv) {
    if (argc < 2 || !bench_start(strtoul(argv[1], NULL, 10))) return 1;
    return !(argc == 2 ? run_all() : run_named(argv[2], argc > 3 ? argv[3] : ""));
}
