/* Times the calls of bench.c by Google Benchmark: a benchmark NAME/FORM for each form of each. Times are those of 10,000
 * rows. The arguments are those of Google Benchmark, such as --benchmark_filter=match. */
#include "bench.h"

#include <benchmark/benchmark.h>

#include <string>

namespace {

constexpr std::size_t ROWS = 10000;

void add(const bench_call &it, const char *form, std::uint32_t (*call)()) {
    if (!call) return;
    const auto run = [call](benchmark::State &state) {
        for (auto _ : state)
            if (call() > 1) return state.SkipWithError("the call fails");
        state.SetItemsProcessed(std::int64_t(state.iterations()) * std::int64_t(ROWS));
    };
    benchmark::RegisterBenchmark((std::string(it.name) + "/" + form).c_str(), run)->Unit(benchmark::kMicrosecond);
}

} // namespace

int main(int argc, char **argv) {
    benchmark::Initialize(&argc, argv);
    if (benchmark::ReportUnrecognizedArguments(argc, argv) || !bench_start(ROWS)) return 1;
    for (const bench_call *it = bench_calls; it < bench_calls + bench_calls_len; it++) {
        for (int form = 0; form < BENCH_FORMS; form++) add(*it, bench_forms[form], it->forms[form]);
    }
    benchmark::RunSpecifiedBenchmarks();
    return 0;
}
