#!/usr/bin/env bash
# The tests of the library for C and of what uses it. Needs crates/jsonb_c/out/libjsonb_c.a (tools/library.py build), the
# toolchain's heap file (see bindings/c/Makefile), cc, make and python3; c++ and cargo are used if they are installed. The last line
# is `N passed, M failed`, and the one before it has the minutes.
cd "$(dirname "${BASH_SOURCE[0]}")" || exit 1
room=$(mktemp -d) || exit 1
chmod 711 "$room" # the server of PostgreSQL runs as another user
trap 'rm -rf "$room"' EXIT

# Runs a command and notes what its last line counts. One that counts nothing is one test by its status. A count of no test is a failure,
# unless a line says `skipped: ..`.
count() {
    local name=$1 said status last skipped ok=0 bad=1
    shift
    said=$(mktemp -p "$room") || exit 1
    "$@" >"$said" 2>&1
    status=$?
    last=$(tail -n 1 "$said")
    skipped=$(grep '^skipped: ' "$said") && echo "$skipped"
    if [[ $last =~ ^([0-9]+)\ passed,\ ([0-9]+)\ failed$ ]]; then
        ok=$((10#${BASH_REMATCH[1]})) bad=$((10#${BASH_REMATCH[2]}))
        if [ "$bad" = 0 ] && { [ "$status" != 0 ] || [ "$ok$skipped" = 0 ]; }; then bad=1; fi
    elif [ "$status" = 0 ]; then
        ok=1 bad=0
    fi
    [ "$bad" = 0 ] || tail -n 100 "$said"
    echo "$ok $bad" >>"$room/counts"
    echo "$name: ${last:-status $status}"
}

# Writes the rows for a test, by a script and its arguments.
rows() {
    local to=$1
    shift
    python3 "$@" >"$to" || echo "0 1" >>"$room/counts"
}

out=$room/out
parts=(library)
if command -v sqlite3 >/dev/null && echo '#include <sqlite3ext.h>' | cc -E - >/dev/null 2>&1; then parts+=(sqlite); fi
export JDOC_LIBRARY=$out/libjdoc.so PYTHONDONTWRITEBYTECODE=1
export SOURCE_DATE_EPOCH=1700000000 # the release and the tests of Python build the same wheel

in_c() {
    rows "$room/rows" tests/rows.py
    for kind in "" _refusing _sanitized; do
        count "worked rows$kind" "$out/rows$kind" "$room/rows"
        count "columns$kind" "$out/columns$kind"
    done
    for kind in "" _sanitized; do
        count "prepared paths in threads$kind" "$out/threads$kind"
    done
    if command -v valgrind >/dev/null; then
        count "prepared paths under valgrind" valgrind -q --error-exitcode=9 --leak-check=full "$out/threads" 12
    else
        echo "skipped: prepared paths under valgrind: there is no valgrind"
    fi
    count "limits of the format" "$out/limits"
    count "header, as C" "$out/header_c"
    if [ -x "$out/header_cpp" ]; then
        count "header, as C++" "$out/header_cpp"
        count "jdoc.hpp" "$out/cpp"
        count "jdoc.hpp, as C++20" "$out/cpp20"
    else
        echo "skipped: the header as C++: there is no c++"
    fi
    count "example" diff <("$out/example") c/example.txt
    count "example with prepared paths" diff <("$out/prepared") c/prepared.txt
    count "example with events" diff <("$out/events") c/events.txt
    count "bench" "$out/bench" 1000
    if [ -x "$out/bench_times" ]; then
        count "bench by time" "$out/bench_times" --benchmark_min_time=0.0001
    else
        echo "skipped: bench by time: there is no Google Benchmark"
    fi
    count "names" python3 tests/exports.py "$out"
    count "install" make -s -C . LIB="$out" OUT="$room/install" PREFIX="$room/installed" PARTS="${parts[*]}" install
    count "what is installed" tests/installed.sh "$room/installed"
}

as_text() {
    rows "$room/text_rows" text/tests/rows.py
    count "JSON text" "$room/text/text" "$room/text_rows"
    count "JSON text, sanitized" "$room/text/text_sanitized" "$room/text_rows" 20000
    count "JSON text, beside jdoc_check" "$room/text/check"
    count "JSON text, beside jdoc_check, sanitized" "$room/text/check_sanitized" 20000
    if echo -e '#include <yajl/yajl_parse.h>\n#include <rapidjson/reader.h>' | "${CXX:-c++}" -x c++ -E - >/dev/null 2>&1; then
        count "JSON text, beside yajl and RapidJSON" python3 -B bench/readers.py "$out" "$room/text" --check
    else
        echo "skipped: JSON text beside other readers: there is no c++, yajl or RapidJSON"
    fi
}

in_sqlite() {
    count "SQLite" sqlite/test.sh "$out" "$room/sqlite"
}

in_postgres() {
    local server="$PWD/postgres/test.sh" # starts a server, for a command that starts the other one
    count "PostgreSQL" "$server" "$out" "$room/postgres"
    count "PostgreSQL, two servers" "$server" "$out" "$room/one" "$server" "$out" "$room/two" "$PWD/tests/two_servers.sh" "$room/one" "$room/two"
}

in_python() {
    count "release" tests/dist.sh "$out" "$room/release"
    count "Python" python/test.sh "$out" "$room/release/first/dist"
}

in_rust() {
    if command -v cargo >/dev/null; then
        local libraries=(env JDOC_LIB_DIR="$out" JDOC_TEXT_LIB_DIR="$room/text" CARGO_TARGET_DIR="$room/target")
        count "Rust" "${libraries[@]}" cargo test -q --offline --workspace --manifest-path rust/Cargo.toml
        count "Rust, the example of the crate jsonb" diff <(echo 'value={"number":3720453,"type":"home"}') \
            <("${libraries[@]}" cargo run -q --offline --manifest-path rust/Cargo.toml -p jsonb_example --example readme)
    else
        echo "skipped: Rust: there is no cargo"
    fi
    if [ "$(bindgen --version 2>/dev/null)" = "bindgen 0.60.1" ] && command -v rustfmt >/dev/null; then
        count "declarations in Rust" rust/sys/generate.sh --check
    else
        echo "skipped: declarations in Rust as bindgen writes them: there is no bindgen 0.60.1 or no rustfmt"
    fi
}

count "libraries, examples and tests, without a warning" make -s -j4 -C c OUT="$out" all example bench tests
count "JSON text: library and tests, without a warning" make -s -j4 -C text OUT="$room/text" JDOC="$out" all tests
# These run side by side.
tests=(in_c as_text in_sqlite in_postgres in_python in_rust)
declare -A begun
for it in "${tests[@]}"; do
    "$it" >"$room/said_of_$it" 2>&1 &
    begun[$it]=$!
done
for it in "${tests[@]}"; do
    # (A function fails only if it is stopped.)
    wait "${begun[$it]}" || echo "0 1" >>"$room/counts"
    cat "$room/said_of_$it"
done

awk -v seconds="$SECONDS" 'BEGIN { printf "bindings: %.1f min\n", seconds / 60 }'
awk '{ passed += $1; failed += $2 } END { print passed " passed, " failed " failed"; exit failed > 0 }' "$room/counts"
