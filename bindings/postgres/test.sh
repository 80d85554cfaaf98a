#!/usr/bin/env bash
# test.sh LIB OUT: builds the extension with LIB/libjdoc_heap.a in the folder OUT, and tests it in a separate server: a copy of the
# installed PostgreSQL below OUT, so that the installed one does not change. The last line is `N passed, M failed`.
# test.sh LIB OUT COMMAND ..: runs a command in place of the tests, with PGHOST, PGUSER, PGDATABASE and PGDATA of this server, and
# PGBIN, the folder of its programs.
# With JDOC_VALGRIND=1 the server runs under valgrind, and an error in the extension is a failure; it takes about an hour.
here=$(cd "$(dirname "${BASH_SOURCE[0]}")" && pwd) || exit 1
lib=$(cd "$1" && pwd) && mkdir -p "$2" && out=$(cd "$2" && pwd) || exit 1

skip() {
    echo "skipped: PostgreSQL: $1"
    echo "0 passed, 0 failed"
    exit 0
}
command -v pg_config >/dev/null || skip "there is no pg_config"
bin=$(pg_config --bindir) pgxs=$(pg_config --pgxs)
regress=$(dirname "$(dirname "$pgxs")")/../src/test/regress/pg_regress
[ -x "$bin/postgres" ] || skip "there is no server"
[ -f "$pgxs" ] && [ -f "$(pg_config --includedir-server)/postgres.h" ] && [ -x "$regress" ] || skip "there is no postgresql-server-dev"

# The server does not run as root. Its user may not be able to read the repository.
user=$(id -un)
if [ "$(id -u)" = 0 ]; then
    user=postgres
    id "$user" >/dev/null 2>&1 || skip "there is no user $user"
fi
mkdir -p "$out/tests" && cp -r "$here/sql" "$here/expected" "$out/tests" || exit 1
as_user() { if [ "$(id -un)" = "$user" ]; then "$@"; else runuser -u "$user" -- "$@"; fi; }
passed=0 failed=0
report() {
    if [ "$2" = 0 ]; then passed=$((passed + 1)); else failed=$((failed + 1)); fi
    echo "PostgreSQL, $1: status $2"
}

# A server finds its folders by the path of its program, so the programs are copied and the other files linked.
root=$out/root
copy_server() {
    local folder program
    for folder in "$bin" "$(pg_config --pkglibdir)" "$(pg_config --sharedir)"; do
        mkdir -p "$root$folder" && cp -rsf "$folder/." "$root$folder" || return 1
    done
    for program in postgres initdb pg_ctl; do cp --remove-destination "$bin/$program" "$root$bin/$program" || return 1; done
}
build() {
    mkdir -p "$out/build" && cd "$out/build" &&
        make -s -j2 -f "$here/Makefile" LIB="$lib" COPT=-Werror all &&
        make -s -f "$here/Makefile" LIB="$lib" DESTDIR="$root" install
}
stop() { as_user "$root$bin/pg_ctl" -D "$out/data" -m "$1" stop >/dev/null 2>&1; }
trap 'stop immediate' EXIT
runs=$root$bin/postgres
if [ -n "$JDOC_VALGRIND" ]; then
    runs=$out/postgres_under_valgrind
    echo "#!/bin/sh
exec valgrind -q --error-limit=no --fullpath-after= --log-file='$out/data/valgrind.%p' '$root$bin/postgres' \"\$@\"" >"$runs"
    chmod +x "$runs"
fi
# The reports of valgrind that name the extension. Others are of the server, which is not built for valgrind.
errors_of_valgrind() {
    stop fast
    cat "$out"/data/valgrind.* | sed 's/^==[0-9]*== *//' |
        awk -v RS= -v paths="$here|$(dirname "$here")/text|jdoc[.]so" '$0 ~ paths { print; print ""; found++ } END { exit (found > 0) }'
}
start() {
    mkdir -p "$out/data" "$out/results" && { [ "$(id -un)" = "$user" ] || chown "$user" "$out" "$out/data" "$out/results"; }
    as_user "$root$bin/initdb" -D "$out/data" -A trust -E UTF8 --locale=C.UTF-8 --no-sync >"$out/initdb.log" &&
        as_user "$root$bin/pg_ctl" -p "$runs" -t 300 -D "$out/data" -w -l "$out/data/log" \
            -o "-k $out -c listen_addresses= -c fsync=off -c max_parallel_workers_per_gather=2" start >/dev/null
}

copy_server && build >"$out/build.log" 2>&1
status=$?
[ "$status" = 0 ] || tail -n 40 "$out/build.log"
report "build" "$status"
cd "$out" || exit 1
if [ "$status" = 0 ] && start; then
    server=(env PGHOST="$out" PGUSER="$user" PGDATABASE=postgres PGDATA="$out/data" PGBIN="$root$bin")
    if [ $# -gt 2 ]; then
        "${server[@]}" "${@:3}"
        exit
    fi
    for name in example types operators paths order gin; do
        as_user "$regress" --bindir="$bin" --host="$out" --user="$user" --inputdir="$out/tests" --outputdir="$out/results" \
            --dbname="jdoc_$name" --load-extension=jdoc "$name" >"$out/regress.log" 2>&1
        status=$?
        [ "$status" = 0 ] || { tail -n 20 "$out/regress.log"; head -n 60 "$out/results/regression.diffs"; }
        report "$name" "$status"
    done
    "${server[@]}" python3 "$here/tests/test_server.py"
    status=$?
    report "server" "$status"
    grep -E 'terminated by signal|PANIC|TRAP' "$out/data/log" && failed=$((failed + 1))
    if [ -n "$JDOC_VALGRIND" ]; then
        errors_of_valgrind
        report "valgrind" "$?"
    fi
else
    [ "$status" != 0 ] || { tail -n 20 "$out/initdb.log" "$out/data/log"; report "start" 1; }
fi
echo "$passed passed, $failed failed"
[ "$failed" = 0 ]
