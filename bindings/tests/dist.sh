#!/usr/bin/env bash
# dist.sh LIB OUT: builds a release with the libraries of LIB in the folder OUT, builds it once more in another folder, except for the
# part of Python, which python/test.sh builds once more, and uses each part without the toolchain and without a network. None is built
# of an older library. A part whose tools are missing is skipped with a line. The last line is `N passed, M failed`.
here=$(cd "$(dirname "$0")/.." && pwd) || exit 1
lib=$(cd "$1" && pwd) && mkdir -p "$2" && out=$(cd "$2" && pwd) || exit 1
passed=0 failed=0 parts=(library)

# Runs a command: one test by its status, or what its last line counts.
count() {
    local name=$1 said status last
    shift
    said=$("$@" 2>&1)
    status=$? last=${said##*$'\n'}
    grep '^skipped: ' <<<"$said"
    if [ "$status" != 0 ]; then
        failed=$((failed + 1))
        printf 'failed: %s\n%s\n' "$name" "$(tail -n 40 <<<"$said")"
    elif [[ $last =~ ^([0-9]+)\ passed,\ 0\ failed$ ]]; then
        passed=$((passed + BASH_REMATCH[1]))
    else
        passed=$((passed + 1))
    fi
}
# Adds a part if a command of its tools succeeds.
part() {
    local name=$1
    shift
    if "$@" >/dev/null 2>&1; then parts+=("$name"); else echo "skipped: release, $name: its tools are missing"; fi
}
has_sqlite() { echo '#include <sqlite3ext.h>' | cc -E -; }
part sqlite has_sqlite
has_pgxs() { test -f "$(pg_config --pgxs)" && test -f "$(pg_config --includedir-server)/postgres.h"; } # (a client has the first)
part postgres has_pgxs
part python "$here/python/interpreter.sh"
part rust cargo --version
has() { [[ " ${parts[*]} " = *" $1 "* ]]; }

# The library that LIB was made of, noted to be of these sources, and changed so that no release may be made of it.
export CRATE=$out/crate/libjsonb_c.a
note() {
    mkdir -p "$out/crate" && cp -p "$here/../crates/jsonb_c/out/libjsonb_c.a" "$CRATE" && python3 -B "$here/../tools/library.py" note "$CRATE"
}
refused() {
    local said
    said=$(make -s -C "$here" LIB="$out/older" OUT="$out/older" PARTS=library dist 2>&1) && return 1
    grep -F "$1" <<<"$said" && [ ! -e "$out/older/dist" ]
}
count "a library that was not noted" eval 'note && rm "${CRATE%.a}.sources" && refused "was not noted"'
count "a library of other sources" eval 'note && sed -i "s/^sources ./sources x/" "${CRATE%.a}.sources" && refused "of other sources"'
count "another library" eval 'note && echo >>"$CRATE" && refused "not the library that was noted"'
count "the library" note

count "build" make -s -C "$here" LIB="$lib" OUT="$out/first" PARTS="${parts[*]}" dist
others=${parts[*]/python/}
again() {
    (umask 077 && env TZ=Asia/Tokyo LC_ALL=C make -s -C "$here" LIB="$out/second/c" OUT="$out/second" PARTS="$others" dist) &&
        cmp <(grep -v ' jsonb_paths-' "$out/first/dist/SHA256SUMS") "$out/second/dist/SHA256SUMS"
}
count "the same bytes again" again
count "checksums" env -C "$out/first/dist" sha256sum --quiet -c SHA256SUMS

# Unpacks each archive into a folder of its part.
unpack() {
    local name file
    for name in "${parts[@]}"; do
        case $name in
        library) file=$(echo "$out"/first/dist/jdoc-[0-9]*.tar.gz) ;;
        python) continue ;;
        *) file=$(echo "$out/first/dist/jdoc-$name"*.tar.gz) ;;
        esac
        mkdir -p "$out/$name" && tar -xzf "$file" -C "$out/$name" --strip-components=1 &&
            find "$out/$name" -name LICENSE | grep -q . || return 1
    done
    if has python; then
        "$python" -m pip -q install --disable-pip-version-check --no-index --no-deps --no-compile --target "$out/python" "$out"/first/dist/*.whl
    fi
}
python=$("$here/python/interpreter.sh")
count "unpacking" unpack
no_paths() {
    grep -rlF --exclude=direct_url.json -e "$(cd "$here/.." && pwd)/" -e "$out/" -e "$lib/" "${parts[@]/#/$out/}"
    [ $? = 1 ]
}
count "no file names a folder of the build" no_paths

# A source distribution is built, which takes a compiler; the crate is compiled in a workspace of its own.
sdist() {
    "$python" -m pip -q install --disable-pip-version-check --no-index --no-deps --no-build-isolation --target "$out/sdist" "$out"/first/dist/jsonb_paths-*.tar.gz &&
        env -C "$out" PYTHONPATH="$out/sdist" "$python" "$here/python/examples/first.py"
}
crate() {
    local said
    said=$(env -u JDOC_LIB_DIR -u JDOC_TEXT_LIB_DIR CARGO_TARGET_DIR="$out/target" cargo run -q --offline --manifest-path "$out/rust/example/Cargo.toml") &&
        [ "$said" = '"Emma" true' ]
}
has rust && count "Rust" crate
# From here on only the system's programs are on the path.
export PATH=/usr/bin:/bin
count "library" "$here/tests/installed.sh" "$out/library"
if ! command -v sqlite3 >/dev/null; then
    echo "skipped: release, SQLite: there is no sqlite3"
elif has sqlite; then
    count "SQLite" diff <(sqlite3 -cmd ".load $out/sqlite/lib/sqlite3/jdoc" <"$here/sqlite/example.sql" 2>&1) "$here/sqlite/example.txt"
fi
if has python; then
    count "Python" env -C "$out" PYTHONPATH="$out/python" "$python" "$here/python/examples/first.py"
    count "Python from the source distribution" sdist
    count "command" diff <(echo '{"a":[1.50]}' | PYTHONPATH="$out/python" "$out/python/bin/jdoc" select '$.a[*]') <(echo 1.50)
fi
# The server finds the extension by its control file, that names the script and the module.
postgres() {
    local folder control version
    folder=$out/postgres$(pg_config --sharedir)/extension
    control=$folder/jdoc.control
    version=$(sed -n "s/^default_version = '\(.*\)'/\1/p" "$control")
    test -s "$folder/jdoc--$version.sql" &&
        test -e "$out/first/dist/jdoc-$version-"* &&
        grep -qF "module_pathname = '\$libdir/jdoc'" "$control" &&
        nm -D --defined-only "$out/postgres$(pg_config --pkglibdir)/jdoc.so" | grep -q ' Pg_magic_func$'
}
has postgres && count "PostgreSQL" postgres
# postgres/test.sh starts a server, in which the command replaces the extension by the release's.
starts_server() { [ "$(id -u)" != 0 ] || id postgres >/dev/null 2>&1; }
if ! starts_server; then
    echo "skipped: release, a server of PostgreSQL: there is no user postgres"
elif has postgres && [ -x "$(pg_config --bindir)/postgres" ]; then
    count "PostgreSQL, a server" env PATH="$PATH:/usr/sbin:/sbin" "$here/postgres/test.sh" "$lib" "$out/server" \
        "$here/tests/released_postgres.sh" "$(echo "$out"/first/dist/jdoc-postgres*.tar.gz)" "$out/server/root"
fi
echo "$passed passed, $failed failed"
[ "$failed" = 0 ]
