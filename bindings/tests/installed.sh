#!/usr/bin/env bash
# installed.sh PREFIX: uses what is installed there as a user would: programs in C and C++ by pkg-config if it is installed, the
# extension of SQLite if it is there, and the manual page. The last line is `N passed, M failed`.
set -eu
trap 'echo "failed: line $LINENO: $BASH_COMMAND"' ERR
prefix=$1 here=$(cd "$(dirname "$0")" && pwd) passed=0 room=$(mktemp -d)
trap 'rm -rf "$room"' EXIT
export PKG_CONFIG_PATH=$prefix/lib/pkgconfig LD_LIBRARY_PATH=$prefix/lib
version=$(sed -n 's/^#define JDOC_VERSION  *"\(.*\)"/\1/p' "$prefix/include/jdoc.h")

test -f "$prefix/lib/libjdoc.so.$version"
if command -v pkg-config >/dev/null; then
    read -ra flags <<<"$(pkg-config --cflags --libs jdoc)"
    read -ra text_flags <<<"$(pkg-config --cflags --libs jdoc_text)"
    test "$(pkg-config --modversion jdoc)" = "$version"
    test "$(pkg-config --modversion jdoc_text)" = "$version"
else
    echo "skipped: the pkg-config file: there is no pkg-config"
    flags=("-I$prefix/include" "-L$prefix/lib" -ljdoc)
    text_flags=("-I$prefix/include" "-L$prefix/lib" -ljdoc_text -ljdoc)
fi
cc -std=c11 -o "$room/example" "$here/../c/example.c" "${flags[@]}"
"$room/example" | cmp - "$here/../c/example.txt"
cc -std=c11 -o "$room/items" "$here/../text/examples/items.c" "${text_flags[@]}"
"$room/items" | cmp - "$here/../text/examples/items.txt"
passed=$((passed + 2))

if command -v c++ >/dev/null; then
    sed 's|"../jdoc.hpp"|<jdoc.hpp>|' "$here/../c/tests/cpp.cpp" >"$room/cpp.cpp"
    c++ -std=c++17 -o "$room/cpp" "$room/cpp.cpp" "${flags[@]}"
    "$room/cpp"
    passed=$((passed + 1))
else
    echo "skipped: a program in C++: there is no c++"
fi

if [ -e "$prefix/lib/sqlite3/jdoc.so" ]; then
    diff <(sqlite3 -cmd ".load $prefix/lib/sqlite3/jdoc" <"$here/../sqlite/example.sql" 2>&1) "$here/../sqlite/example.txt"
    passed=$((passed + 1))
fi

# Each function of a header has its part of the page, and a name by which the page is found.
for header in jdoc jdoc_text; do
    page=$prefix/share/man/man3/$header.3
    functions=$(sed -n 's/^\S.*[ *]\(jdoc_[a-z0-9_]*\)(.*/\1/p' "$prefix/include/$header.h" | sort -u)
    test -n "$functions"
    for name in $functions; do
        grep "^\.Ss .*\b$name\b" "$page" >/dev/null
        cmp "$prefix/share/man/man3/$name.3" "$page"
    done
    passed=$((passed + 1))
    if command -v mandoc >/dev/null; then
        mandoc -T lint -W warning "$page"
        passed=$((passed + 1))
    else
        echo "skipped: warnings of the manual page: there is no mandoc"
    fi
    if command -v man >/dev/null; then
        test -z "$(man --warnings -l "$page" 2>&1 >/dev/null)"
        passed=$((passed + 1))
    else
        echo "skipped: the manual page by man: there is no man"
    fi
done
echo "$passed passed, 0 failed"
