#!/usr/bin/env bash
# test.sh LIB OUT: builds the extension with LIB/libjdoc.a in the folder OUT, and tests it in the shell and in Python, plain and with
# the address and undefined-behaviour sanitizers. The last line is `N passed, M failed`.
here=$(cd "$(dirname "${BASH_SOURCE[0]}")" && pwd) || exit 1
lib=$1 out=$2 passed=0 failed=0

end() {
    echo "$passed passed, $failed failed"
    [ "$failed" = 0 ]
    exit
}
# Runs a command, shows it if it fails, and adds its count, or 1.
count() {
    local name=$1 said status last
    shift
    said=$("$@" 2>&1)
    status=$? last=${said##*$'\n'}
    if [[ $last =~ ^([0-9]+)\ passed,\ ([0-9]+)\ failed$ ]] && { [ "$status" = 0 ] || [ "${BASH_REMATCH[2]}" != 0 ]; }; then
        passed=$((passed + BASH_REMATCH[1])) failed=$((failed + BASH_REMATCH[2]))
        [ "$last" != "0 passed, 0 failed" ] || failed=$((failed + 1))
    elif [ "$status" = 0 ]; then
        passed=$((passed + 1))
    else
        failed=$((failed + 1))
    fi
    [ "$status" = 0 ] || printf '%s\n' "$said"
    echo "SQLite, $name: ${last:-status $status}"
}
loads_extensions() {
    command -v "$1" >/dev/null && "$1" -c 'import sqlite3; sqlite3.Connection.enable_load_extension' 2>/dev/null
}

if ! echo '#include <sqlite3ext.h>' | cc -E - >/dev/null 2>&1; then
    echo "skipped: SQLite: there is no sqlite3ext.h"
    end
fi
count "both extensions, without a warning" make -s -j2 -C "$here" LIB="$lib" OUT="$out" all sanitized
[ "$failed" = 0 ] || end
if command -v sqlite3 >/dev/null; then
    count "shell" diff <(sqlite3 -cmd ".load $out/jdoc" <"$here/example.sql" 2>&1) "$here/example.txt"
else
    echo "skipped: SQLite, shell: there is no sqlite3"
fi
# Not every Python's sqlite3 loads extensions.
python=
for it in /usr/bin/python3 python3 "${PYTHON:-python3}"; do
    if loads_extensions "$it"; then python=$it; fi
done
if [ -z "$python" ]; then
    echo "skipped: SQLite, Python: no sqlite3 module loads extensions"
    end
fi
count "Python" env JDOC_SQLITE="$out/jdoc" "$python" "$here/tests/run.py"
count "Python, sanitized" env JDOC_SQLITE="$out/sanitized/jdoc" ASAN_OPTIONS=detect_leaks=0 \
    LD_PRELOAD="$(cc -print-file-name=libasan.so) $(cc -print-file-name=libubsan.so)" "$python" "$here/tests/run.py"
end
