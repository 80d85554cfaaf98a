#!/usr/bin/env bash
# The tests of the package: it is built without network, installed and used as a user would.
#
#   test.sh FOLDER [DIST]     FOLDER has libjdoc.a and libjdoc.so, and DIST the wheel and the source distribution of an earlier build, if
#                             there was one. The last line is `N passed, M failed`
#
# interpreter.sh chooses the interpreter. If mypy, hypothesis, numpy, tqdm or distributed is missing (bindings/setup.sh installs
# them), a line says that its tests are skipped.
cd "$(dirname "${BASH_SOURCE[0]}")" || exit 1
jdoc=$(cd "$1" && pwd) || exit 1
passed=0 failed=0
room=$(mktemp -d) || exit 1
trap 'rm -rf "$room"' EXIT
export PYTHONDONTWRITEBYTECODE=1 PIP_DISABLE_PIP_VERSION_CHECK=1 JDOC_LIBRARY=$jdoc/libjdoc.so
export HYPOTHESIS_STORAGE_DIRECTORY=$room/hypothesis

# Runs a command: one test by its status, or what its last line counts.
count() {
    local name=$1 status last
    shift
    "$@" >"$room/said" 2>&1
    status=$?
    last=$(tail -n 1 "$room/said")
    if [[ $last =~ ^([0-9]+)\ passed,\ ([0-9]+)\ failed$ ]]; then
        passed=$((passed + BASH_REMATCH[1])) failed=$((failed + BASH_REMATCH[2]))
        [ "$last" != "0 passed, 0 failed" ] || failed=$((failed + 1))
        grep '^skipped: ' "$room/said"
        [ "$status" = 0 ] || cat "$room/said"
    elif [ "$status" = 0 ]; then
        passed=$((passed + 1))
    else
        failed=$((failed + 1))
        echo "failed: $name"
        tail -n 30 "$room/said"
    fi
}

# A program that must end with a status other than 0 and say this.
fails_with() {
    local expected=$1
    shift
    if "$@" >"$room/refused" 2>&1; then return 1; fi
    grep -q -- "$expected" "$room/refused"
}

if ! python=$(./interpreter.sh); then
    echo "skipped: no Python 3.11 or later with its headers, setuptools and wheel"
    echo "0 passed, 0 failed"
    exit 0
fi

# The wheel has the library inside, and the tag of the oldest C library that its module works with. It is built from the source
# distribution.
count "build" make -s PYTHON="$python" JDOC="$jdoc" OUT="$room/out" dist
wheel=$(echo "$room"/out/dist/jsonb_paths-*-cp311-abi3-manylinux_*.whl)
names_its_platform() {
    local module newest
    module=$(echo "$room"/out/unpacked/*/build/lib*/jsonb_paths/_core.abi3.so)
    newest=$(objdump -T "$module" | grep -o 'GLIBC_[0-9.]*' | sort -uV | tail -n 1) && [ -n "$newest" ] || return 1
    newest=${newest#GLIBC_}
    [ "${wheel##*-}" = "manylinux_${newest/./_}_$(uname -m).whl" ]
}
count "a wheel for this platform" names_its_platform
for file in "$room"/out/dist/*; do
    [ ! -d "${2:-}" ] || count "the same bytes as the release's ${file##*.}" cmp "$2/${file##*/}" "$file"
done
cp -r "$room/out/tree" "$room/bare" && rm -rf "$room/bare/lib" "$room/bare/build"
count "no library, no package" fails_with "libjdoc.a is not here" env -u JDOC_LIBRARY_DIR -C "$room/bare" "$python" setup.py -q bdist_wheel
count "a module that is not built" fails_with "make. in bindings/python" env -C "$room/bare" "$python" -c "import jsonb_paths"

# A fresh virtual environment without network.
count "a virtual environment" "$python" -m venv "$room/venv"
count "pip install" "$room/venv/bin/pip" -q install --no-index "$wheel"
count "a program in it" env -C "$room" "$room/venv/bin/python" "$PWD/examples/first.py"
count "the command in it" diff <(echo '{"a":[1.50]}' | "$room/venv/bin/jdoc" select '$.a[*]') <(echo 1.50)

# The tests of the installed package, from a folder without the sources, which have no module.
count "pip install --target" "$python" -m pip -q install --no-index --no-deps --target "$room/site" "$wheel"
count "tests" env -C "$room" PYTHONPATH="$room/site" "$python" "$PWD/tests/run.py"
if "$python" -c 'import mypy' 2>/dev/null; then
    mypy=("$python" -m mypy --strict --cache-dir "$room/mypy")
    count "types of the package" env -C "$room/site" "${mypy[@]}" --config-file "$PWD/pyproject.toml" -p jsonb_paths
    count "types of a user's program" env MYPYPATH="$room/site" "${mypy[@]}" tests/user.py
    count "types of the module" env -C "$room" PYTHONPATH="$room/site" MYPYPATH="$room/site" "$python" -m mypy.stubtest jsonb_paths._core
else
    echo "skipped: types: mypy is not installed (apt-get install mypy)"
fi

echo "$passed passed, $failed failed"
[ "$failed" = 0 ]
