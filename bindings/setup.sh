#!/usr/bin/env bash
# Installs from Debian what the tests and the measurements of bindings/ need. A test says `skipped: ..` if something is
# missing, so nothing here has to be installed for them. .ci/run calls this, and fails if a test is skipped. Packages that are
# installed are left as they are, and without root or without a network this does nothing.
set -u

packages=(
    gcc g++ make binutils pkg-config valgrind mandoc           # the C library, its tests and measurements
    abigail-tools
    sqlite3 libsqlite3-dev                                    # bindings/sqlite
    postgresql postgresql-server-dev-all                      # bindings/postgres
    python3 python3-dev python3-setuptools python3-wheel      # bindings/python, the wheel
    python3-pip python3-venv
    python3-hypothesis python3-numpy python3-tqdm             # tests of bindings/python
    mypy python3-mypy
    python3-distributed                                       # its example of a cluster
    bindgen                                                   # the declarations of bindings/rust
    jq python3-ujson libbenchmark-dev libyajl-dev             # measurements
    rapidjson-dev
)

missing=()
for package in "${packages[@]}"; do
    dpkg-query -W -f '${Status}' "$package" 2>/dev/null | grep -q 'install ok installed' || missing+=("$package")
done
if [ "${#missing[@]}" = 0 ]; then
    exit 0
fi
if [ "$(id -u)" != 0 ] || ! command -v apt-get >/dev/null; then
    echo "skipped: setup: not root, or no apt-get: ${missing[*]}"
    exit 0
fi
export DEBIAN_FRONTEND=noninteractive
apt-get update -q -o Acquire::Retries=3 >/dev/null || { echo "skipped: setup: no package lists: ${missing[*]}"; exit 0; }
# At once, or one by one if that fails, so that the others are there.
add() { apt-get install -y -q -o Acquire::Retries=3 --no-install-recommends "$@" >/dev/null; }
add "${missing[@]}" || for package in "${missing[@]}"; do
    add "$package" || echo "skipped: setup: $package cannot be installed"
done
