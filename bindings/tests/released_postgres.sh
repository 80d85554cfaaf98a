#!/usr/bin/env bash
# released_postgres.sh ARCHIVE ROOT: unpacks a release's extension in ROOT, the copy of a server that postgres/test.sh started, in place
# of the one that is there, and runs the example. PGHOST, PGUSER and PGDATABASE name the server.
set -eu
here=$(cd "$(dirname "$0")/.." && pwd) archive=$1 root=$2
rm "$root$(pg_config --pkglibdir)/jdoc.so" "$root$(pg_config --sharedir)"/extension/jdoc*
tar -xzf "$archive" -C "$root" --strip-components=1
chmod -R go+rX "$root"
psql -Xq -v ON_ERROR_STOP=1 -c 'CREATE EXTENSION jdoc'
diff <(psql -Xaq <"$here/postgres/sql/example.sql" 2>&1) "$here/postgres/expected/example.out"
version=$(psql -XAtq -c "SELECT extversion FROM pg_extension WHERE extname = 'jdoc'")
[[ ${archive##*/} = *-$version-* ]]
