#!/usr/bin/env bash
# two_servers.sh ONE TWO: a table of documents in two servers of PostgreSQL that have the extension: a partition in the server ONE, and
# one in the server TWO, which postgres_fdw reads. Both are folders of sockets (postgres/test.sh), and PGUSER is a superuser of both.
# The last line is `N passed, M failed`.
one=$1 two=$2 passed=0 failed=0
query() { psql -h "$1" -XAtq -v ON_ERROR_STOP=1 -c "$2"; }
# Compares what is printed with what is expected.
expect() {
    if [ "$2" = "$3" ]; then
        passed=$((passed + 1))
    else
        failed=$((failed + 1))
        printf 'failed: %s: %s instead of %s\n' "$1" "$2" "$3"
    fi
}

if [ ! -f "$(pg_config --sharedir)/extension/postgres_fdw.control" ]; then
    echo "skipped: PostgreSQL, two servers: there is no postgres_fdw"
    echo "0 passed, 0 failed"
    exit
fi
query "$two" "CREATE EXTENSION jdoc; CREATE TABLE people_two (id int, d jdoc CHECK (d @? '\$.age'));
    CREATE INDEX by_age ON people_two ((d -> 'age'))" &&
    query "$one" "CREATE EXTENSION jdoc; CREATE EXTENSION postgres_fdw;
    CREATE SERVER two FOREIGN DATA WRAPPER postgres_fdw OPTIONS (host '$two', dbname '$PGDATABASE', extensions 'jdoc');
    CREATE USER MAPPING FOR CURRENT_USER SERVER two OPTIONS (user '$PGUSER');
    CREATE TABLE people (id int, d jdoc) PARTITION BY RANGE (id);
    CREATE TABLE people_one PARTITION OF people FOR VALUES FROM (0) TO (1000);
    CREATE FOREIGN TABLE people_two PARTITION OF people FOR VALUES FROM (1000) TO (2000) SERVER two;
    CREATE TABLE everyone AS SELECT n AS id, ('{\"age\":' || n % 90 || ',\"name\":\"n' || n || '\",\"tags\":[\"t' || n % 7 || '\"]}')::jdoc AS d
        FROM generate_series(0, 1999) AS n;
    INSERT INTO people SELECT * FROM everyone" || exit 1

expect "half of the rows are in each server" "$(query "$one" 'SELECT count(*) FROM people_one') $(query "$two" 'SELECT count(*) FROM people_two')" "1000 1000"
# The other server evaluates paths and containment, so that only its results are sent.
sent=("d @@ '\$.age > 40'" "d @> '{\"tags\":[\"t3\"]}'" "d @? '\$.tags[*] ? (@ == \"t5\")'" "d > '{\"age\":5}'")
for condition in "${sent[@]}"; do
    plan=$(query "$one" "EXPLAIN (VERBOSE, COSTS OFF) SELECT id FROM people WHERE $condition" | grep 'Remote SQL')
    expect "sent: $condition" "$(grep -c 'WHERE' <<<"$plan")" 1
done
# As with jsonb, postgres_fdw does not send operators on type text, since they have a collation.
for condition in "${sent[@]}" "d -> 'age' = '7'" "d ->> 'name' = 'n1234'"; do
    expect "found: $condition" "$(query "$one" "SELECT md5(string_agg(id::text, ',' ORDER BY id)) FROM people WHERE $condition")" \
        "$(query "$one" "SELECT md5(string_agg(id::text, ',' ORDER BY id)) FROM everyone WHERE $condition")"
done
for result in "string_agg(d ->> 'name', ',' ORDER BY d -> 'age', d)" "count(DISTINCT d -> 'age')" "md5(string_agg(d::text, ',' ORDER BY d))"; do
    expect "$result" "$(query "$one" "SELECT $result FROM people")" "$(query "$one" "SELECT $result FROM everyone")"
done
groups="SELECT md5(string_agg(age::text || n, ',' ORDER BY age)) FROM (SELECT d -> 'age' AS age, count(*) AS n FROM"
expect "groups" "$(query "$one" "$groups people GROUP BY 1) AS x")" "$(query "$one" "$groups everyone GROUP BY 1) AS x")"
query "$one" "UPDATE people SET d = jdoc_set(d, 'age', '91') WHERE d @@ '\$.name == \"n1500\"'"
expect "an update of the other server" "$(query "$two" "SELECT d -> 'age' FROM people_two WHERE id = 1500")" 91
expect "a constraint of the other server" "$(query "$one" "INSERT INTO people VALUES (1001, '{}')" 2>&1 | grep -c 'violates check constraint')" 1
expect "an error in the other server" "$(query "$one" "SELECT count(jdoc_path_query_array(d, 'strict \$.none')) FROM people_two" 2>&1 | grep -c ERROR)" 1

echo "$passed passed, $failed failed"
[ "$failed" = 0 ]
