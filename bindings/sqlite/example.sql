-- People as documents: an index on a field, filters by a path, rows of an array. sqlite3 -cmd '.load ./out/jdoc' < example.sql
CREATE TABLE people (d BLOB NOT NULL CHECK (jdoc_check(d)));
INSERT INTO people VALUES
    (jdoc('{"name":"Ann","age":41,"phones":[{"type":"home","number":5550100},{"type":"work","number":5550101}]}')),
    (jdoc('{"name":"Bob","age":29.5,"phones":[]}')),
    (jdoc('{"name":"Eve","age":37,"phones":[{"type":"home","number":5550199}]}'));

-- A filter by a JSON path.
SELECT jdoc_value(d, '{name}') FROM people WHERE jdoc_match(d, '$.age > 35 && exists($.phones[*]?(@.type == "work"))');

-- An index on a field, in the order of sortable keys: numbers by value, whatever they are stored as.
CREATE INDEX by_age ON people (jdoc_key(jdoc_get(d, '{age}')));
SELECT jdoc_value(d, '{name}'), jdoc_value(d, '{age}') FROM people
WHERE jdoc_key(jdoc_get(d, '{age}')) BETWEEN jdoc_key(29) AND jdoc_key('40.5')
ORDER BY jdoc_key(jdoc_get(d, '{age}'));

-- A row for each item that a path selects.
SELECT jdoc_value(d, '{name}'), r.key, r.value FROM people, jdoc_rows(d, '$.phones[*].number') AS r;

-- An edit, and JSON text again.
UPDATE people SET d = jdoc_set(d, 'phones', '[]') WHERE jdoc_match(d, '$.name == "Ann"');
SELECT jdoc_json(d) FROM people WHERE jdoc_contains(d, '{"name":"Ann"}');

-- One document of many rows.
SELECT jdoc_json(jdoc_object_agg(jdoc_value(d, '{name}'), jdoc_get(d, '{age}'))) FROM people;
