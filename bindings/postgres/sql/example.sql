-- People as documents: filters by a path and by containment, with indexes.
CREATE TABLE people (d jdoc NOT NULL);
INSERT INTO people VALUES
    ('{"name":"Ann","age":41,"tags":["vip"],"phones":[{"type":"home","number":5550100}]}'),
    ('{"name":"Bob","age":29.5,"tags":[]}'),
    ('{"name":"Eve","age":37,"tags":["new","vip"]}');
SELECT d ->> 'name' AS name FROM people WHERE d @@ '$.age > 35' AND d @> '{"tags":["vip"]}';
CREATE INDEX ON people ((d -> 'age'));
CREATE INDEX ON people USING gin (d);
SELECT d ->> 'name' AS name, d -> 'age' AS age FROM people WHERE d -> 'age' BETWEEN '29' AND '40.5' ORDER BY d -> 'age';
SELECT d ->> 'name' AS name, jdoc_path_query(d, '$.phones[*] ? (@.type == "home").number') AS number FROM people;
UPDATE people SET d = (d || '{"age":30}') - 'tags' WHERE d @> '{"name":"Bob"}' RETURNING d;
SELECT d::jsonb -> 'age' AS age, (d -> 'age')::int8 + 1 AS next FROM people WHERE d ? 'tags' ORDER BY 2;
DROP TABLE people;
