SELECT '{"a":{"b":[1,"x",null]}}'::jdoc -> 'a', '{"a":"x"}'::jdoc ->> 'a', '{"a":null}'::jdoc ->> 'a', '{"a":null}'::jdoc -> 'a', '{}'::jdoc -> 'a', '[]'::jdoc -> 'a';
SELECT '[1,[2],"x"]'::jdoc -> 1, '[1,[2],"x"]'::jdoc ->> -1, '[1]'::jdoc -> 1, '[1]'::jdoc -> -2, '{"0":1}'::jdoc -> 0;
SELECT '{"a":{"b":[1,"x",null]}}'::jdoc #> '{a,b,1}', '{"a":{"b":[1,"x"]}}'::jdoc #>> '{a,b,-1}', '{"":{"0":7}}'::jdoc #> '{"",0}', '{}'::jdoc #> '{}', '[1]'::jdoc #> '{a}', '{"a":1}'::jdoc #> ARRAY[NULL];
SELECT '{"a":{"b":[1,2]}}'::jdoc #- '{a,b,0}', '{"a b":{"\"":1}}'::jdoc #- '{a b,\"}', '{"a":1,"b":2}'::jdoc - 'a', '["a","b","a"]'::jdoc - 'a', '[1,2,3]'::jdoc - -1;
SELECT '1'::jdoc #- '{a}';
SELECT '"x"'::jdoc - 'a';
SELECT '{"a":1,"b":2,"c":3}'::jdoc - ARRAY['c','a','x'], '["a","b","a",["a"]]'::jdoc - '{a,b}'::text[], '[1]'::jdoc - '{}'::text[], '{"a":1}'::jdoc - ARRAY[NULL,'a'];
SELECT '"x"'::jdoc - '{x}'::text[];
SELECT '{"a":1}'::jdoc - 0;
SELECT jdoc_set('[1]', 'a', '2');
SELECT jdoc_set('{"a":1}', 'a', '2', false);
SELECT jdoc_set(('{"' || repeat('é', 150) || '":1}')::jdoc, repeat('é', 150), '2', false);
SELECT jdoc_array_insert('[1]', 'x', '2');
SELECT jdoc_array_insert('[1]', 1.5, '2');
SELECT '{"a":1,"b":2}'::jdoc || '{"b":3}', '[1]'::jdoc || '2', '1'::jdoc || '2', '{"a":1}'::jdoc || '[2]';
SELECT '{"a":[1,2,{"c":3}]}'::jdoc @> '{"a":[{"c":3}]}', '[1,2]'::jdoc @> '1', '{"a":1}'::jdoc @> '{"a":1.0}', '{"a":1}'::jdoc <@ '{"a":1,"b":2}', '[]'::jdoc @> '{}';
SELECT '{"a":1}'::jdoc ? 'a', '["a"]'::jdoc ? 'a', '"a"'::jdoc ? 'a', '{"a":1}'::jdoc ?| '{b,a}', '{"a":1}'::jdoc ?& '{b,a}', '{"a":1}'::jdoc ?& ARRAY[NULL,'a'], '{"a":1}'::jdoc ?| '{}', '{"a":1}'::jdoc ?& '{}';
SELECT jdoc_typeof('1'), jdoc_typeof('1.5'), jdoc_typeof('{}'), jdoc_length('[1,2]'), jdoc_length('{"a":1}'), jdoc_length('1');
SELECT jdoc_set('{"a":1}', 'b', '[2]'), jdoc_array_insert('[1,3]', 1, '2'), jdoc_strip_nulls('{"a":null,"b":[null,{"c":null}]}');
SELECT * FROM jdoc_array_elements('[1,"x",[2],{"a":null}]');
SELECT * FROM jdoc_array_elements('{}');
SELECT * FROM jdoc_each('{"b":[1],"":null,"a":{"k":2.50},"é":"x"}');
SELECT n, key, value #>> '{}' AS value FROM (VALUES (1, '{"a":1,"b":"x"}'::jdoc), (2, '{}'), (3, NULL), (4, '{"c":[]}')) AS v(n, d), jdoc_each(d) WHERE value <> '1';
SELECT * FROM jdoc_each('[1]');
SELECT jdoc_object_keys('{"b":[1],"a":{"k":2}}'), (jdoc_each('{"c":3}')).*;
SELECT jdoc_object_keys('5');
-- compared with jsonb: the same results, except that jsonb takes a scalar for an array of one element (16 of element: -> 0 and -> -1 of "a" and of null)
WITH d(t) AS (VALUES ('{"a":{"b":[1,"x",null]},"n":1.50,"t":true}'), ('[1,{"a":2},"a",[3]]'), ('"a"'), ('[]'), ('{}'), ('null')),
     k(n) AS (VALUES ('a'), ('n'), ('t'), ('0')), i(n) AS (VALUES (0), (1), (-1), (9))
SELECT count(*) AS rows,
       count(*) FILTER (WHERE (t::jdoc -> k.n)::text IS DISTINCT FROM (t::jsonb -> k.n)::text) AS field,
       count(*) FILTER (WHERE (t::jdoc ->> k.n) IS DISTINCT FROM (t::jsonb ->> k.n)) AS field_text,
       count(*) FILTER (WHERE (t::jdoc -> i.n)::text IS DISTINCT FROM (t::jsonb -> i.n)::text) AS element,
       count(*) FILTER (WHERE (t::jdoc ? k.n) IS DISTINCT FROM (t::jsonb ? k.n)) AS has,
       count(*) FILTER (WHERE (t::jdoc #> ARRAY[k.n, i.n::text])::text IS DISTINCT FROM (t::jsonb #> ARRAY[k.n, i.n::text])::text) AS place
FROM d, k, i;
