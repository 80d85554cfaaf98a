-- JSON text in and out
SELECT '{"b":[1,2.50,-3e2,true,false,null],"a":"é\n\"","":{}}'::jdoc;
SELECT '"x"'::jdoc, '1'::jdoc, 'null'::jdoc, '[]'::jdoc, '{"a":1,"a":2}'::jdoc, '0.00'::jdoc, '1e-3'::jdoc;
SELECT '18446744073709551615'::jdoc, '-9223372036854775808'::jdoc, '170141183460469231731687303715884105727'::jdoc;
-- errors
SELECT '{'::jdoc;
SELECT '1e300'::jdoc;
SELECT '"\u0000"'::jdoc;
SELECT '170141183460469231731687303715884105728'::jdoc;
SELECT '\x00'::bytea::jdoc;
SELECT '\x2000000010000001ff'::bytea::jdoc;
SELECT '\x200000001000000100'::bytea::jdoc;
\set VERBOSITY sqlstate
SELECT '1e300'::jdoc;
SELECT '\x00'::bytea::jdoc;
SELECT '[1,{"a":2}]'::jdoc #- '{""}';
SELECT jdoc_path_query('1', '$ / 0');
SELECT jdoc_path_query('{}', 'strict $.a');
SELECT jdoc_path_query('{}', '$.');
SELECT jdoc_path_query('"a"', '$ + 1');
SELECT jdoc_set('{"a":1}', 'a', '2', false);
SELECT jdoc_set('[1]', 'a', '2');
SELECT '{"a":1}'::jdoc - 0;
SELECT '[42]'::jdoc::int8;
SELECT '\x20000000600000051000000001'::bytea::jdoc;
\set VERBOSITY default
-- bytes and jsonb
SELECT '[false,10,{"k":"v"}]'::jdoc::bytea, '\x8000000330000000200000025000000e500a4000000110000001100000016b76'::bytea::jdoc;
SELECT '{"b":[1,2.50],"aa":null,"c":{"d":"x"}}'::jsonb::jdoc, '{"b":[1,2.50],"aa":null,"c":{"d":"x"}}'::jdoc::jsonb;
SELECT '5'::jsonb::jdoc, '"x"'::jdoc::jsonb, 'null'::jdoc::jsonb, '[]'::jdoc::jsonb, '{}'::jsonb::jdoc;
SELECT '1e300'::jsonb::jdoc;
SELECT ('{"n":' || repeat('[', 3000) || repeat(']', 3000) || '}')::jdoc::jsonb::jdoc::text = ('{"n": ' || repeat('[', 3000) || repeat(']', 3000) || '}');
SELECT '42'::jdoc::int8, '"7"'::jdoc::int8;
SELECT '[42]'::jdoc::int8;
SELECT '"x"'::jdoc::int8;
SELECT '1e30'::jdoc::int8;
SELECT '42'::jdoc::int4, '-2147483648.5'::jdoc::int8, '2.5'::jdoc::int4, '9.50'::jdoc::numeric, '0.1'::jdoc::float8, '18446744073709551615'::jdoc::numeric;
SELECT 'true'::jdoc::bool, '"No"'::jdoc::bool, ('{"a":[false]}'::jdoc #> '{a,0}')::bool;
SELECT '2147483648'::jdoc::int4;
SELECT '{}'::jdoc::int4;
SELECT '"1.5"'::jdoc::numeric;
SELECT 'null'::jdoc::float8;
SELECT '1'::jdoc::bool;
-- a date, which JSON does not have
SELECT jdoc_typeof('\x20000000600000051000000001'::bytea::jdoc);
SELECT '\x20000000600000051000000001'::bytea::jdoc;
SELECT '\x20000000600000051000000001'::bytea::jdoc::jsonb;
-- json, and functions that use the cast to it
SELECT '{"b":[1,2.50],"a":"x"}'::json::jdoc, '{"b":[1,2.50],"a":"x"}'::jdoc::json, '"x"'::text::jdoc;
SELECT to_jsonb(d), jsonb_agg(d), row_to_json(r) FROM (SELECT '{"a":["x",1]}'::jdoc AS d) AS r GROUP BY d, r;
SELECT jsonb_build_object('price', 9.50)::jdoc, ('{"price":9.50}'::jdoc ->> 'price')::numeric;
-- toasted
CREATE TABLE big (d jdoc);
INSERT INTO big SELECT ('{"a":[' || string_agg(it::text, ',') || '],"z":"end"}')::jdoc FROM generate_series(1, 30000) AS it;
SELECT d ->> 'z', d #>> '{a,-1}', jdoc_length(d -> 'a'), d @@ '$.a[29999] == 30000' FROM big;
DROP TABLE big;
