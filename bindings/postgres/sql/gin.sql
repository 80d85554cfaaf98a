-- The index finds what a scan of the table finds.
CREATE TABLE t (n int, d jdoc);
INSERT INTO t SELECT n, ('{"n":' || n % 100 || ',"tags":["t' || n % 7 || '","u' || n % 11 || '"],"k' || n % 5 || '":{"a":[{"b":' || n % 13 || '.0}],"e":{}}}')::jdoc
FROM generate_series(1, 2000) AS n;
INSERT INTO t VALUES (2001, '[1,2,"x"]'), (2002, '"x"'), (2003, '{"x":null}'), (2004, '1'), (2005, '[]'), (2006, '{}'), (2007, '[[1]]'),
    (2008, '{"x":"y"}'), (2009, '["y",{"x":true}]');
CREATE INDEX by_gin ON t USING gin (d);
ANALYZE t;
CREATE FUNCTION scan_and_index(condition text) RETURNS text LANGUAGE plpgsql AS $$
DECLARE
    scanned text;
    found text;
    plan text;
BEGIN
    SET LOCAL enable_bitmapscan = off;
    SET LOCAL enable_seqscan = on;
    EXECUTE 'SELECT count(*) || '' '' || coalesce(sum(n), 0) FROM t WHERE ' || condition INTO scanned;
    SET LOCAL enable_bitmapscan = on;
    SET LOCAL enable_seqscan = off;
    EXECUTE 'SELECT count(*) || '' '' || coalesce(sum(n), 0) FROM t WHERE ' || condition INTO found;
    FOR plan IN EXECUTE 'EXPLAIN (COSTS OFF) SELECT * FROM t WHERE ' || condition LOOP
        IF plan LIKE '%by_gin%' THEN
            RETURN CASE WHEN scanned = found THEN scanned ELSE 'scan: ' || scanned || ', index: ' || found END;
        END IF;
    END LOOP;
    RETURN 'no index';
END $$;
SELECT condition, scan_and_index(condition) FROM unnest(ARRAY[
    $$d @> '{"n":7}'$$, $$d @> '{"n":7.00}'$$, $$d @> '{"tags":["t1","u2"]}'$$, $$d @> '{"k1":{"a":[{"b":3}]}}'$$, $$d @> '{"k1":{"e":{}}}'$$,
    $$d @> '{}'$$, $$d @> '[]'$$, $$d @> '1'$$, $$d @> '[1]'$$, $$d @> '"x"'$$, $$d @> '[[1]]'$$, $$d @> '{"x":null}'$$, $$d @> '[{"x":true}]'$$, $$d @> '{"n":"7"}'$$,
    $$d ? 'x'$$, $$d ? 'k1'$$, $$d ? 'a'$$, $$d ?| '{x,y,k2}'$$, $$d ?| '{}'$$, $$d ?& '{n,k2}'$$, $$d ?& '{x,y}'$$, $$d ?& '{}'$$]) AS condition;
INSERT INTO t SELECT n, ('{"late":' || n || '}')::jdoc FROM generate_series(3000, 3100) AS n;
SELECT scan_and_index($$d @> '{"late":3050}'$$), scan_and_index($$d ? 'late'$$);
SELECT amname, opcname, amvalidate(c.oid) FROM pg_opclass c JOIN pg_am a ON a.oid = opcmethod WHERE opcname LIKE 'jdoc_gin%';
DROP TABLE t;
DROP FUNCTION scan_and_index;
