-- jdoc--0.1.0.sql: the types, operators, functions and operator classes of the extension jdoc
\echo Use "CREATE EXTENSION jdoc" to load this file. \quit

-- THE TYPES
CREATE TYPE jdoc;
CREATE FUNCTION jdoc_in(cstring) RETURNS jdoc
    AS 'MODULE_PATHNAME', 'jdoc_sql_in' LANGUAGE C IMMUTABLE STRICT PARALLEL SAFE;
CREATE FUNCTION jdoc_out(jdoc) RETURNS cstring
    AS 'MODULE_PATHNAME', 'jdoc_sql_out' LANGUAGE C IMMUTABLE STRICT PARALLEL SAFE;
CREATE FUNCTION jdoc_recv(internal) RETURNS jdoc
    AS 'MODULE_PATHNAME', 'jdoc_sql_recv' LANGUAGE C IMMUTABLE STRICT PARALLEL SAFE;
CREATE FUNCTION jdoc_send(jdoc) RETURNS bytea
    AS 'byteasend' LANGUAGE internal IMMUTABLE STRICT PARALLEL SAFE;
CREATE TYPE jdoc (
    INPUT = jdoc_in, OUTPUT = jdoc_out, RECEIVE = jdoc_recv, SEND = jdoc_send,
    INTERNALLENGTH = VARIABLE, ALIGNMENT = int4, STORAGE = extended
);
CREATE TYPE jdocpath;
CREATE FUNCTION jdocpath_in(cstring) RETURNS jdocpath
    AS 'MODULE_PATHNAME', 'jdocpath_in' LANGUAGE C IMMUTABLE STRICT PARALLEL SAFE;
CREATE FUNCTION jdocpath_out(jdocpath) RETURNS cstring
    AS 'textout' LANGUAGE internal IMMUTABLE STRICT PARALLEL SAFE;
CREATE TYPE jdocpath (
    INPUT = jdocpath_in, OUTPUT = jdocpath_out,
    INTERNALLENGTH = VARIABLE, ALIGNMENT = int4, STORAGE = extended
);
CREATE CAST (jdocpath AS text) WITHOUT FUNCTION;

-- CASTS
CREATE FUNCTION jdoc(bytea) RETURNS jdoc
    AS 'MODULE_PATHNAME', 'jdoc_sql_from_bytes' LANGUAGE C IMMUTABLE STRICT PARALLEL SAFE;
CREATE FUNCTION jdoc(jsonb) RETURNS jdoc
    AS 'MODULE_PATHNAME', 'jdoc_sql_from_jsonb' LANGUAGE C IMMUTABLE STRICT PARALLEL SAFE;
CREATE FUNCTION jdoc_to_jsonb(jdoc) RETURNS jsonb
    AS 'MODULE_PATHNAME', 'jdoc_sql_to_jsonb' LANGUAGE C IMMUTABLE STRICT PARALLEL SAFE;
CREATE FUNCTION jdoc_to_json(jdoc) RETURNS json
    AS 'MODULE_PATHNAME', 'jdoc_sql_to_json' LANGUAGE C IMMUTABLE STRICT PARALLEL SAFE;
CREATE FUNCTION jdoc_to_int4(jdoc) RETURNS int4
    AS 'MODULE_PATHNAME', 'jdoc_sql_to_int4' LANGUAGE C IMMUTABLE STRICT PARALLEL SAFE;
CREATE FUNCTION jdoc_to_int8(jdoc) RETURNS int8
    AS 'MODULE_PATHNAME', 'jdoc_sql_to_int8' LANGUAGE C IMMUTABLE STRICT PARALLEL SAFE;
CREATE FUNCTION jdoc_to_numeric(jdoc) RETURNS numeric
    AS 'MODULE_PATHNAME', 'jdoc_sql_to_numeric' LANGUAGE C IMMUTABLE STRICT PARALLEL SAFE;
CREATE FUNCTION jdoc_to_float8(jdoc) RETURNS float8
    AS 'MODULE_PATHNAME', 'jdoc_sql_to_float8' LANGUAGE C IMMUTABLE STRICT PARALLEL SAFE;
CREATE FUNCTION jdoc_to_bool(jdoc) RETURNS bool
    AS 'MODULE_PATHNAME', 'jdoc_sql_to_bool' LANGUAGE C IMMUTABLE STRICT PARALLEL SAFE;
CREATE CAST (bytea AS jdoc) WITH FUNCTION jdoc(bytea);
CREATE CAST (jdoc AS bytea) WITHOUT FUNCTION;
CREATE CAST (jsonb AS jdoc) WITH FUNCTION jdoc(jsonb) AS ASSIGNMENT;
CREATE CAST (jdoc AS jsonb) WITH FUNCTION jdoc_to_jsonb(jdoc) AS ASSIGNMENT;
-- By the cast to json, to_jsonb, jsonb_agg, row_to_json and others have the value, not a string of its text.
CREATE CAST (json AS jdoc) WITH INOUT AS ASSIGNMENT;
CREATE CAST (jdoc AS json) WITH FUNCTION jdoc_to_json(jdoc) AS ASSIGNMENT;
CREATE CAST (jdoc AS int4) WITH FUNCTION jdoc_to_int4(jdoc);
CREATE CAST (jdoc AS int8) WITH FUNCTION jdoc_to_int8(jdoc);
CREATE CAST (jdoc AS numeric) WITH FUNCTION jdoc_to_numeric(jdoc);
CREATE CAST (jdoc AS float8) WITH FUNCTION jdoc_to_float8(jdoc);
CREATE CAST (jdoc AS bool) WITH FUNCTION jdoc_to_bool(jdoc);

-- CHILDREN AND EDITS
CREATE FUNCTION jdoc_field(jdoc, text) RETURNS jdoc
    AS 'MODULE_PATHNAME', 'jdoc_sql_field' LANGUAGE C IMMUTABLE STRICT PARALLEL SAFE;
CREATE FUNCTION jdoc_field_text(jdoc, text) RETURNS text
    AS 'MODULE_PATHNAME', 'jdoc_sql_field_text' LANGUAGE C IMMUTABLE STRICT PARALLEL SAFE;
CREATE OPERATOR -> (LEFTARG = jdoc, RIGHTARG = text, FUNCTION = jdoc_field);
CREATE OPERATOR ->> (LEFTARG = jdoc, RIGHTARG = text, FUNCTION = jdoc_field_text);
CREATE FUNCTION jdoc_element(jdoc, int4) RETURNS jdoc
    AS 'MODULE_PATHNAME', 'jdoc_sql_element' LANGUAGE C IMMUTABLE STRICT PARALLEL SAFE;
CREATE FUNCTION jdoc_element_text(jdoc, int4) RETURNS text
    AS 'MODULE_PATHNAME', 'jdoc_sql_element_text' LANGUAGE C IMMUTABLE STRICT PARALLEL SAFE;
CREATE OPERATOR -> (LEFTARG = jdoc, RIGHTARG = int4, FUNCTION = jdoc_element);
CREATE OPERATOR ->> (LEFTARG = jdoc, RIGHTARG = int4, FUNCTION = jdoc_element_text);
CREATE FUNCTION jdoc_descendant(jdoc, text[]) RETURNS jdoc
    AS 'MODULE_PATHNAME', 'jdoc_sql_descendant' LANGUAGE C IMMUTABLE STRICT PARALLEL SAFE;
CREATE FUNCTION jdoc_descendant_text(jdoc, text[]) RETURNS text
    AS 'MODULE_PATHNAME', 'jdoc_sql_descendant_text' LANGUAGE C IMMUTABLE STRICT PARALLEL SAFE;
CREATE OPERATOR #> (LEFTARG = jdoc, RIGHTARG = text[], FUNCTION = jdoc_descendant);
CREATE OPERATOR #>> (LEFTARG = jdoc, RIGHTARG = text[], FUNCTION = jdoc_descendant_text);
CREATE FUNCTION jdoc_delete(jdoc, text[]) RETURNS jdoc
    AS 'MODULE_PATHNAME', 'jdoc_sql_delete_descendant' LANGUAGE C IMMUTABLE STRICT PARALLEL SAFE;
CREATE OPERATOR #- (LEFTARG = jdoc, RIGHTARG = text[], FUNCTION = jdoc_delete);
CREATE FUNCTION jdoc_delete(jdoc, text) RETURNS jdoc
    AS 'MODULE_PATHNAME', 'jdoc_sql_delete_name' LANGUAGE C IMMUTABLE STRICT PARALLEL SAFE;
CREATE OPERATOR - (LEFTARG = jdoc, RIGHTARG = text, FUNCTION = jdoc_delete);
CREATE FUNCTION jdoc_delete_names(jdoc, text[]) RETURNS jdoc
    AS 'MODULE_PATHNAME', 'jdoc_sql_delete_names' LANGUAGE C IMMUTABLE STRICT PARALLEL SAFE;
CREATE OPERATOR - (LEFTARG = jdoc, RIGHTARG = text[], FUNCTION = jdoc_delete_names);
CREATE FUNCTION jdoc_delete(jdoc, int4) RETURNS jdoc
    AS 'MODULE_PATHNAME', 'jdoc_sql_delete_index' LANGUAGE C IMMUTABLE STRICT PARALLEL SAFE;
CREATE OPERATOR - (LEFTARG = jdoc, RIGHTARG = int4, FUNCTION = jdoc_delete);
CREATE FUNCTION jdoc_concat(jdoc, jdoc) RETURNS jdoc
    AS 'MODULE_PATHNAME', 'jdoc_sql_concat' LANGUAGE C IMMUTABLE STRICT PARALLEL SAFE;
CREATE OPERATOR || (LEFTARG = jdoc, RIGHTARG = jdoc, FUNCTION = jdoc_concat);

-- QUESTIONS
CREATE FUNCTION jdoc_contains(jdoc, jdoc) RETURNS bool
    AS 'MODULE_PATHNAME', 'jdoc_sql_contains' LANGUAGE C IMMUTABLE STRICT PARALLEL SAFE;
CREATE FUNCTION jdoc_contained(jdoc, jdoc) RETURNS bool
    AS 'MODULE_PATHNAME', 'jdoc_sql_contained' LANGUAGE C IMMUTABLE STRICT PARALLEL SAFE;
CREATE OPERATOR @> (LEFTARG = jdoc, RIGHTARG = jdoc, FUNCTION = jdoc_contains,
    COMMUTATOR = <@,
    RESTRICT = matchingsel, JOIN = matchingjoinsel);
CREATE OPERATOR <@ (LEFTARG = jdoc, RIGHTARG = jdoc, FUNCTION = jdoc_contained,
    COMMUTATOR = @>,
    RESTRICT = matchingsel, JOIN = matchingjoinsel);
CREATE FUNCTION jdoc_exists(jdoc, text) RETURNS bool
    AS 'MODULE_PATHNAME', 'jdoc_sql_has' LANGUAGE C IMMUTABLE STRICT PARALLEL SAFE;
CREATE OPERATOR ? (LEFTARG = jdoc, RIGHTARG = text, FUNCTION = jdoc_exists,
    RESTRICT = matchingsel, JOIN = matchingjoinsel);
CREATE FUNCTION jdoc_exists_any(jdoc, text[]) RETURNS bool
    AS 'MODULE_PATHNAME', 'jdoc_sql_has_any' LANGUAGE C IMMUTABLE STRICT PARALLEL SAFE;
CREATE OPERATOR ?| (LEFTARG = jdoc, RIGHTARG = text[], FUNCTION = jdoc_exists_any,
    RESTRICT = matchingsel, JOIN = matchingjoinsel);
CREATE FUNCTION jdoc_exists_all(jdoc, text[]) RETURNS bool
    AS 'MODULE_PATHNAME', 'jdoc_sql_has_all' LANGUAGE C IMMUTABLE STRICT PARALLEL SAFE;
CREATE OPERATOR ?& (LEFTARG = jdoc, RIGHTARG = text[], FUNCTION = jdoc_exists_all,
    RESTRICT = matchingsel, JOIN = matchingjoinsel);
CREATE FUNCTION jdoc_path_exists_opr(jdoc, jdocpath) RETURNS bool
    AS 'MODULE_PATHNAME', 'jdoc_sql_path_exists_op' LANGUAGE C IMMUTABLE STRICT PARALLEL SAFE;
CREATE OPERATOR @? (LEFTARG = jdoc, RIGHTARG = jdocpath, FUNCTION = jdoc_path_exists_opr,
    RESTRICT = matchingsel, JOIN = matchingjoinsel);
CREATE FUNCTION jdoc_path_match_opr(jdoc, jdocpath) RETURNS bool
    AS 'MODULE_PATHNAME', 'jdoc_sql_path_match_op' LANGUAGE C IMMUTABLE STRICT PARALLEL SAFE;
CREATE OPERATOR @@ (LEFTARG = jdoc, RIGHTARG = jdocpath, FUNCTION = jdoc_path_match_opr,
    RESTRICT = matchingsel, JOIN = matchingjoinsel);

-- PATHS; functions of documents have the arguments of jsonb's, and variables have to be {}
CREATE FUNCTION jdoc_path_exists(target jdoc, path jdocpath, vars jdoc DEFAULT '{}', silent bool DEFAULT false)
    RETURNS bool AS 'MODULE_PATHNAME', 'jdoc_sql_path_exists' LANGUAGE C IMMUTABLE STRICT PARALLEL SAFE;
CREATE FUNCTION jdoc_path_match(target jdoc, path jdocpath, vars jdoc DEFAULT '{}', silent bool DEFAULT false)
    RETURNS bool AS 'MODULE_PATHNAME', 'jdoc_sql_path_match' LANGUAGE C IMMUTABLE STRICT PARALLEL SAFE;
CREATE FUNCTION jdoc_path_is_predicate(path jdocpath) RETURNS bool
    AS 'MODULE_PATHNAME', 'jdoc_sql_path_is_predicate' LANGUAGE C IMMUTABLE STRICT PARALLEL SAFE;
CREATE FUNCTION jdoc_path_query(target jdoc, path jdocpath, vars jdoc DEFAULT '{}', silent bool DEFAULT false)
    RETURNS SETOF jdoc AS 'MODULE_PATHNAME', 'jdoc_sql_path_query' LANGUAGE C IMMUTABLE STRICT PARALLEL SAFE ROWS 10;
CREATE FUNCTION jdoc_path_query_array(target jdoc, path jdocpath, vars jdoc DEFAULT '{}', silent bool DEFAULT false)
    RETURNS jdoc AS 'MODULE_PATHNAME', 'jdoc_sql_path_query_array' LANGUAGE C IMMUTABLE STRICT PARALLEL SAFE;
CREATE FUNCTION jdoc_path_query_first(target jdoc, path jdocpath, vars jdoc DEFAULT '{}', silent bool DEFAULT false)
    RETURNS jdoc AS 'MODULE_PATHNAME', 'jdoc_sql_path_query_first' LANGUAGE C IMMUTABLE STRICT PARALLEL SAFE;
CREATE FUNCTION jdoc_array_elements(jdoc, OUT value jdoc) RETURNS SETOF jdoc
    AS 'MODULE_PATHNAME', 'jdoc_sql_array_elements' LANGUAGE C IMMUTABLE STRICT PARALLEL SAFE ROWS 100;
CREATE FUNCTION jdoc_each(jdoc, OUT key text, OUT value jdoc) RETURNS SETOF record
    AS 'MODULE_PATHNAME', 'jdoc_sql_each' LANGUAGE C IMMUTABLE STRICT PARALLEL SAFE ROWS 100;
CREATE FUNCTION jdoc_object_keys(jdoc) RETURNS SETOF text
    AS 'MODULE_PATHNAME', 'jdoc_sql_object_keys' LANGUAGE C IMMUTABLE STRICT PARALLEL SAFE ROWS 100;

-- FURTHER FUNCTIONS
CREATE FUNCTION jdoc_set(target jdoc, name text, value jdoc, replace bool DEFAULT true) RETURNS jdoc
    AS 'MODULE_PATHNAME', 'jdoc_sql_set' LANGUAGE C IMMUTABLE STRICT PARALLEL SAFE;
CREATE FUNCTION jdoc_array_insert(target jdoc, index int4, value jdoc) RETURNS jdoc
    AS 'MODULE_PATHNAME', 'jdoc_sql_array_insert' LANGUAGE C IMMUTABLE STRICT PARALLEL SAFE;
CREATE FUNCTION jdoc_strip_nulls(jdoc) RETURNS jdoc
    AS 'MODULE_PATHNAME', 'jdoc_sql_strip_nulls' LANGUAGE C IMMUTABLE STRICT PARALLEL SAFE;
CREATE FUNCTION jdoc_sort_key(jdoc) RETURNS bytea
    AS 'MODULE_PATHNAME', 'jdoc_sql_sort_key' LANGUAGE C IMMUTABLE STRICT PARALLEL SAFE;
CREATE FUNCTION jdoc_equality_key(jdoc) RETURNS bytea
    AS 'MODULE_PATHNAME', 'jdoc_sql_equality_key' LANGUAGE C IMMUTABLE STRICT PARALLEL SAFE;
CREATE FUNCTION jdoc_typeof(jdoc) RETURNS text
    AS 'MODULE_PATHNAME', 'jdoc_sql_typeof' LANGUAGE C IMMUTABLE STRICT PARALLEL SAFE;
CREATE FUNCTION jdoc_length(jdoc) RETURNS int4
    AS 'MODULE_PATHNAME', 'jdoc_sql_length' LANGUAGE C IMMUTABLE STRICT PARALLEL SAFE;

-- ORDER AND EQUALITY
CREATE FUNCTION jdoc_eq(jdoc, jdoc) RETURNS bool
    AS 'MODULE_PATHNAME', 'jdoc_sql_eq' LANGUAGE C IMMUTABLE STRICT PARALLEL SAFE;
CREATE OPERATOR = (LEFTARG = jdoc, RIGHTARG = jdoc, FUNCTION = jdoc_eq,
    NEGATOR = <>, COMMUTATOR = =, RESTRICT = eqsel, JOIN = eqjoinsel, HASHES, MERGES);
CREATE FUNCTION jdoc_ne(jdoc, jdoc) RETURNS bool
    AS 'MODULE_PATHNAME', 'jdoc_sql_ne' LANGUAGE C IMMUTABLE STRICT PARALLEL SAFE;
CREATE OPERATOR <> (LEFTARG = jdoc, RIGHTARG = jdoc, FUNCTION = jdoc_ne,
    NEGATOR = =, COMMUTATOR = <>, RESTRICT = neqsel, JOIN = neqjoinsel);
CREATE FUNCTION jdoc_lt(jdoc, jdoc) RETURNS bool
    AS 'MODULE_PATHNAME', 'jdoc_sql_lt' LANGUAGE C IMMUTABLE STRICT PARALLEL SAFE;
CREATE OPERATOR < (LEFTARG = jdoc, RIGHTARG = jdoc, FUNCTION = jdoc_lt,
    NEGATOR = >=, COMMUTATOR = >, RESTRICT = scalarltsel, JOIN = scalarltjoinsel);
CREATE FUNCTION jdoc_le(jdoc, jdoc) RETURNS bool
    AS 'MODULE_PATHNAME', 'jdoc_sql_le' LANGUAGE C IMMUTABLE STRICT PARALLEL SAFE;
CREATE OPERATOR <= (LEFTARG = jdoc, RIGHTARG = jdoc, FUNCTION = jdoc_le,
    NEGATOR = >, COMMUTATOR = >=, RESTRICT = scalarlesel, JOIN = scalarlejoinsel);
CREATE FUNCTION jdoc_gt(jdoc, jdoc) RETURNS bool
    AS 'MODULE_PATHNAME', 'jdoc_sql_gt' LANGUAGE C IMMUTABLE STRICT PARALLEL SAFE;
CREATE OPERATOR > (LEFTARG = jdoc, RIGHTARG = jdoc, FUNCTION = jdoc_gt,
    NEGATOR = <=, COMMUTATOR = <, RESTRICT = scalargtsel, JOIN = scalargtjoinsel);
CREATE FUNCTION jdoc_ge(jdoc, jdoc) RETURNS bool
    AS 'MODULE_PATHNAME', 'jdoc_sql_ge' LANGUAGE C IMMUTABLE STRICT PARALLEL SAFE;
CREATE OPERATOR >= (LEFTARG = jdoc, RIGHTARG = jdoc, FUNCTION = jdoc_ge,
    NEGATOR = <, COMMUTATOR = <=, RESTRICT = scalargesel, JOIN = scalargejoinsel);
CREATE FUNCTION jdoc_cmp(jdoc, jdoc) RETURNS int4
    AS 'MODULE_PATHNAME', 'jdoc_sql_cmp' LANGUAGE C IMMUTABLE STRICT PARALLEL SAFE;
CREATE FUNCTION jdoc_sortsupport(internal) RETURNS void
    AS 'MODULE_PATHNAME', 'jdoc_sql_sortsupport' LANGUAGE C IMMUTABLE STRICT PARALLEL SAFE;
CREATE FUNCTION jdoc_hash(jdoc) RETURNS int4
    AS 'MODULE_PATHNAME', 'jdoc_sql_hash' LANGUAGE C IMMUTABLE STRICT PARALLEL SAFE;
CREATE FUNCTION jdoc_hash_extended(jdoc, int8) RETURNS int8
    AS 'MODULE_PATHNAME', 'jdoc_sql_hash_extended' LANGUAGE C IMMUTABLE STRICT PARALLEL SAFE;
CREATE OPERATOR CLASS jdoc_ops DEFAULT FOR TYPE jdoc USING btree
    AS OPERATOR 1 <, OPERATOR 2 <=, OPERATOR 3 =, OPERATOR 4 >=, OPERATOR 5 >,
    FUNCTION 1 jdoc_cmp(jdoc, jdoc), FUNCTION 2 jdoc_sortsupport(internal);
CREATE OPERATOR CLASS jdoc_hash_ops DEFAULT FOR TYPE jdoc USING hash
    AS OPERATOR 1 =,
    FUNCTION 1 jdoc_hash(jdoc), FUNCTION 2 jdoc_hash_extended(jdoc, int8);
CREATE FUNCTION jdoc_gin_extract_value(jdoc, internal) RETURNS internal
    AS 'MODULE_PATHNAME', 'jdoc_gin_extract_value' LANGUAGE C IMMUTABLE STRICT PARALLEL SAFE;
CREATE FUNCTION jdoc_gin_extract_query(jdoc, internal, int2, internal, internal, internal, internal) RETURNS internal
    AS 'MODULE_PATHNAME', 'jdoc_gin_extract_query' LANGUAGE C IMMUTABLE STRICT PARALLEL SAFE;
CREATE FUNCTION jdoc_gin_consistent(internal, int2, jdoc, int4, internal, internal, internal, internal) RETURNS bool
    AS 'MODULE_PATHNAME', 'jdoc_gin_consistent' LANGUAGE C IMMUTABLE STRICT PARALLEL SAFE;
CREATE FUNCTION jdoc_gin_triconsistent(internal, int2, jdoc, int4, internal, internal, internal) RETURNS "char"
    AS 'MODULE_PATHNAME', 'jdoc_gin_triconsistent' LANGUAGE C IMMUTABLE STRICT PARALLEL SAFE;
CREATE OPERATOR CLASS jdoc_gin_ops DEFAULT FOR TYPE jdoc USING gin
    AS OPERATOR 7 @>, OPERATOR 9 ? (jdoc, text), OPERATOR 10 ?| (jdoc, text[]), OPERATOR 11 ?& (jdoc, text[]),
    FUNCTION 2 jdoc_gin_extract_value(jdoc, internal),
    FUNCTION 3 jdoc_gin_extract_query(jdoc, internal, int2, internal, internal, internal, internal),
    FUNCTION 4 jdoc_gin_consistent(internal, int2, jdoc, int4, internal, internal, internal, internal),
    FUNCTION 6 jdoc_gin_triconsistent(internal, int2, jdoc, int4, internal, internal, internal),
    STORAGE int8;
