\echo Use "CREATE EXTENSION jsonb_valid" to load this file. \quit

CREATE FUNCTION jsonb_valid(schema jsonb, document jsonb) RETURNS boolean
AS 'MODULE_PATHNAME', 'jsonb_valid_tree' LANGUAGE C IMMUTABLE STRICT PARALLEL SAFE COST 10;

COMMENT ON FUNCTION jsonb_valid(jsonb, jsonb) IS
'whether the document is valid under the schema, by JSON Schema 2020-12';

CREATE FUNCTION jsonb_valid_flat(keywords jsonb, document jsonb) RETURNS boolean
AS 'MODULE_PATHNAME', 'jsonb_valid' LANGUAGE C IMMUTABLE STRICT PARALLEL SAFE COST 10;

COMMENT ON FUNCTION jsonb_valid_flat(jsonb, jsonb) IS
'whether the document is valid under the keywords of a flat schema, by JSON Schema 2020-12';
