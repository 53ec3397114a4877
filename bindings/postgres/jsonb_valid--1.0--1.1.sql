\echo Use "ALTER EXTENSION jsonb_valid UPDATE TO '1.1'" to load this file. \quit

-- Constraints and indexes may stand on the function: so it is replaced, and the name of its first parameter stays.
CREATE OR REPLACE FUNCTION jsonb_valid(keywords jsonb, document jsonb) RETURNS boolean
AS 'MODULE_PATHNAME', 'jsonb_valid_tree' LANGUAGE C IMMUTABLE STRICT PARALLEL SAFE COST 10;

COMMENT ON FUNCTION jsonb_valid(jsonb, jsonb) IS
'whether the document is valid under the schema, by JSON Schema 2020-12';

CREATE FUNCTION jsonb_valid_flat(keywords jsonb, document jsonb) RETURNS boolean
AS 'MODULE_PATHNAME', 'jsonb_valid' LANGUAGE C IMMUTABLE STRICT PARALLEL SAFE COST 10;

COMMENT ON FUNCTION jsonb_valid_flat(jsonb, jsonb) IS
'whether the document is valid under the keywords of a flat schema, by JSON Schema 2020-12';
