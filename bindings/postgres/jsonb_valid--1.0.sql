\echo Use "CREATE EXTENSION jsonb_valid" to load this file. \quit

CREATE FUNCTION jsonb_valid(keywords jsonb, document jsonb) RETURNS boolean
AS 'MODULE_PATHNAME' LANGUAGE C IMMUTABLE STRICT PARALLEL SAFE COST 10;

COMMENT ON FUNCTION jsonb_valid(jsonb, jsonb) IS
'whether the document is valid under the keywords, by JSON Schema 2020-12';
