-- Nested schemas: each of the six keywords with schemas inside, with the verdict that JSON Schema 2020-12 gives.
CREATE TEMP TABLE judged (schema jsonb, document jsonb, verdict boolean);
INSERT INTO judged VALUES
  ('true', 'null', true),
  ('false', 'null', false),
  ('{}', '{"a": [1]}', true),
  -- properties ask of the members that are there
  ('{"properties": {"a": {"type": "string"}}}', '{"a": "x"}', true),
  ('{"properties": {"a": {"type": "string"}}}', '{"a": 1}', false),
  ('{"properties": {"a": {"type": "string"}}}', '{"b": 1}', true),
  ('{"properties": {"a": false}}', '{}', true),
  ('{"properties": {"a": false}}', '{"a": null}', false),
  ('{"properties": {"a": false}}', '["a"]', true),
  ('{"properties": {"a": {"properties": {"b": {"minimum": 2}}}}}', '{"a": {"b": 1}}', false),
  ('{"properties": {"a": {"properties": {"b": {"minimum": 2}}}}}', '{"a": {"b": 2, "c": 1}}', true),
  -- additionalProperties asks of those that properties does not name
  ('{"additionalProperties": false}', '{}', true),
  ('{"additionalProperties": false}', '{"a": 1}', false),
  ('{"additionalProperties": false}', '"a"', true),
  ('{"properties": {"a": {}}, "additionalProperties": false}', '{"a": 1}', true),
  ('{"properties": {"a": {}}, "additionalProperties": false}', '{"a": 1, "b": 2}', false),
  ('{"properties": {"a": {}}, "additionalProperties": {"type": "integer"}}', '{"a": "x", "b": 2.0}', true),
  ('{"properties": {"a": {}}, "additionalProperties": {"type": "integer"}}', '{"a": "x", "b": "y"}', false),
  -- in allOf it does not see the properties beside it
  ('{"allOf": [{"properties": {"a": {}}}], "additionalProperties": false}', '{"a": 1}', false),
  -- items
  ('{"items": {"type": "integer"}}', '[1, 2.0, 3e2]', true),
  ('{"items": {"type": "integer"}}', '[1, 2.5]', false),
  ('{"items": {"type": "integer"}}', '[]', true),
  ('{"items": {"type": "integer"}}', '{"a": "x"}', true),
  ('{"items": {"items": {"maxLength": 1}}}', '[["a"], [], ["b", "ab"]]', false),
  ('{"items": {"items": {"maxLength": 1}}}', '[["a"], [], ["b", "é"]]', true),
  ('{"items": false}', '[]', true),
  ('{"items": false}', '[null]', false),
  -- allOf, anyOf, not
  ('{"allOf": [{"minimum": 1}, {"maximum": 2}]}', '1.5', true),
  ('{"allOf": [{"minimum": 1}, {"maximum": 2}]}', '2.5', false),
  ('{"allOf": [true, false]}', '0', false),
  ('{"anyOf": [{"type": "string"}, {"minimum": 5}]}', '"x"', true),
  ('{"anyOf": [{"type": "string"}, {"minimum": 5}]}', '4', false),
  ('{"anyOf": [false, true]}', '0', true),
  ('{"not": {"type": "null"}}', 'null', false),
  ('{"not": {"type": "null"}}', 'false', true),
  ('{"not": {"not": {"required": ["a"]}}}', '{"a": 1}', true),
  ('{"not": {"anyOf": [{"type": "integer"}, {"const": "a"}]}}', '"a"', false),
  -- several
  ('{"type": "object", "required": ["id"], "properties": {"id": {"type": "integer"}, "tags": {"items": {"type": "string"}}},
     "additionalProperties": false}', '{"id": 7, "tags": ["a"]}', true),
  ('{"type": "object", "required": ["id"], "properties": {"id": {"type": "integer"}, "tags": {"items": {"type": "string"}}},
     "additionalProperties": false}', '{"id": 7, "tags": ["a", 1]}', false),
  ('{"type": "object", "required": ["id"], "properties": {"id": {"type": "integer"}, "tags": {"items": {"type": "string"}}},
     "additionalProperties": false}', '{"tags": ["a"]}', false),
  -- names that ask nothing
  ('{"title": "x", "properties": {"a": {"description": "y", "default": 1}}}', '{"a": "z"}', true);

SELECT * FROM judged WHERE jsonb_valid(schema, document) IS DISTINCT FROM verdict;
SELECT count(*) FILTER (WHERE jsonb_valid(schema, document)) AS valid,
    count(*) FILTER (WHERE NOT jsonb_valid(schema, document)) AS invalid FROM judged;
SELECT jsonb_valid(NULL, '1') IS NULL AS no_schema, jsonb_valid('{}', NULL) IS NULL AS no_document;

-- why there is no verdict: the state, the message and the detail of each error
CREATE FUNCTION refusal(schema jsonb, document jsonb, OUT state text, OUT message text, OUT detail text)
LANGUAGE plpgsql AS $$
BEGIN
  PERFORM jsonb_valid(schema, document);
EXCEPTION WHEN OTHERS THEN
  GET STACKED DIAGNOSTICS state = RETURNED_SQLSTATE, message = MESSAGE_TEXT, detail = PG_EXCEPTION_DETAIL;
END $$;
CREATE CAST (bytea AS jsonb) WITHOUT FUNCTION;
CREATE FUNCTION nots(number int) RETURNS jsonb LANGUAGE sql AS
$$ SELECT (repeat('{"not": ', number - 1) || '{}' || repeat('}', number - 1))::jsonb $$;

\pset format unaligned
\pset fieldsep ' | '

SELECT refusal.* FROM (VALUES
  (1, '[]'::jsonb),
  (2, '1'),
  (3, '{"tpye": "integer"}'),
  (4, '{"$ref": "#"}'),
  (5, '{"properties": {"a": {"tpye": "integer"}}}'),
  (6, '{"properties": []}'),
  (7, '{"items": [{}]}'),
  (8, '{"not": {"items": 1}}'),
  (9, '{"allOf": []}'),
  (10, '{"anyOf": [{}, {"required": ["a", "a"]}]}'),
  (11, '{"additionalProperties": {"pattern": "("}}'),
  (12, '{"items": {"type": "string", "pattern": "a+"}}'),
  (13, nots(129)),
  (14, '{"items": {"minimum": 123456789012345678901234567890123456789}}'),
  (15, '\x0100005001000080ff'::bytea::jsonb),
  (16, '\x000000'::bytea::jsonb)) AS row (number, schema), refusal(schema, '1')
ORDER BY number;

-- the first fault in key order is told, and where it is: shorter names come first, and a schema is entered whole before the next
SELECT message FROM refusal('{"items": {"x": 1}, "not": {"y": 1}}', '1');
SELECT message FROM refusal('{"items": {"not": {"allOf": [true, {"x": 1}]}}, "properties": {"a": {"y": 1}}}', '1');
SELECT message FROM refusal('{"properties": {"a/b~c": {"not": {"type": "x"}}, "größe": {}}}', '1');
SELECT message FROM refusal('{"properties": {"aa": {"x": 1}, "b": {"items": {"minimum": 1, "type": "x"}}}}', '1');

-- documents
SELECT refusal.* FROM (VALUES
  (1, '123456789012345678901234567890123456789'::jsonb),
  (2, '\x0100005001000080ff'::bytea::jsonb),
  (3, '\x000000'::bytea::jsonb)) AS row (number, document), refusal('{"items": {}}', document)
ORDER BY number;

-- a fault of the schema comes before one of the document
SELECT message FROM refusal('{"items": 1}', '123456789012345678901234567890123456789');

-- what is not refused: 128 schemas in one another
SELECT jsonb_valid(nots(128), '1') AS even, jsonb_valid(nots(127), '1') AS odd;

DROP CAST (bytea AS jsonb);
DROP FUNCTION refusal, nots;
