-- Each of the sixteen keywords, with the verdict that JSON Schema 2020-12 gives.
CREATE TEMP TABLE judged (keywords jsonb, document jsonb, verdict boolean);
INSERT INTO judged VALUES
  ('{}', 'null', true),
  ('{}', '[{"a": 1}]', true),
  -- type: 1.0 is the integer 1
  ('{"type": "integer"}', '1.0', true),
  ('{"type": "integer"}', '1.5', false),
  ('{"type": "integer"}', '1e2', true),
  ('{"type": "integer"}', '"1"', false),
  ('{"type": "number"}', '1.5', true),
  ('{"type": "number"}', 'true', false),
  ('{"type": "string"}', '""', true),
  ('{"type": "string"}', 'null', false),
  ('{"type": "boolean"}', 'false', true),
  ('{"type": "boolean"}', '0', false),
  ('{"type": "null"}', 'null', true),
  ('{"type": "null"}', 'false', false),
  ('{"type": "array"}', '[]', true),
  ('{"type": "array"}', '{}', false),
  ('{"type": "object"}', '{}', true),
  ('{"type": "object"}', '[]', false),
  ('{"type": ["string", "null"]}', 'null', true),
  ('{"type": ["string", "null"]}', '0', false),
  -- enum and const: numbers by value, objects whatever the order of their members
  ('{"enum": [1, "a", null]}', '1.0', true),
  ('{"enum": [1, "a", null]}', 'null', true),
  ('{"enum": [1, "a", null]}', '"A"', false),
  ('{"enum": [[1, 2]]}', '[2, 1]', false),
  ('{"enum": [{"a": 1, "b": [2]}]}', '{"b": [2.0], "a": 1}', true),
  ('{"enum": []}', 'null', false),
  ('{"const": null}', 'null', true),
  ('{"const": 0}', '0.00', true),
  ('{"const": 0}', 'false', false),
  ('{"const": {"a": [1]}}', '{"a": [1.0]}', true),
  ('{"const": {"a": [1]}}', '{"a": [1], "b": 2}', false),
  -- bounds, which hold of whatever is no number
  ('{"minimum": 5}', '5', true),
  ('{"minimum": 5}', '4.99999999999999999999', false),
  ('{"minimum": 5}', '"4"', true),
  ('{"maximum": 5}', '5.0', true),
  ('{"maximum": 5}', '5.00000000000000000001', false),
  ('{"maximum": 5}', '[6]', true),
  ('{"exclusiveMinimum": 5}', '5', false),
  ('{"exclusiveMinimum": 5}', '5.00000000000000000001', true),
  ('{"exclusiveMinimum": 5}', 'null', true),
  ('{"exclusiveMaximum": 5}', '5', false),
  ('{"exclusiveMaximum": 5}', '-1e300', true),
  ('{"exclusiveMaximum": 5}', '{"a": 6}', true),
  -- lengths in code points: the crab takes four bytes
  ('{"minLength": 2}', '"🦀🦀"', true),
  ('{"minLength": 2}', '"🦀"', false),
  ('{"minLength": 2}', '[]', true),
  ('{"maxLength": 2.0}', '"éé"', true),
  ('{"maxLength": 2.0}', '"abc"', false),
  ('{"maxLength": 2.0}', '123', true),
  -- literal patterns
  ('{"pattern": "^x-"}', '"x-a"', true),
  ('{"pattern": "^x-"}', '"ax-"', false),
  ('{"pattern": "^x-"}', '5', true),
  ('{"pattern": "^x-a$"}', '"x-a"', true),
  ('{"pattern": "^x-a$"}', '"x-ab"', false),
  ('{"pattern": "^(a|b)$"}', '"b"', true),
  ('{"pattern": "^(a|b)$"}', '"ab"', false),
  ('{"pattern": "^\\S*$"}', '"ab"', true),
  ('{"pattern": "^\\S*$"}', '"a b"', false),
  -- counts of elements
  ('{"minItems": 1}', '[null]', true),
  ('{"minItems": 1}', '[]', false),
  ('{"minItems": 1}', '{}', true),
  ('{"maxItems": 1}', '[1]', true),
  ('{"maxItems": 1}', '[1, 2]', false),
  ('{"maxItems": 1}', '"ab"', true),
  ('{"uniqueItems": true}', '[1, true, "1", [1], {"a": 1}]', true),
  ('{"uniqueItems": true}', '[1, 1.0]', false),
  ('{"uniqueItems": true}', '[{"a": 1, "b": 2}, {"b": 2, "a": 1}]', false),
  ('{"uniqueItems": true}', '[0, false, null, "", [], {}]', true),
  ('{"uniqueItems": false}', '[1, 1]', true),
  ('{"uniqueItems": true}', '"aa"', true),
  -- counts of members, and their names
  ('{"minProperties": 1}', '{"a": 1}', true),
  ('{"minProperties": 1}', '{}', false),
  ('{"minProperties": 1}', '[]', true),
  ('{"maxProperties": 1}', '{"a": 1}', true),
  ('{"maxProperties": 1}', '{"a": 1, "b": 2}', false),
  ('{"maxProperties": 1}', 'true', true),
  ('{"required": ["a"]}', '{"a": null}', true),
  ('{"required": ["a"]}', '{"A": 1, "b": 2}', false),
  ('{"required": ["a"]}', '[]', true),
  ('{"required": []}', '{}', true),
  -- several keywords
  ('{"type": "object", "required": ["id"], "maxProperties": 9}', '{"name": "x", "id": 7}', true),
  ('{"type": "object", "required": ["id"], "maxProperties": 1}', '{"name": "x", "id": 7}', false),
  ('{"minLength": 1, "minimum": 3}', '2', false),
  ('{"minLength": 1, "minimum": 3}', '"a"', true);

-- the verdicts, all as they have to be, as flat keywords and as schemas
SELECT * FROM judged WHERE jsonb_valid_flat(keywords, document) IS DISTINCT FROM verdict
    OR jsonb_valid(keywords, document) IS DISTINCT FROM verdict;

-- how many there are of each keyword that stands alone
SELECT keyword, count(*) FILTER (WHERE jsonb_valid(keywords, document)) AS valid,
    count(*) FILTER (WHERE NOT jsonb_valid(keywords, document)) AS invalid
FROM judged, jsonb_object_keys(keywords) AS keyword
WHERE (SELECT count(*) FROM jsonb_object_keys(keywords)) = 1
GROUP BY keyword ORDER BY keyword COLLATE "C";

-- no value, no verdict
SELECT jsonb_valid(NULL, '1') IS NULL AS no_keywords, jsonb_valid('{}', NULL) IS NULL AS no_document;

SELECT provolatile AS volatile, proisstrict AS strict, proparallel AS parallel
FROM pg_proc WHERE oid IN ('jsonb_valid(jsonb, jsonb)'::regprocedure, 'jsonb_valid_flat(jsonb, jsonb)'::regprocedure);
