-- Why there is no verdict: the state, the message and the detail of each error.
CREATE FUNCTION refusal(keywords jsonb, document jsonb, OUT state text, OUT message text, OUT detail text)
LANGUAGE plpgsql AS $$
BEGIN
  PERFORM jsonb_valid_flat(keywords, document);
EXCEPTION WHEN OTHERS THEN
  GET STACKED DIAGNOSTICS state = RETURNED_SQLSTATE, message = MESSAGE_TEXT, detail = PG_EXCEPTION_DETAIL;
END $$;

-- bytes as they are, to stand for values that PostgreSQL does not make
CREATE CAST (bytea AS jsonb) WITHOUT FUNCTION;

\pset format unaligned
\pset fieldsep ' | '

-- keywords that are no keyword object
SELECT refusal.* FROM (VALUES
  (1, '[]'::jsonb),
  (2, 'true'),
  (3, '{"tpye": "integer"}'),
  (4, '{"type": "object", "properties": {}}'),
  (5, '{"type": "integer", "maxLength": -1}'),
  (6, '{"required": ["a", "a"]}'),
  (7, '{"pattern": "("}'),
  (8, '{"type": "string", "pattern": "a+"}'),
  (9, ('{"const": ' || repeat('[', 129) || repeat(']', 129) || '}')::jsonb),
  (10, '{"minimum": 123456789012345678901234567890123456789}'),
  (11, '\x0100005001000080ff'::bytea::jsonb),
  (12, '\x000000'::bytea::jsonb)) AS row (number, keywords), refusal(keywords, '1')
ORDER BY number;

-- the first fault in key order is told: shorter names come first
SELECT message FROM refusal('{"minimum": "x", "type": "x", "unknown": 1}', '1');
SELECT message FROM refusal('{"minimum": 1, "type": "string", "Unknown": 1, "unknown": 1}', '1');
SELECT message FROM refusal('{"größe": 1}', '1');

-- documents
SELECT refusal.* FROM (VALUES
  (1, '123456789012345678901234567890123456789'::jsonb),
  (2, '\x0100005001000080ff'::bytea::jsonb),
  (3, '\x000000'::bytea::jsonb)) AS row (number, document), refusal('{}', document)
ORDER BY number;

-- a fault of the keywords comes before one of the document
SELECT message FROM refusal('{"x": 1}', '123456789012345678901234567890123456789');

-- what is not refused
SELECT count(*), count(state) FROM (VALUES
  ('{}'::jsonb, '12345678901234567890123456789012345678'::jsonb),
  ('{}', '1e300'),
  ('{}', ('[' || repeat('[', 500) || repeat(']', 500) || ']')::jsonb),
  (('{"const": ' || repeat('[', 128) || repeat(']', 128) || '}')::jsonb, '1')) AS row (keywords, document),
  refusal(keywords, document);

DROP CAST (bytea AS jsonb);
DROP FUNCTION refusal;
