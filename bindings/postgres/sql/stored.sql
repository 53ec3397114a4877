-- Values as tables store them: with a header of one byte, compressed, and out of line.
SET default_toast_compression = 'pglz';
CREATE TABLE short (body jsonb);
CREATE TABLE compressed (body jsonb);
CREATE TABLE outside (body jsonb);
CREATE TABLE outside_compressed (body jsonb);
ALTER TABLE outside ALTER COLUMN body SET STORAGE EXTERNAL;

INSERT INTO short SELECT jsonb_build_object('name', 'a');
INSERT INTO compressed SELECT jsonb_build_object('name', repeat('é', 10000));
INSERT INTO outside SELECT jsonb_build_object('name', repeat('é', 10000));
INSERT INTO outside_compressed
SELECT jsonb_build_object('name', string_agg(repeat(md5(i::text), 2), '')) FROM generate_series(1, 3000) AS i;

-- 18 bytes are 17 and a header of one
CREATE VIEW stored AS
SELECT 'short' AS name, body FROM short
UNION ALL SELECT 'compressed', body FROM compressed
UNION ALL SELECT 'outside', body FROM outside
UNION ALL SELECT 'outside_compressed', body FROM outside_compressed;

SELECT stored.name, CASE WHEN stored.name IN ('short', 'outside') THEN pg_column_size(body) END AS size,
    pg_column_compression(body) AS compression,
    pg_relation_size(reltoastrelid) > 0 AS out_of_line
FROM stored JOIN pg_class ON oid = stored.name::regclass ORDER BY stored.name COLLATE "C";

SELECT name,
    jsonb_valid('{"type": "object", "required": ["name"], "maxProperties": 1}', body) AS has_name,
    jsonb_valid('{"required": ["id"]}', body) AS has_id,
    jsonb_valid(jsonb_build_object('const', body), body) AS is_itself,
    jsonb_valid(jsonb_build_object('enum', jsonb_build_array(body || '{"id": 1}')), body) AS is_another
FROM stored ORDER BY name COLLATE "C";

-- strings alone
CREATE TABLE texts (body jsonb);
INSERT INTO texts SELECT to_jsonb(repeat('é', 10000));
INSERT INTO texts SELECT to_jsonb(string_agg(md5(i::text), '')) FROM generate_series(1, 3000) AS i;
SELECT length(body #>> '{}'),
    jsonb_valid('{"minLength": 10000, "maxLength": 10000}', body) AS of_10000,
    jsonb_valid('{"minLength": 96000, "maxLength": 96000}', body) AS of_96000
FROM texts ORDER BY 1;

-- keywords that are stored so
CREATE TABLE rules (keywords jsonb);
INSERT INTO rules SELECT '{"type": "object"}';
INSERT INTO rules SELECT jsonb_build_object('required', jsonb_agg('key_' || i)) FROM generate_series(1, 5000) AS i;
SELECT pg_column_size(keywords) > 1000 AS large,
    jsonb_valid(keywords, (SELECT jsonb_object_agg('key_' || i, i) FROM generate_series(1, 5000) AS i)) AS has_5000,
    jsonb_valid(keywords, (SELECT jsonb_object_agg('key_' || i, i) FROM generate_series(1, 4999) AS i)) AS has_4999
FROM rules ORDER BY 1;

-- a refusal names the member of stored keywords too
INSERT INTO rules SELECT jsonb_build_object('const', repeat('é', 10000), 'wrong', 1);
SELECT jsonb_valid(keywords, '1') FROM rules WHERE keywords ? 'wrong';

DROP VIEW stored;
DROP TABLE short, compressed, outside, outside_compressed, texts, rules;
