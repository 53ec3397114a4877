-- 100,000 rows, of which each tenth has no name, beside what plain SQL says.
CREATE TABLE many AS
SELECT i AS id, CASE WHEN i % 10 = 0 THEN '{}' ELSE jsonb_build_object('name', 'n' || i) END
    || jsonb_build_object('id', i, 'price', i / 100.0, 'tags', jsonb_build_array(i % 7, i % 5)) AS body
FROM generate_series(1, 100000) AS i;

SELECT count(*) AS valid FROM many WHERE jsonb_valid('{"type": "object", "required": ["id", "name"]}', body);
SELECT count(*) AS other FROM many
WHERE jsonb_valid('{"required": ["name"]}', body) IS DISTINCT FROM body ? 'name';

-- prices from 0.01 up to 499.99
SELECT count(*) AS valid FROM many WHERE jsonb_valid('{"exclusiveMaximum": 500}', body -> 'price');
SELECT count(*) AS other FROM many
WHERE jsonb_valid('{"exclusiveMaximum": 500}', body -> 'price') IS DISTINCT FROM (body -> 'price')::numeric < 500;

-- i % 7 = i % 5 where i % 35 is 0, 1, 2, 3 or 4: 14,289 rows
SELECT count(*) AS invalid FROM many WHERE NOT jsonb_valid('{"uniqueItems": true}', body -> 'tags');

-- by several processes
SET parallel_setup_cost = 0;
SET parallel_tuple_cost = 0;
SET min_parallel_table_scan_size = 0;
SET max_parallel_workers_per_gather = 2;
EXPLAIN (COSTS OFF) SELECT count(*) FROM many WHERE jsonb_valid('{"required": ["name"]}', body);
SELECT count(*) AS valid FROM many WHERE jsonb_valid('{"required": ["name"]}', body);

-- a constraint on all of them
ALTER TABLE many ADD CONSTRAINT has_id CHECK (jsonb_valid('{"required": ["id"]}', body));
ALTER TABLE many ADD CONSTRAINT has_name CHECK (jsonb_valid('{"required": ["name"]}', body));

DROP TABLE many;
