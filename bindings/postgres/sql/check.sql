-- A CHECK that refuses rows.
CREATE TABLE orders (
  id int PRIMARY KEY,
  payload jsonb CONSTRAINT payload_has_an_id CHECK (jsonb_valid('{"type": "object", "required": ["id"]}', payload)));

INSERT INTO orders VALUES (1, '{"id": 7, "name": "x"}');
INSERT INTO orders VALUES (2, '{"name": "x"}');
INSERT INTO orders VALUES (3, '["id"]');
INSERT INTO orders VALUES (4, NULL);
UPDATE orders SET payload = payload - 'id' WHERE id = 1;
UPDATE orders SET payload = payload - 'name' WHERE id = 1;
SELECT * FROM orders ORDER BY id;

-- rows that are there are looked at
ALTER TABLE orders ADD CONSTRAINT payload_is_an_order CHECK (jsonb_valid('{"minProperties": 2}', payload));
ALTER TABLE orders ADD CONSTRAINT payload_is_an_order CHECK (jsonb_valid('{"minProperties": 1}', payload));

-- keywords that are refused let no row in
CREATE TABLE misspelt (payload jsonb CHECK (jsonb_valid('{"tpye": "object"}', payload)));
INSERT INTO misspelt VALUES ('{}');
SELECT count(*) FROM misspelt;

-- in an index
CREATE INDEX ON orders (id) WHERE jsonb_valid('{"maxProperties": 1}', payload);

DROP TABLE orders, misspelt;
