-- A database with version 1.0 of the extension, which is then brought up to the next version.
SELECT current_database() AS main \gset
SET client_min_messages = warning;
DROP DATABASE IF EXISTS jsonb_valid_upgrade;
CREATE DATABASE jsonb_valid_upgrade ENCODING 'UTF8' LOCALE 'C' TEMPLATE template0;

\c jsonb_valid_upgrade
CREATE EXTENSION jsonb_valid VERSION '1.0';
CREATE TABLE orders (payload jsonb CHECK (jsonb_valid('{"required": ["id"]}', payload)));
INSERT INTO orders VALUES ('{"id": 1}');
INSERT INTO orders VALUES ('{}');

-- it takes flat schemas alone
SELECT jsonb_valid('{"items": {}}', '[]');

ALTER EXTENSION jsonb_valid UPDATE;
SELECT extversion FROM pg_extension WHERE extname = 'jsonb_valid';
INSERT INTO orders VALUES ('{"id": 2}');
INSERT INTO orders VALUES ('{}');
SELECT jsonb_valid('{"items": {"type": "integer"}}', '[1, 1.5]');
SELECT jsonb_valid_flat('{"items": {}}', '[]');
SELECT count(*) FROM orders;

-- both versions have the same functions in the end
CREATE TEMP TABLE upgraded AS
SELECT oid::regprocedure::text AS name, prosrc, provolatile, proisstrict, proparallel, procost, obj_description(oid) AS comment
FROM pg_proc WHERE proname LIKE 'jsonb\_valid%';
DROP EXTENSION jsonb_valid CASCADE;
CREATE EXTENSION jsonb_valid;
SELECT name, prosrc FROM upgraded ORDER BY name;
SELECT name FROM upgraded
EXCEPT SELECT oid::regprocedure::text FROM pg_proc AS new JOIN upgraded AS old ON old.name = oid::regprocedure::text
WHERE (new.prosrc, new.provolatile, new.proisstrict, new.proparallel, new.procost, obj_description(oid))
    = (old.prosrc, old.provolatile, old.proisstrict, old.proparallel, old.procost, old.comment);

\c :main
DROP DATABASE jsonb_valid_upgrade;
