-- A database whose encoding is not UTF8 is refused, whatever is asked.
SELECT current_database() AS main \gset
SET client_min_messages = warning;
DROP DATABASE IF EXISTS jsonb_valid_latin1;
DROP DATABASE IF EXISTS jsonb_valid_sql_ascii;
CREATE DATABASE jsonb_valid_latin1 ENCODING 'LATIN1' LOCALE 'C' TEMPLATE template0;
CREATE DATABASE jsonb_valid_sql_ascii ENCODING 'SQL_ASCII' LOCALE 'C' TEMPLATE template0;

\c jsonb_valid_latin1
CREATE EXTENSION jsonb_valid;
SELECT jsonb_valid('{}', '1');
\echo :LAST_ERROR_SQLSTATE

\c jsonb_valid_sql_ascii
CREATE EXTENSION jsonb_valid;
SELECT jsonb_valid('{"x": 1}', '1');

\c :main
SELECT jsonb_valid('{}', '1');
DROP DATABASE jsonb_valid_latin1;
DROP DATABASE jsonb_valid_sql_ascii;
