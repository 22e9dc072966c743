BEGIN;
CREATE TABLE orders (id INTEGER NOT NULL, name TEXT, note TEXT, price TEXT) STRICT;
CREATE TABLE errors (line INTEGER, statement INTEGER, state TEXT) STRICT;
CREATE TEMP TABLE raw (object TEXT);
.mode ascii
.separator "\037" "\n"
.import rows.jsonl raw
-- ->> cuts a text at U+0000, so a text with it is refused.
CREATE TEMP TABLE whole (object TEXT CHECK (NOT instr(replace(object, '\\', ''), '\u0000')));
INSERT INTO whole SELECT object FROM raw;
-- SQLite has no exact decimals: ->> makes a double of a number, and -> is its text.
INSERT INTO orders SELECT object ->> 'id', object ->> 'name', object ->> 'note', nullif(object -> 'price', 'null') FROM whole;
.separator "\t" "\n"
.import loaded/errors.tsv errors
COMMIT;
