BEGIN;
CREATE TABLE people (id INTEGER NOT NULL, since TEXT) STRICT;
CREATE TABLE errors (line INTEGER, statement INTEGER, state TEXT) STRICT;
CREATE TEMP TABLE people_read (line INTEGER, id TEXT, since TEXT);
.mode ascii
.separator "\t" "\n"
.import loaded/1.tsv people_read
.import loaded/errors.tsv errors
-- 22007 is the SQLSTATE of a text that is no date.
INSERT INTO errors SELECT line, 1, '22007' FROM people_read WHERE since <> '\N' AND date(since, '+0 days') IS NOT since;
INSERT INTO people SELECT nullif(id, '\N'), nullif(since, '\N') FROM people_read WHERE since = '\N' OR date(since, '+0 days') IS since;
COMMIT;
