#!/usr/bin/env bash
# Loads dates by way of a table of texts with the numbers of the lines: what is no date becomes an error row.
# Needs: sqlite3
set -euo pipefail

sqljson-split-rows --allow-error-rows --numbers loaded -- sqljson run people.sql < people.jsonl &&
    sqlite3 -bail people.db < dates.sql &&
    sqlite3 people.db 'SELECT id, quote(since) FROM people; SELECT * FROM errors ORDER BY line;'
