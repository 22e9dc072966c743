#!/usr/bin/env bash
# Ends with a status of its own where there were error rows, and passes the rows on.
set -uo pipefail

sqljson run orders.sql < orders.jsonl | awk -F '\t' '$3 == "E" { found = 1 } { print } END { exit found ? 10 : 0 }' > rows

status=$?
echo "status $status"
test "$status" -eq 10
