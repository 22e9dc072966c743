#!/usr/bin/env bash
# Makes JSON lines of the rows: of each line an object, as many programs read them.
set -euo pipefail

sqljson-split-rows --allow-error-rows loaded -- sqljson run objects.sql < orders.jsonl &&
    sed 's/\\\\/\\/g' loaded/1.tsv > rows.jsonl &&
    cat rows.jsonl
