#!/usr/bin/env bash
# Shows the text of each line that has an error row, behind the line's number and the SQLSTATE.
set -euo pipefail

sqljson-split-rows --allow-error-rows loaded -- sqljson run orders.sql < orders.jsonl &&
    awk -F '\t' 'NR == FNR { state[$1] = $3; next } FNR in state { print FNR "\t" state[FNR] "\t" $0 }' loaded/errors.tsv orders.jsonl
