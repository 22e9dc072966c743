#!/usr/bin/env bash
# Loads orders and their lines into PostgreSQL in one transaction, and the error rows into a table of their own.
# Needs: psql, and a server that it finds.
set -euo pipefail

sqljson-split-rows --allow-error-rows --statements 2 loaded -- sqljson run orders.sql < orders.jsonl &&
    psql -q -1 -v ON_ERROR_STOP=1 -f postgresql.sql &&
    psql -q -c 'COPY orders TO STDOUT' -c 'COPY order_lines TO STDOUT' -c 'COPY errors TO STDOUT'
