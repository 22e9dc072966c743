#!/usr/bin/env bash
# Loads the same tables into MariaDB in one transaction.
# Needs: mariadb, and a server that it finds, which allows LOAD DATA LOCAL.
set -euo pipefail

sqljson-split-rows --allow-error-rows --statements 2 loaded -- sqljson run orders.sql < orders.jsonl &&
    mariadb --local-infile=1 < mariadb.sql &&
    mariadb --batch --skip-column-names -e 'SELECT * FROM orders; SELECT * FROM order_lines; SELECT * FROM errors;'
