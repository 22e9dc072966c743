#!/usr/bin/env bash
# Loads rows into SQLite in one transaction, by way of JSON lines.
# Needs: sqlite3
set -euo pipefail

bash json_lines.sh > /dev/null &&
    sqlite3 -bail orders.db < sqlite.sql &&
    sqlite3 orders.db 'SELECT id, name, quote(note), price FROM orders; SELECT * FROM errors;'
