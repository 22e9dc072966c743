#!/usr/bin/env bash
# Reads compressed lines. With pipefail the status also tells of a file that is damaged or cut off.
# Needs: gzip
set -euo pipefail
gzip -kf orders.jsonl

zcat orders.jsonl.gz | sqljson run orders.sql > rows

diff rows <(sqljson run orders.sql < orders.jsonl) && echo same
