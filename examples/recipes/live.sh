#!/usr/bin/env bash
# Shows the error rows of a file that grows, each as soon as its line is there.
set -u
cp orders.jsonl growing.jsonl || exit

timeout 3 tail -n +1 -f growing.jsonl | sqljson run orders.sql | grep -a --line-buffered -P '^\d+\t\d+\tE\t'
exit "${PIPESTATUS[1]}"
