#!/usr/bin/env bash
# Reads several files, first as one input, then each by itself with its name before its rows.
set -euo pipefail
mkdir -p parts
printf '{"id":1}\n{"id":2}' > 'parts/a&b.jsonl'
printf '{"id":3}\n' > $'parts/c|\\1\t.jsonl'

# A text as a row has it.
escaped() {
    local text=${1//\\/\\\\}
    text=${text//$'\t'/\\t}
    text=${text//$'\n'/\\n}
    printf '%s' "${text//$'\r'/\\r}"
}

awk 1 parts/*.jsonl | sqljson run orders.sql
for file in parts/*.jsonl; do
    sqljson run orders.sql < "$file" | name=$(escaped "$file") awk '{ print ENVIRON["name"] "\t" $0 }'
done
