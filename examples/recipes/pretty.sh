#!/usr/bin/env bash
# Reads JSON texts that stand on many lines, or in one array. jq writes each on one line.
# Needs: jq
set -euo pipefail

jq -c . pretty.json | sqljson run orders.sql
jq -c '.[]' array.json | sqljson run orders.sql
