#!/usr/bin/env bash
# Runs the program on several machines that see the same files, and writes what one run would write.
# Needs: parallel ssh server
# usage: bash over_hosts.sh HOST,HOST.. > rows
set -euo pipefail

sqljson-in-parallel --list --piece "${PIECE:-64000000}" 1 orders.sql orders.jsonl > parts
parallel --arg-file parts --sshlogin "$1" --workdir "$PWD" --keep-order --halt now,fail=1 --retries 3 \
    sqljson-in-parallel --part {} 1 orders.sql orders.jsonl
