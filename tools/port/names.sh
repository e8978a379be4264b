#!/usr/bin/env bash
# Writes what tools/port/answers.py reads of the crate in this folder: NAMES (a folder) gets names.json and each function's Lts.antt.
# usage: cd crates/CRATE && ../../tools/port/names.sh NAMES
set -e
rm -rf "$1"
rt check --generated "$1/j" --old-names > "$1.log" 2>&1 || { tail -5 "$1.log"; exit 1; }
starts=$(python3 - "$1/j/names.json" <<'E'
import json, re, sys
for k in json.load(open(sys.argv[1])):
    m = re.match(r"^Rattle-\w+-proofs\.(.*)\.Lts$", k)
    if m and "+" not in k:
        print("--start", m.group(1).replace(".", "::"))
E
)
rt check --generated "$1/l" $starts > "$1.log" 2>&1 || true
tail -1 "$1.log"
