#!/usr/bin/env bash
# Prints a script that nests N pairs of parentheses in one another (default 200,000), then `list 0` and `equal 0 0`.
set -euo pipefail

exec awk -v n="${1:-200000}" 'BEGIN {
    for (i = 0; i < n; i++)
        printf "item sub paren 0:0@%d..%d#0 0:0@%d..%d#0 %d\n", i, i + 1, 2 * n - i - 1, 2 * n - i, n - i - 1
    print "list 0"
    print "equal 0 0"
}'
