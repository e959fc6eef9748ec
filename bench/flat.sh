#!/usr/bin/env bash
# Prints a script of N `item` lines that spell one flat subtree (default 1,000,000), then `list 0` and `equal 0 0`.
# Its leaves are idents, puncts and literals in turn.
set -euo pipefail

exec awk -v n="${1:-1000000}" 'BEGIN {
    printf "item sub brace 0:0@0..1#0 0:0@%d..%d#0 %d\n", 4 * n, 4 * n + 1, n - 1
    for (i = 1; i < n; i++) {
        span = sprintf("0:%d@%d..%d#0", i % 16, 4 * i, 4 * i + 3)
        if (i % 3 == 1) print "item ident plain " span " x" i % 100
        else if (i % 3 == 2) print "item punct alone " span " ,"
        else print "item lit int 2 " span " " i % 10 "u8"
    }
    print "list 0"
    print "equal 0 0"
}'
