#!/usr/bin/env bash
# Turns a strip listing on standard input into the table of its levels, as scripts/check.sh reads it.
set -eu
exec awk '
    NR == 1 && $1 != "strip" { print "levels: no strip listing: " $0 >"/dev/stderr"; exit 1 }
    NR == 1 { print $2, $3, $4; next }
    {
        for (k = 2; k <= NF; k++) {
            split($k, setting, "/")
            printf "%s%s", setting[1], k < NF ? " " : "\n"
        }
    }'
