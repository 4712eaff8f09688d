#!/usr/bin/env bash
# Evidence from outside the proofs, more than the gate has time for: each compiled program against the second program on many
# random inputs, under valgrind on a few, and on every byte string of up to two bytes and many random ones.
# usage: scripts/evidence.sh [COUNT]      COUNT inputs for each program, 700 where none is given
set -u
cd "$(dirname "${BASH_SOURCE[0]}")/.." || exit 2
count=${1:-700}
failed=0

# No error of memory on the file, and the same status as without valgrind.
remembers() { # PROGRAM FILE
    if ! valgrind -q --error-exitcode=99 "$1" <"$2" >/dev/null 2>&1; then
        echo "evidence: valgrind complains of $1 on $2"
        failed=1
    fi
}

for program in strip_listing strip_trial table_check; do
    built=$(scripts/build.sh "$program") || exit 2
    SEED=$((RANDOM * 32768 + RANDOM)) scripts/compare.sh "${program##*_}" "$built" "$count" || failed=1
    for input in examples/*.txt examples/arrays/*.txt /dev/null; do
        remembers "$built" "$input"
    done
    scripts/any-bytes.py "$built" 10000 || failed=1
done
[ "$failed" -eq 0 ] && echo "evidence: nothing found"
exit "$failed"
