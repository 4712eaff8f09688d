#!/usr/bin/env bash
# Compares a program with the second program, byte for byte.
# usage: scripts/compare.sh KIND PROGRAM [COUNT]
# KIND is listing, trial or check. PROGRAM reads standard input, prints what the second program's command of that name prints, and
# ends with status 0. At least COUNT inputs are tried, and never fewer than 200. SEED in the environment picks other inputs.
set -u

least=200
seed=${SEED:-20190712}
usage="usage: scripts/compare.sh listing|trial|check PROGRAM [COUNT]"
root=$(cd "$(dirname "${BASH_SOURCE[0]}")/.." && pwd) || exit 2

if [ $# -lt 2 ] || [ $# -gt 3 ]; then
    echo "$usage" >&2
    exit 2
fi
case $1 in
    listing) inputs=cases things=listings ;;
    trial) inputs=scripts things=trials ;;
    check) inputs=tables things=checks ;;
    *)
        echo "$usage" >&2
        exit 2
        ;;
esac
program=$2
count=${3:-500}
if ! [[ $count =~ ^[0-9]{1,4}$ ]]; then
    echo "compare: COUNT is a number of one to four digits" >&2
    exit 2
fi
if [ ! -f "$program" ] || [ ! -x "$program" ]; then
    echo "compare: no program at $program" >&2
    exit 2
fi
program=$(cd "$(dirname "$program")" && pwd)/$(basename "$program") || exit 2

cargo build --quiet --release --offline --locked \
    --manifest-path "$root/reference/Cargo.toml" \
    --target-dir "$root/reference/target" || exit 2

work=$(mktemp -d) || exit 2
trap 'rm -rf "$work"' EXIT
"$root/reference/target/release/reference" "$inputs" "$seed" "$count" "$work" >/dev/null || exit 2

compared=0
differences=0
for input in "$work"/*.in; do
    [ -f "$input" ] || break
    timeout 60 "$program" <"$input" >"$work/got" 2>"$work/errors"
    status=$?
    compared=$((compared + 1))
    if [ "$status" -ne 0 ] || ! cmp -s "$work/got" "${input%.in}.out"; then
        differences=$((differences + 1))
        if [ "$differences" -le 10 ]; then
            printf 'different (status %d) on input %s, %q\n' "$status" "$(basename "$input")" \
                "$(head -c 80 "$input" | tr '\0' '?')" >&2
            diff -a "$work/got" "${input%.in}.out" 2>&1 | head -n 4 | cut -c 1-120 | sed 's|^|  |' >&2
            head -c 200 "$work/errors" | sed 's|^|  |' >&2
        fi
    fi
done

echo "compare: $compared $things, $differences differences"
[ "$differences" -eq 0 ] && [ "$compared" -ge "$least" ]
