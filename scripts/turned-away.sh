#!/usr/bin/env bash
# Shows that a use which the types turn away is stopped by the compiler, before anything is proved or run: writes each use of
# turned-away/*.edit into a copy of its crate and holds the compiler, which compiles there and proves nothing, to the error that the
# edit names.
set -u
root=$(cd "$(dirname "${BASH_SOURCE[0]}")/.." && pwd) || exit 1
work=$(mktemp -d) || exit 1
trap 'rm -rf "$work"' EXIT
tried=0
for edit in "$root"/turned-away/*.edit; do
    rm -rf "$work/repo"
    mkdir "$work/repo"
    mkdir "$work/repo/crates"
    cp "$root/crates.txt" "$work/repo/"
    (cd "$root/crates" && tar cf - --exclude=./*/out .) | tar xf - -C "$work/repo/crates"
    name=$(python3 - "$edit" "$work/repo" <<'END'
import sys
lines = dict(line.split(": ", 1) for line in open(sys.argv[1]).read().split("\n") if ": " in line)
path = f"{sys.argv[2]}/crates/{lines['crate']}/{lines['file']}"
text = open(path).read()
assert text.count(lines["old"]) == 1, "the old text does not stand once"
open(path, "w").write(text.replace(lines["old"], lines["new"]))
# a test, since what has none is not compiled by itself
open(f"{sys.argv[2]}/crates/{lines['crate']}/src/lib.rt", "a").write("\n#[test]\nfn is_compiled() {}\n")
print(lines["crate"] + " " + lines["error"])
END
    ) || { echo "turned away: $(basename "$edit") does not fit"; exit 1; }
    crate=${name% *}
    error=${name#* }
    if (cd "$work/repo/crates/$crate" && rt try --test) >"$work/log" 2>&1 || ! grep -qF "[$error]" "$work/log"; then
        echo "turned away: $(basename "$edit") was not stopped by $error"
        tail -n 5 "$work/log"
        exit 1
    fi
    tried=$((tried + 1))
done
[ "$tried" -gt 0 ] || exit 1
echo "turned away before running: $tried uses"
