#!/bin/sh
# Lists the lines among which the places of a point of docs/DESIGN-PASS.md stand. Call: tools/places.sh POINT [FOLDER]
point=$1
cd "${2:-$(dirname "$0")/..}" || exit 1
lines() { grep -rnE --include='*.rt' "$1" crates/*/src; }
case $point in
  1) lines 'enum [A-Z]|-> u8$|^type .* = \(|[( ]number: u8|numbers: \[u32|shuffler: u32|: bool[,)]' ;;
  2) rm -rf /tmp/places && mkdir /tmp/places
     for f in $(find crates -path '*/src/*.rt' -not -path '*/out/*'); do
       mkdir -p "/tmp/places/$(dirname "$f")"; cp "$f" "/tmp/places/${f%.rt}.rs"
     done
     duplicates --repo /tmp/places --most 200 --min-lines 5 --seconds 100 ;;
  3) lines 'for [^ ]+( [^ ]+)? in .*(\.\.|enumerate)|while |\+= 1;|wrapping_add\(1\)' ;;
  4) lines '^impl.*(From<|PartialEq|Eq for|Ord for|Clone for|Debug for|Display for)|^ *(pub )?fn .*-> &.static str|Err\(_\) =>|return Err\(anyhow!|fn (wish|told_no|shuffler_named|named|push_number)\(' ;;
  5) grep -rhoE --include='*.rt' '^ +requires .*' crates/*/src | sed -E 's/^ +requires ([a-z_]+ )?//' | sort | uniq -c | sort -rn | awk '$1 > 2'
     lines 'fn .*\(([^()]*:){6}' ;;
  6) lines '(let|mut|:) ?[a-z_: &]*\[[^];]*; *[0-9A-Z_]+\]|(count|factors|chosen|levels): usize|MOST|LONGEST' ;;
  7) lines 'match (self|\(.*self)|fn\(|dyn |matches!\(' ;;
  8) for c in crates/*/; do
       n=$(find "$c" -name Answers.antt -not -path '*/out/*' -exec cat {} + 2>/dev/null | grep -c '^pub ')
       l=$(find "$c" -path '*/proofs/*' -name '*.antt' -not -path '*/out/*' -exec cat {} + 2>/dev/null | wc -l)
       echo "$(basename "$c") answers $n lines $l"
     done ;;
esac
