#!/usr/bin/env bash
# Measures columns of dateTime, time, gYear and duration with two bounds beside the same columns without.
# Usage: bench/bounds.sh [RUNS]: the least of so many runs of each counts, of 3 if no number is given.
source "$(dirname "${BASH_SOURCE[0]}")/lib.sh"
begin "${1:-3}" bounds

build_csvw
rows=1000000

# document NAME DATATYPE: writes a document whose one column has the datatype, for the table of $base.
document() {
  printf '{"@context":"http://www.w3.org/ns/csvw","url":"%s.csv","tableSchema":{"columns":[{"name":"n","datatype":%s}]}}\n' "$base" "$2" >"$work/$1.json"
}

runs_line
printf '%-12s %8s %10s %10s   %6s\n' datatype seconds processor unbounded ratio
while read -r base least greatest; do
  make_file "$work/$base.csv" bound_rows.py "$base" "$rows" "$work/$base.csv"
  document "$base.unbounded" "\"$base\""
  document "$base.bounded" "{\"base\":\"$base\",\"minimum\":\"$least\",\"maximum\":\"$greatest\"}"
  for _ in $(seq "$runs"); do
    for kind in unbounded bounded; do
      measure "$base.$kind" "$csvw" validate --profile w3c --base http://example.org/ "$work/$base.$kind.json" "$work/$base.csv" ||
        fail "a value of $base is refused"
    done
  done
  read -r seconds used _ <<<"$(summary "$base.bounded")"
  read -r _ without _ <<<"$(summary "$base.unbounded")"
  printf '%-12s %8s %10s %10s   %6s\n' "$base" "$seconds" "$used" "$without" "$(ratio "$used" "$without")"
done <<'BOUNDS'
dateTime 1989-01-01T00:00:00Z 2030-01-01T00:00:00Z
time 00:00:00 23:59:59
gYear 1900 2030
duration PT0S P100Y
BOUNDS
