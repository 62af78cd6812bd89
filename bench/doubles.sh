#!/usr/bin/env bash
# Measures a column of doubles beside one of decimals, without bounds and with two.
# Usage: bench/doubles.sh [RUNS]: the least of so many runs of each counts, of 3 if no number is given.
source "$(dirname "${BASH_SOURCE[0]}")/lib.sh"
begin "${1:-3}"

build_csvw
rows=1000000
table=$work/numbers.csv
make_file "$table" double_rows.py "$rows" "$table"

# document NAME DATATYPE: writes a document whose one column has the datatype.
document() {
  printf '{"@context":"http://www.w3.org/ns/csvw","url":"numbers.csv","tableSchema":{"columns":[{"name":"n","datatype":%s}]}}\n' "$2" >"$work/$1.json"
}

# triples NAME: converts the table by a document, and prints its lines with xsd:decimal in the place of xsd:double.
triples() {
  "$csvw" convert --minimal --profile w3c --base http://example.org/ "$work/$1.json" "$table" 2>/dev/null | sed 's/#double>/#decimal>/'
}

bounds='"minimum":0,"maximum":100000'
document decimal '"decimal"'
document double '"double"'
document decimal_bounds "{\"base\":\"decimal\",$bounds}"
document double_bounds "{\"base\":\"double\",$bounds}"
cmp <(triples decimal) <(triples double) || fail 'the graphs differ'
cmp <(triples decimal_bounds) <(triples double_bounds) || fail 'the graphs with bounds differ'

runs_line
printf '%-28s %8s %10s %10s   %6s\n' job seconds processor decimals ratio
for job in validate 'convert --minimal'; do
  for kind in '' _bounds; do
    name=doubles.${job%% *}$kind
    for _ in $(seq "$runs"); do
      for base in decimal double; do
        # shellcheck disable=SC2086
        measure "$name.$base" "$csvw" $job --profile w3c --base http://example.org/ "$work/$base$kind.json" "$table"
      done
    done
    read -r seconds used _ <<<"$(summary "$name.double")"
    read -r _ decimals _ <<<"$(summary "$name.decimal")"
    printf '%-28s %8s %10s %10s   %6s\n' "$job${kind:+, with bounds}" "$seconds" "$used" "$decimals" "$(ratio "$used" "$decimals")"
  done
done
echo 'bar: 1.50 of the processor seconds of decimals'
