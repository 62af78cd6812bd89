#!/usr/bin/env bash
# Measures `csvw convert` on metadata documents of half a megabyte and of a megabyte, and prints how much longer the second takes.
# Usage: bench/documents.sh [RUNS]: the least of so many runs of each counts, of 3 if no number is given.
source "$(dirname "${BASH_SOURCE[0]}")/lib.sh"
begin "${1:-3}" documents

build_csvw

runs_line
printf '%-11s %7s %9s %8s %4s   %7s %9s %8s %4s   %6s\n' document count bytes seconds MB count bytes seconds MB ratio
printf 'id\n' >"$work/p.csv"
for job in notes:550:1100 properties:30000:60000 texts:50000:100000 columns:32:64; do
  IFS=: read -r kind half whole <<<"$job"
  line=$(printf '%-11s' "$kind")
  for count in "$half" "$whole"; do
    meta=$work/$kind.$count.json
    python3 "$bench/documents.py" "$kind" "$count" "$meta" "$work/wide.csv"
    tables=("$work/p.csv")
    if [ "$kind" = columns ]; then
      tables=()
      for _ in $(seq "$count"); do tables+=("$work/wide.csv"); done
    fi
    for _ in $(seq "$runs"); do
      measure "$kind.$count" "$csvw" convert --base http://example.org/ "$meta" "${tables[@]}"
    done
    read -r seconds _ peak <<<"$(summary "$kind.$count" 3)"
    line+=$(printf ' %7s %9s %8s %4s  ' "$count" "$(stat -c %s "$meta")" "$seconds" "$peak")
    [ "$count" = "$half" ] && first=$seconds
  done
  printf '%s %6s\n' "$line" "$(ratio "$seconds" "$first")"
done
echo 'bars: a megabyte in under 2 seconds, and in about twice the time of half of it'
