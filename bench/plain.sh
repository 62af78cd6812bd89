#!/usr/bin/env bash
# Measures `csvw plain` beside the program written by hand, on a table of a million rows.
# Usage: bench/plain.sh [RUNS]: the least of so many runs of each counts, of 3 if no number is given.
source "$(dirname "${BASH_SOURCE[0]}")/lib.sh"
begin "${1:-3}"
table=$work/rows.csv
url=http://example.org/p.csv

build_csvw
build_by_hand
make_file "$table" rows.py "$table"

"$csvw" plain "$url" "$table" 2>/dev/null | cmp - <("$by_hand" minimal "$url" "$table") || fail 'a run failed, or the outputs differ'
written=$("$by_hand" minimal "$url" "$table" | wc -c)

for _ in $(seq "$runs"); do
  measure csvw "$csvw" plain "$url" "$table"
  measure by_hand "$by_hand" minimal "$url" "$table"
done
read -r ours ours_cpu ours_peak <<<"$(summary csvw)"
read -r theirs theirs_cpu theirs_peak <<<"$(summary by_hand)"

echo "in: $(($(wc -c <"$table") / 1000000)) MB; out: $((written / 1000000)) MB, equal; $(runs_line)"
printf '%-10s %10s %20s %10s\n' program seconds 'processor seconds' 'peak MB'
printf '%-10s %10s %20s %10s\n' csvw "$ours" "$ours_cpu" "$ours_peak" 'by hand' "$theirs" "$theirs_cpu" "$theirs_peak"
printf '%-10s %10s %20s\n' ratio "$(ratio "$ours" "$theirs")" "$(ratio "$ours_cpu" "$theirs_cpu")"
