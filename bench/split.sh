#!/usr/bin/env bash
# Measures `csvw split --parts 64` beside the reader of rows alone, on the same file.
# Usage: bench/split.sh [RUNS [FILE]]: the least processor seconds of so many runs of each, of 5 if no number is given. The file is a
# table of 3,000,000 rows if none is given. Its fields have commas between them.
source "$(dirname "${BASH_SOURCE[0]}")/lib.sh"
file=${2:-}
begin "${1:-5}" rows
piece=65536
parts=64

build_csvw
build_crate bench_rows csv
if [ -z "$file" ]; then
  file=$work/long.csv
  make_file "$work/arrows.csv" rows_files.py "$work"
fi
printf '{"@context":"http://www.w3.org/ns/csvw","url":"long.csv"}\n' >"$work/split.json"

split=("$csvw" split --parts "$parts" --base http://example.org/ "$work/split.json" "$file")
planned=$("${split[@]}" | tail -n +2 | awk -F, '{ bytes += $4 } END { printf "%d", bytes }')
[ "$planned" = "$(stat -c %s "$file")" ] || fail "$file: the pieces have $planned bytes"

for _ in $(seq "$runs"); do
  measure split "${split[@]}"
  measure rows "$program" rows "$piece" , <"$file"
done
read -r _ ours ours_peak <<<"$(summary split)"
read -r _ theirs theirs_peak <<<"$(summary rows)"

echo "in: $(($(stat -c %s "$file") / 1000000)) MB, $parts parts; $(runs_line)"
printf '%-10s %20s %10s\n' program 'processor seconds' 'peak MB'
printf '%-10s %20s %10s\n' split "$ours" "$ours_peak" rows "$theirs" "$theirs_peak"
printf '%-10s %20s\n' ratio "$(ratio "$ours" "$theirs")"
echo 'bar: 1.25 of the processor time of the reader of rows'
