#!/usr/bin/env bash
# Measures what it costs to show the progress at a terminal, for `csvw validate` and `csvw convert` on a table of a million rows.
# Usage: bench/progress.sh [RUNS]: the least of so many runs of each counts, of 9 if no number is given.
source "$(dirname "${BASH_SOURCE[0]}")/lib.sh"
begin "${1:-9}"
table=$work/rows.csv
document=$work/strings.json
url=http://example.org/p.csv

build_csvw
make_file "$table" rows.py "$table"
printf '{"@context":"http://www.w3.org/ns/csvw","url":"p.csv","tableSchema":{"columns":[%s]}}\n' \
  '{"name":"id"},{"name":"name"},{"name":"place"},{"name":"amount"},{"name":"note"}' >"$document"

echo "in: $(($(wc -c <"$table") / 1000000)) MB; $(runs_line)"
printf '%-10s %20s %10s %10s\n' job 'with the progress' without ratio
for job in validate convert; do
  read -r with without < <(python3 "$bench/at_terminal.py" "$runs" "$csvw" $job --base "$url" "$document" "$table") || fail "$job: a run failed"
  [ -n "${without:-}" ] || fail "$job: a run failed, or no progress was shown"
  printf '%-10s %20s %10s %10s\n' "$job" "$with" "$without" "$(awk -v a="$with" -v b="$without" 'BEGIN { printf "%.3f", a / b }')"
done
