#!/usr/bin/env bash
# Measures pages with a million faults beside the run that finds them: rows with one key, and texts that are no integers.
# Usage: bench/pages.sh [RUNS]: the least of so many runs of each counts, of 3 if no number is given.
source "$(dirname "${BASH_SOURCE[0]}")/lib.sh"
begin "${1:-3}"

build_csvw
printf '%s\n' '{"@context":"http://www.w3.org/ns/csvw","url":"p.csv","tableSchema":{"columns":[{"name":"id"},{"name":"name"}],"primaryKey":"id"}}' \
  >"$work/doubled.json"
printf '%s\n' '{"@context":"http://www.w3.org/ns/csvw","url":"p.csv","tableSchema":{"columns":[{"name":"id","datatype":"integer"},{"name":"name"}]}}' \
  >"$work/texts.json"
{ echo id,name; yes 7,x | head -n 1000000; } >"$work/doubled.csv" || true
{ echo id,name; yes x7,x | head -n 1000000; } >"$work/texts.csv" || true

# measure_page NAME WORD..: measures csvw with these words. It ends with status 1, as the tables aren't valid.
measure_page() {
  measure "$1" "$csvw" "${@:2}" || [ $? = 1 ]
}

# check_page FILE FAULTS: fails unless a page with all faults shows so many.
check_page() {
  found=$("$csvw" validate --report text --all --base http://example.org/ "$work/$1.json" "$work/$1.csv" | grep -c '^[^ ].* (row ') || true
  [ "$found" = "$2" ] || fail "$1: the page shows $found faults of $2"
}

check_page doubled 999999
check_page texts 1000000
runs_line
printf '%-10s %-22s %8s %10s %6s   %6s\n' faults page seconds processor MB ratio
for file in doubled texts; do
  ours=(validate --base http://example.org/ "$work/$file.json" "$work/$file.csv")
  for _ in $(seq "$runs"); do
    measure_page "$file.csv" "${ours[@]}"
    measure_page "$file.text" "${ours[@]}" --report text
    measure_page "$file.all" "${ours[@]}" --report text --all
    measure_page "$file.html" "${ours[@]}" --report html
  done
  read -r run _ _ <<<"$(summary "$file.csv")"
  for page in csv text all html; do
    read -r seconds processor peak <<<"$(summary "$file.$page")"
    printf '%-10s %-22s %8s %10s %6s   %6s\n' "$file" "$page" "$seconds" "$processor" "$peak" "$(ratio "$seconds" "$run")"
  done
done
echo 'csv: the report without a page; all: --report text --all. bar: 3.00 times csv'
