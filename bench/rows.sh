#!/usr/bin/env bash
# Measures the reader of rows alone, beside the crate csv and a state machine written by hand, as tables in Markdown.
# Usage: bench/rows.sh [RUNS]: the least processor seconds of so many runs of each, of 3 if no number is given.
source "$(dirname "${BASH_SOURCE[0]}")/lib.sh"
begin "${1:-3}" rows
piece=65536

build_crate bench_rows csv
build_by_hand
make_file "$work/arrows.csv" rows_files.py "$work"

# check FILE COUNTS PROGRAM WORD..: ends the script if a reader has other counts of the file.
check() {
  local file=$1 expected=$2 found
  shift 2
  found=$("$@" <"$file") || fail "$file: $* stopped"
  [ "$found" = "$expected" ] || fail "$file: $* counts $found, not $expected"
}

# cell NAME FILE: a cell of a reader: megabytes in a second of the least processor time, and the greatest resident
# memory in megabytes of 2^20 bytes. It drops the figures of the name.
cell() {
  awk -v size="$(stat -c %s "$2")" '
    NR == 1 || $2 + $3 < least { least = $2 + $3 }
    $4 > most { most = $4 }
    END { printf "%.0f (%.0f MB)", size / 1e6 / (least > 0 ? least : 0.01), most / 1024 }' "$work/$1.times"
  rm "$work/$1.times"
}

# row NAME DELIMITER: the cells of a file. The crate csv takes only a delimiter of one byte. The readers run in turn,
# since the speed of a computer may change.
row() {
  local name=$1 delimiter=$2
  local file=$work/$name.csv counts kit=none
  counts=$("$by_hand" rows "$delimiter" "$file")
  check "$file" "$counts" "$program" rows "$piece" "$delimiter"
  if [ "$delimiter" = , ]; then
    check "$file" "$counts" "$program" csv
  fi
  for _ in $(seq "$runs"); do
    measure rows "$program" rows "$piece" "$delimiter" <"$file"
    if [ "$delimiter" = , ]; then
      measure kit "$program" csv <"$file"
    fi
    measure by_hand "$by_hand" rows "$delimiter" "$file"
  done
  if [ "$delimiter" = , ]; then
    kit=$(cell kit "$file")
  fi
  printf '| %s | %.0f MB | %s | %s | %s |\n' "$name" "$(($(stat -c %s "$file") / 1000000))" \
    "$(cell rows "$file")" "$kit" "$(cell by_hand "$file")"
}

# pieces SIZE: the cells of two files in pieces of so many bytes.
pieces() {
  local size=$1
  check "$work/long.csv" "$("$by_hand" rows , "$work/long.csv")" "$program" rows "$size" ,
  check "$work/arrows.csv" "$("$by_hand" rows → "$work/arrows.csv")" "$program" rows "$size" →
  for _ in $(seq "$runs"); do
    measure long "$program" rows "$size" , <"$work/long.csv"
    measure arrows "$program" rows "$size" → <"$work/arrows.csv"
  done
  printf '| %s | %s | %s |\n' "$size" "$(cell long "$work/long.csv")" "$(cell arrows "$work/arrows.csv")"
}

echo '| File | Size | `Rows` | crate `csv` | by hand |'
echo '|---|---|---|---|---|'
for name in long wide quoted escaped nonascii; do
  row "$name" ,
done
row arrows →
echo
echo '| Bytes of a piece | `Rows`, long | `Rows`, arrows |'
echo '|---|---|---|'
for size in 65536 7 1; do
  pieces "$size"
done
