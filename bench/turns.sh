#!/usr/bin/env bash
# Measures `csvw convert --minimal` of 8 tables of 10 MB one after the other and in turn, and the memory of 64 tables open at once.
# Usage: bench/turns.sh [RUNS]: the least of so many runs of each counts, of 3 if no number is given.
source "$(dirname "${BASH_SOURCE[0]}")/lib.sh"
begin "${1:-3}" turns

build_csvw

# document COUNT: writes a document of so many tables. table BYTES FILE: writes a table of about so many bytes.
document() {
  python3 -c 'import sys
tables = ",".join("{\"url\":\"%d.csv\"}" % n for n in range(int(sys.argv[1])))
print("{\"@context\":\"http://www.w3.org/ns/csvw\",\"tables\":[%s]}" % tables)' "$1" >"$work/$1.json"
}
table() {
  python3 -c 'import sys
print("id,name,place")
for n in range(int(sys.argv[1]) // 27): print("%d,Name %d,Place %d" % (n, n, n % 100))' "$1" >"$2"
}
document 8
document 64
table 10000000 "$work/large.csv"
table 200000 "$work/small.csv"

# convert NAME WORD..: measures the runs with such words.
convert() {
  for _ in $(seq "$runs"); do
    measure "$1" "$csvw" convert --minimal --base http://example.org/ "${@:2}"
  done
}
many() {
  for _ in $(seq "$1"); do printf '%s\n' "$2"; done
}

mapfile -t large < <(many 8 "$work/large.csv")
mapfile -t small < <(many 64 "$work/small.csv")
convert one_by_one "$work/8.json" "${large[@]}"
convert in_turn --turns "$work/8.json" "${large[@]}"
convert open --turns "$work/64.json" "${small[@]}"
read -r _ seconds peak <<<"$(summary one_by_one)"
read -r _ turns turns_peak <<<"$(summary in_turn)"
read -r _ _ open_peak <<<"$(summary open)"
runs_line
echo "8 tables, one after the other: $seconds processor seconds, $peak MB"
echo "8 tables, in turn:             $turns processor seconds, $turns_peak MB"
echo "ratio $(ratio "$turns" "$seconds") (bar 1.10)"
echo "64 tables open at once:        $open_peak MB (bar 16)"
