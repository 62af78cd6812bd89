#!/usr/bin/env bash
# Measures the reader of rows on hostile rows of 1 MB beside rows of letters, as a table in Markdown. It fails if one takes
# more than 5 times as long as letters. Usage: bench/hostile.sh [RUNS]: the least of so many runs, of 3 if none is given.
source "$(dirname "${BASH_SOURCE[0]}")/lib.sh"
begin "${1:-3}" hostile
names="letters crs marks umlauts endings quoted_letters quoted_crs quoted_quotes quoted_marks quoted_umlauts quoted_endings"

build_crate bench_rows csv
python3 "$bench/hostile_files.py" "$work"

# least FILE SIZE: the least processor seconds of the runs over a file, in pieces of so many bytes.
least() {
  python3 "$bench/least.py" "$runs" "$1" "$program" rows "$2" ,
}

slow=0
echo '| Rows of | Seconds of 60 MB in pieces of 65,536 bytes | To letters | Seconds of 6 MB in pieces of 1 byte | To letters |'
echo '|---|---|---|---|---|'
whole_letters=$(least "$work/letters_60.csv" 65536)
byte_letters=$(least "$work/letters_6.csv" 1)
for name in $names; do
  whole=$(least "$work/${name}_60.csv" 65536)
  byte=$(least "$work/${name}_6.csv" 1)
  line=$(awk -v n="$name" -v a="$whole" -v b="$whole_letters" -v c="$byte" -v d="$byte_letters" '
    BEGIN { printf "| %s | %.3f | %.1f | %.2f | %.1f |", n, a, a / b, c, c / d; exit (a > 5 * b || c > 5 * d) }') || slow=1
  echo "$line"
done
[ "$slow" = 0 ] || fail 'some rows take more than 5 times as long as letters'
