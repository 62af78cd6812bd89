#!/usr/bin/env bash
# Measures the reader and the writer of N-Triples beside serdi and rapper, on a document of about 100 MB.
# Usage: bench/ntriples.sh [RUNS]: the least of so many runs of each counts, of 3 if no number is given.
source "$(dirname "${BASH_SOURCE[0]}")/lib.sh"
begin "${1:-3}"
document=$work/triples.nt

build_crate bench_ntriples count
make_file "$document" triples.py "$document"

# The triples in our spelling, of the document and of what serdi writes of it.
"$program" write 1 <"$document" >"$work/ours.nt"
serdi -i ntriples -o ntriples "$document" | "$program" write 1 | cmp - "$work/ours.nt" || fail 'a run failed, or serdi reads other triples'
"$program" copy <"$document" | cmp - "$work/ours.nt" || fail 'one triple after the other is written otherwise'

# How many triples the document has, by our two readers, by serdi and by rapper.
count=$("$program" count <"$document")
[ "$count" = "$("$program" each <"$document")" ] || fail 'one triple after the other is another count'
for other in "$(serdi -i ntriples -o ntriples "$document" | wc -l)" \
  "$(rapper -q -i ntriples -o ntriples "$document" http://example.org/ | wc -l)"; do
  [ "$count" = "$other triples" ] || fail "$count, and $other by another reader"
done

# The writer alone: the first lines, read once and written so often that it comes to the size of the document.
head -n 1000 "$document" >"$work/head.nt"
rounds=$(($(wc -c <"$document") / $("$program" write 1 <"$work/head.nt" | wc -c)))
for _ in $(seq "$rounds"); do cat "$work/head.nt"; done | "$program" write 1 |
  cmp - <("$program" write "$rounds" <"$work/head.nt") || fail 'the writer alone writes something else than the lines so often'

# The reader of serd alone, if its library is installed.
serd=
if pkg-config --exists serd-0; then
  serd=$work/serd_count
  # shellcheck disable=SC2046
  cc -O2 -o "$serd" "$bench/serd_count.c" $(pkg-config --cflags --libs serd-0)
  [ "$count" = "$("$serd" <"$document")" ] || fail 'the library of serd counts other triples'
else
  echo 'SKIPPED: the reader of serd alone, since libserd-dev is not installed' >&2
fi

for _ in $(seq "$runs"); do
  measure read "$program" count <"$document"
  [ -z "$serd" ] || measure read_serd "$serd" <"$document"
  measure each "$program" each <"$document"
  measure read_rapper rapper -q -i ntriples -c - http://example.org/ <"$document"
  measure write "$program" write "$rounds" <"$work/head.nt"
  measure both "$program" write 1 <"$document"
  measure copy "$program" copy <"$document"
  measure both_serdi serdi -i ntriples -o ntriples - <"$document"
  measure both_rapper rapper -q -i ntriples -o ntriples - http://example.org/ <"$document"
done

# row WHAT PROGRAM NAME: a line of the table: the least seconds, megabytes a second, and the greatest peak.
row() {
  local seconds peak
  read -r seconds _ peak <<<"$(summary "$3")"
  awk -v what="$1" -v program="$2" -v size="$size" -v s="$seconds" -v m="$peak" \
    'BEGIN { printf "%-16s %-8s %8.2f %8.0f %9.0f\n", what, program, s, size / s, m }'
}
size=$(awk -v b="$(wc -c <"$document")" 'BEGIN { print b / 1000000 }')
echo "$count, $size MB; $(runs_line)"
printf '%-16s %-8s %8s %8s %9s\n' what program seconds MB/s 'peak MB'
row read ours read
row 'read each' ours each
[ -z "$serd" ] || row read serd read_serd
row read rapper read_rapper
row write ours write
row 'read and write' ours both
row 'copy each' ours copy
row 'read and write' serdi both_serdi
row 'read and write' rapper both_rapper
