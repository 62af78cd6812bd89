#!/usr/bin/env bash
# Measures `csvw validate` and `csvw convert` beside `csvw plain` and beside programs written by hand, on tables of a
# million rows.
# Usage: bench/convert.sh [RUNS]: the least of so many runs of each counts, of 3 if no number is given.
source "$(dirname "${BASH_SOURCE[0]}")/lib.sh"
begin "${1:-3}"
rows=$work/rows.csv
typed=$work/typed.csv
url=http://example.org/p.csv

build_csvw
build_by_hand
make_file "$rows" rows.py "$rows"
make_file "$typed" typed_rows.py "$typed"

# document NAME PROPERTIES COLUMNS: writes a document of columns as JSON objects, with other properties of its schema before them.
document() {
  printf '{"@context":"http://www.w3.org/ns/csvw","url":"p.csv","tableSchema":{%s"columns":[%s]}}\n' "$2" "$3" >"$work/$1.json"
}
document strings '' '{"name":"id"},{"name":"name"},{"name":"place"},{"name":"amount"},{"name":"note"}'
document links '"aboutUrl":"#{id}",' \
  '{"name":"id"},{"name":"name"},{"name":"place","valueUrl":"http://example.org/x/{place}"},{"name":"amount"},{"name":"note"}'
document datatypes '' \
  '{"name":"id","datatype":"integer"},{"name":"amount","datatype":"decimal"},{"name":"day","datatype":"date"},{"name":"open","datatype":"boolean"},{"name":"name"}'

plain=("$csvw" plain "$url" "$rows")
minimal=("$csvw" convert --minimal --base "$url" "$work/strings.json" "$rows")
validate=("$csvw" validate --base "$url" "$work/strings.json" "$rows")
standard=("$csvw" convert --base "$url" "$work/strings.json" "$rows")
links=("$csvw" convert --minimal --base "$url" "$work/links.json" "$rows")
datatypes=("$csvw" convert --minimal --base "$url" "$work/datatypes.json" "$typed")

# same JOB FILE PROGRAM WORD..: ends the script if a program and the job of by_hand over the file write different graphs.
same() {
  cmp <("${@:3}" 2>/dev/null) <("$by_hand" "$1" "$url" "$2") || fail "$1: a run failed, or the outputs differ"
}
same minimal "$rows" "${minimal[@]}"
same standard "$rows" "${standard[@]}"
same links "$rows" "${links[@]}"
same datatypes "$typed" "${datatypes[@]}"

for _ in $(seq "$runs"); do
  measure plain "${plain[@]}"
  measure minimal "${minimal[@]}"
  measure validate "${validate[@]}"
  measure standard "${standard[@]}"
  measure standard.by_hand "$by_hand" standard "$url" "$rows"
  measure links "${links[@]}"
  measure links.by_hand "$by_hand" links "$url" "$rows"
  measure datatypes "${datatypes[@]}"
  measure datatypes.by_hand "$by_hand" datatypes "$url" "$typed"
done

# line JOB NAME BESIDE OTHER BAR: a line of the table, from the figures of two names.
line() {
  local ours peak theirs
  read -r ours _ peak <<<"$(summary "$2")"
  read -r theirs _ <<<"$(summary "$4")"
  printf '%-24s %8s %8s   %-16s %8s %6s %6s\n' "$1" "$ours" "$peak" "$3" "$theirs" "$(ratio "$ours" "$theirs")" "$5"
}
runs_line
printf '%-24s %8s %8s   %-16s %8s %6s %6s\n' job seconds 'peak MB' beside seconds ratio bar
line 'convert --minimal' minimal plain plain 1.15
line 'validate' validate plain plain 0.80
line 'convert' standard 'by hand' standard.by_hand 0.85
line 'convert, links' links 'by hand' links.by_hand 1.00
line 'convert, datatypes' datatypes 'by hand' datatypes.by_hand 1.00
