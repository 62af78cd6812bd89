#!/usr/bin/env bash
# Joins the parts of a plan that scale/part.sh ran: one graph, and one report with the faults of the keys.
#
# usage: scale/join.sh WORK GRAPH REPORT WORDS..
#
# WORK is the folder of the run. WORDS are those of `csvw convert`. The exit status is that of the whole run: 0 without
# errors, 1 with errors, else that of the first part that stopped, whose line is shown. CSVW is the program (else
# crates/csvw/out/csvw).
set -euo pipefail
top=$(cd "${BASH_SOURCE[0]%/*}/.." && pwd)
csvw=${CSVW:-$top/crates/csvw/out/csvw}
work=$1 graph=$2 report=$3
shift 3
count=$(tail -n 1 "$work/plan.csv" | cut -d , -f 1)

for part in $(seq "$count"); do
  if [[ ! -s $work/status.$part ]]; then
    echo "part $part of $count did not end" >&2
    exit 4
  fi
  ended=$(cat "$work/status.$part")
  if [[ $ended -gt 1 ]]; then
    echo "part $part of $count stopped:" >&2
    cat "$work/report.$part" >&2
    exit "$ended"
  fi
done

# `keys` has the options with their values, and the document, which is the first word that is none of them
words=()
while [[ $# -gt 0 ]]; do
  case $1 in
    --minimal) shift ;;
    --base | --profile) words+=("$1" "$2"); shift 2 ;;
    --*=*) words+=("$1"); shift ;;
    *) words+=("$1"); break ;;
  esac
done

parts() { seq -f "$work/$1.%.0f" "$count"; }
mapfile -t keys < <(parts keys)
mapfile -t reports < <(parts report)
mapfile -t graphs < <(parts graph)
status=0
LC_ALL=C sort -T "$work" "${keys[@]}" | "$csvw" keys "${words[@]}" > "$work/keys.csv" || status=$?
[[ $status -le 1 ]] || exit "$status"
status=0
"$csvw" report "${reports[@]}" "$work/keys.csv" > "$report" || status=$?
[[ $status -le 1 ]] || exit "$status"
cat "${graphs[@]}" > "$graph"
exit "$status"
