#!/usr/bin/env bash
# Converts a group in parts by GNU parallel. The graph and the report are those of one run of `csvw convert`.
#
# usage: scale/parallel.sh PARTS GRAPH REPORT WORDS..
#
# WORDS are those of `csvw convert`: `--base URL [--minimal] [--profile P] META FILE..`. The graph goes to the file GRAPH,
# and the report to the file REPORT. The exit status is that of the whole run: 0 without errors, 1 with errors, else that
# of the first part that stopped, whose line is shown.
#
# CSVW is the program (else crates/csvw/out/csvw), and JOBS the number of parts that run at once (else one for each
# processor). HOSTS are the hosts for parallel's option -S. They need the program, these scripts, the files and the folder
# WORK (else /tmp), in which the parts are written, at the same paths: on a shared file system.
set -euo pipefail
top=$(cd "${BASH_SOURCE[0]%/*}/.." && pwd)
export CSVW=${CSVW:-$top/crates/csvw/out/csvw}
[[ $# -ge 5 ]] || { sed -n '3,/^set/p' "$0" | sed '$d; s/^# \{0,1\}//' >&2; exit 2; }
parts=$1 graph=$2 report=$3
shift 3

work=$(mktemp -d -p "${WORK:-/tmp}")
trap 'rm -rf "$work"' EXIT

# split has no word --minimal
words=()
for word in "$@"; do [[ $word == --minimal ]] || words+=("$word"); done
"$CSVW" split --parts "$parts" "${words[@]}" > "$work/plan.csv"
count=$(tail -n 1 "$work/plan.csv" | cut -d , -f 1)

# A part that stops is run twice more, as one whose host was lost.
options=(--jobs "${JOBS:-$(nproc)}" --retries 3 --workdir "$PWD")
[[ -z ${HOSTS-} ]] || options+=(-S "$HOSTS" --env CSVW)
seq "$count" | SHELL=$(command -v bash) parallel "${options[@]}" "$top/scale/part.sh" "$work" {} "${@@Q}" || true
"$top/scale/join.sh" "$work" "$graph" "$report" "$@"
