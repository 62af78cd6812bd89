#!/usr/bin/env bash
# Converts a group in parts by Slurm: an array job with a task for each part, and a job that waits for it and joins them.
# The graph and the report are those of one run of `csvw convert`.
#
# usage: scale/slurm.sh PARTS GRAPH REPORT WORDS..
#
# WORDS are those of `csvw convert`: `--base URL [--minimal] [--profile P] META FILE..`. The graph goes to the file GRAPH,
# and the report to the file REPORT. It waits until both are there. The exit status is that of the whole run: 0 without
# errors, 1 with errors, else that of the first part that stopped, whose line is shown.
#
# CSVW is the program (else crates/csvw/out/csvw). SBATCH_OPTIONS are more options of sbatch, as a partition or a limit of
# memory. The nodes need the program, these scripts, the files and the folder WORK (else the current folder), in which the
# parts are written, at the same paths: on a shared file system.
set -euo pipefail
top=$(cd "${BASH_SOURCE[0]%/*}/.." && pwd)
export CSVW=${CSVW:-$top/crates/csvw/out/csvw}
[[ $# -ge 5 ]] || { sed -n '3,/^set/p' "$0" | sed '$d; s/^# \{0,1\}//' >&2; exit 2; }
parts=$1 graph=$2 report=$3
shift 3

work=$(mktemp -d -p "${WORK:-$PWD}")
trap 'rm -rf "$work"' EXIT

# split has no word --minimal
words=()
for word in "$@"; do [[ $word == --minimal ]] || words+=("$word"); done
"$CSVW" split --parts "$parts" "${words[@]}" > "$work/plan.csv"
count=$(tail -n 1 "$work/plan.csv" | cut -d , -f 1)

read -ra options <<< "${SBATCH_OPTIONS-}"
# A part that stops is run twice more. A task whose node is lost is queued again by Slurm.
part="for run in 1 2 3; do ${top@Q}/scale/part.sh ${work@Q} \$SLURM_ARRAY_TASK_ID ${*@Q} && break; done"
array=$(sbatch --parsable --requeue --array "1-$count" --output "$work/task.%a" "${options[@]}" --wrap "$part")
join="${top@Q}/scale/join.sh ${work@Q} ${graph@Q} ${report@Q} ${*@Q}"
status=0
sbatch --wait --dependency "afterany:${array%%;*}" --output "$work/join" "${options[@]}" --wrap "$join" > "$work/sbatch" || status=$?
[[ ! -s $work/join ]] || cat "$work/join" >&2
exit "$status"
