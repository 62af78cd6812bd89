#!/usr/bin/env bash
# Runs one part of a plan. parallel.sh, slurm.sh and dask_csvw.py call it, once for each part.
#
# usage: scale/part.sh WORK PART WORDS..
#
# WORK is the folder of the run, which has plan.csv. WORDS are those of `csvw convert`. In WORK it writes graph.PART,
# report.PART, keys.PART and then status.PART. It succeeds if the part came to its end. CSVW is the program (else
# crates/csvw/out/csvw).
set -uo pipefail
top=$(cd "${BASH_SOURCE[0]%/*}/.." && pwd)
csvw=${CSVW:-$top/crates/csvw/out/csvw}
work=$1 part=$2
shift 2

status=0
"$csvw" convert --part "$part" --plan "$work/plan.csv" --keys "$work/keys.$part" "$@" \
  > "$work/graph.$part" 2> "$work/report.$part" || status=$?
echo "$status" > "$work/status.$part"
[[ $status -le 1 ]]
