# What the scripts of bench/ share: building, measuring, and the summary of several runs. A script begins with
#   source "$(dirname "${BASH_SOURCE[0]}")/lib.sh"
#   begin "${1:-3}"
# and then has the folder `bench`, the folder `work` for what it makes, and the number `runs`.
# If CSVW is set, it is the program csvw that is measured, and nothing is built for it.
set -euo pipefail
bench=$(cd "$(dirname "${BASH_SOURCE[0]}")" && pwd)

# begin RUNS [FOLDER]: each program runs RUNS times. What is made goes to bench/out, or to this folder of it.
begin() {
  runs=$1
  work=$bench/out${2:+/$2}
  mkdir -p "$work"
  rm -f "$work"/*.times
}

# fail WORD..: writes the words to standard error, and ends the script.
fail() {
  echo "$(basename "$0"): $*" >&2
  exit 1
}

# Builds csvw, if it isn't built, and sets `csvw` to its path.
build_csvw() {
  csvw=${CSVW:-$bench/../crates/csvw/out/csvw}
  [ -n "${CSVW:-}" ] || "$bench/../csvw" --help >/dev/null
}

# Builds the program of by_hand/, and sets `by_hand` to its path.
build_by_hand() {
  by_hand=$bench/out/by_hand
  rustc --edition 2024 -O -o "$by_hand" "$bench/by_hand/main.rs"
}

# build_crate NAME WORD..: builds the program of a crate by running it once with these words, and sets `program` to its path.
build_crate() {
  program=$bench/../crates/$1/out/$1
  (cd "$bench/../crates/$1" && rt run -- "${@:2}" </dev/null >/dev/null)
}

# make_file FILE SCRIPT WORD..: runs a script of bench/ with these words, unless the file that it writes is there and newer than the script.
make_file() {
  if [ ! -s "$1" ] || [ "$bench/$2" -nt "$1" ]; then
    python3 "$bench/$2" "${@:3}"
  fi
}

# measure NAME PROGRAM WORD..: runs a program, and adds its seconds, its two kinds of processor seconds and its peak in KiB to the figures of a name.
measure() {
  /usr/bin/time -a -o "$work/$1.times" -f '%e %U %S %M' "${@:2}" >/dev/null 2>&1
}

# summary NAME [PLACES]: prints the least seconds and the least processor seconds, with so many places or 2, and the greatest peak in MB.
summary() {
  awk -v form="%.${2:-2}f %.${2:-2}f %.0f" '
    NF == 4 { if (n++ == 0 || $1 < s) s = $1; if (n == 1 || $2 + $3 < p) p = $2 + $3; if ($4 > m) m = $4 }
    END { printf form, s, p, m * 1.024 / 1000 }' "$work/$1.times"
}

# ratio A B: prints A / B with two places.
ratio() {
  awk -v a="$1" -v b="$2" 'BEGIN { printf "%.2f", a / b }'
}

# Prints how many runs were made, and the load of the computer.
runs_line() {
  echo "least of $runs runs; $(uptime | sed 's/.*load/load/')"
}
