#!/usr/bin/env bash
# Measures planners side by side on one plan: `run pair 8 SEED`, and `run crew 8 P SEED` with 2, 4 and 8 planners, over each
# input, with the seeds 1 to SEEDS (8). For each it prints the medians over the seeds.
#
#   CPUS=0,1 SEEDS=8 teams.sh [PROGRAM [INPUT..]]
#
# CPUS names the processors that a run may use; without it a run may use all. Say where the program is, or leave it to
# crates/lundocsef/out/lundocsef; the inputs are models with messages, and without any the three missions of examples/.
#
#   ms         milliseconds of a run, with the least and the most
#   rounds     rounds a second
#   repairs    repairs a second that were answered `ok`
#   logged     repairs in the journal, and how many of these came behind another planner's (`stale`) or a commit (`not-for`)
#   served     goals that have an activity at the end, as `report` tells, of those that were accepted
set -u
here=$(cd "$(dirname "$0")" && pwd)
program=${1:-$here/../crates/lundocsef/out/lundocsef}
[ $# -gt 0 ] && shift
[ $# -gt 0 ] || set -- "$here"/../examples/missions/{cubesat/cubesat,imager/imager,rover/rover}.txt
seeds=${SEEDS:-8}
on=(); [ -n "${CPUS:-}" ] && on=(taskset -c "$CPUS")
made=$(mktemp -d); trap 'rm -rf "$made"' EXIT
bad=0

# The median of a column of the numbers that were measured.
median() {
  sort -n -k"$1,$1" "$made/rows" | awk -v column="$1" '{ all[NR] = $column }
    END { printf "%.0f", NR % 2 ? all[(NR + 1) / 2] : (all[NR / 2] + all[NR / 2 + 1]) / 2 }'
}

# One run: milliseconds, rounds and repairs a second, repairs logged, stale ones, those for which it was too late, goals served, goals.
measured() {
  local input=$1 start stop; shift
  start=$(date +%s%N)
  "${on[@]}" "$program" "$@" < "$input" > "$made/journal" || { bad=1; echo "$*: status $?"; }
  stop=$(date +%s%N)
  { sed -E '/^[[:space:]]*begin[[:space:]]*(#.*)?$/q' "$input"; cat "$made/journal"; } | "$program" report > "$made/report"
  awk -v ns=$((stop - start)) 'FILENAME == ARGV[1] { if (/^goal /) { goals++; if (/ served/) served++ } next }
    / close$/ { rounds++ }
    $2 == "fix" { fixes++; if (/ : ok$/) ok++; if (/ : stale$/) stale++; if (/ : not-for$/) late++ }
    END { s = ns / 1e9; print ns / 1e6, rounds / s, ok / s, fixes + 0, stale + 0, late + 0, served + 0, goals + 0 }' "$made/report" "$made/journal"
}

for input in "$@"; do
  echo "$(basename "$input")${CPUS:+ on processors $CPUS}"
  for words in 'run pair 8' 'run crew 8 2' 'run crew 8 4' 'run crew 8 8'; do
    for seed in $(seq 1 "$seeds"); do measured "$input" $words "$seed"; done > "$made/rows"
    printf '  %-12s ms %s (%.0f to %.0f) rounds %s repairs %s logged %s stale %s not-for %s served %s of %s\n' "$words" "$(median 1)" \
      "$(sort -n "$made/rows" | head -1 | cut -d' ' -f1)" "$(sort -n "$made/rows" | tail -1 | cut -d' ' -f1)" \
      "$(median 2)" "$(median 3)" "$(median 4)" "$(median 5)" "$(median 6)" "$(median 7)" "$(median 8)"
  done
done
exit $bad
