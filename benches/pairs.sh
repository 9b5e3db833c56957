#!/usr/bin/env bash
# Runs `run pair` over and over, and reads each journal back by `replay`. Each run has a time limit, so a run that hangs is
# seen. First a small mission a thousand times, each with a seed of its own; then each `*.in` of a folder, a hundred at most,
# with three seeds each.
# Say where the program is, or leave it to crates/lundocsef/out/lundocsef; then the folder, if there is one.
set -u
here=$(cd "$(dirname "$0")" && pwd)
program=${1:-$here/../crates/lundocsef/out/lundocsef}
folder=${2:-}
runs=${RUNS:-1000}
made=$(mktemp -d); trap 'rm -rf "$made"' EXIT

good=0 bad=0 late=0
declare -A statuses

# The lines of an input up to its `begin` line, and behind them the journal.
judged() {
  { sed -E '/^[[:space:]]*begin[[:space:]]*(#.*)?$/q' "$1"; cat "$made/journal"; } > "$made/whole"
  "$program" replay < "$made/whole" > "$made/verdict"
}

pair() {
  timeout 60 "$program" run pair "$1" "$2" < "$3" > "$made/journal"
  status=$?
  statuses[$status]=$((${statuses[$status]:-0} + 1))
  if [ $status = 124 ]; then late=$((late + 1)); echo "late: $3, seed $2"; return; fi
  if [ $status = 3 ]; then good=$((good + 1)); return; fi
  if judged "$3"; then good=$((good + 1)); else bad=$((bad + 1)); echo "refused: $3, seed $2: $(cat "$made/verdict")"; fi
}

printf '%s\n' 'horizon 100' 'lead 30' 'kind obs { duration 5 }' begin 'goal 1 obs 10 20 must' 'tick 10' end > "$made/small"
for seed in $(seq 1 "$runs"); do pair 8 "$seed" "$made/small"; done
echo "small runs: $good accepted, $bad refused, $late late"

if [ -n "$folder" ]; then
  good=0 bad=0 late=0
  for input in $(ls "$folder"/*.in | head -100); do
    for seed in 1 7 42; do pair 8 "$seed" "$input"; done
  done
  echo "inputs of $folder: $good accepted, $bad refused, $late late"
fi
for status in "${!statuses[@]}"; do echo "status $status: ${statuses[$status]} runs"; done
[ $bad = 0 ] && [ $late = 0 ]
