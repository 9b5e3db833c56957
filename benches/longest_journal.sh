#!/usr/bin/env bash
# Times `replay` over legal journals of 62,500, 125,000 and 250,000 entries, the most that a journal has, and prints the
# best of three runs in seconds and what the program says. Two sorts: *ticks* has a tick in each round and nothing
# planned; *goals* serves a goal in every other round, up to 10,000 activities, and sends its command.
# Say where the program is, or leave it to crates/lundocsef/out/lundocsef. `longest_journal.sh --print SORT ENTRIES` prints a journal.
set -u
here=$(cd "$(dirname "$0")" && pwd)

# A round is a message, a repair for a goal, a rest, the commands that are due, a commit and a close. The last round
# is filled up with commits that are refused, and the input ends behind it.
journal() {
  awk -v sort="$1" -v most="$2" '
  function say(what) { print count++ " " what }
  function rest_of_round() {
    say("rest clear")
    while (sent < placed && start[sent + 1] <= now) { sent++; say("dispatch " sent " obs " start[sent]) }
    if (now + 30 > committed) { committed = now + 30; say("commit " committed " : ok") }
  }
  function serve_goal(   earliest, latest) {
    placed++; earliest = now + 40; latest = earliest + 5; start[placed] = earliest
    say("in ok : goal " placed " obs " earliest " " latest " must")
    say("fix " latest " open-goal " placed " 0 " earliest " " latest " by add obs " earliest " goal " placed " : ok")
    rest_of_round()
  }
  function tick(step) { now += step; say("in ok : tick " now); rest_of_round() }
  BEGIN {
    print "horizon 1000000 lead 30\nkind obs { duration 5 }\nbegin"
    print "0 open turns 8 live 10000 goals 20000 entries 250000"
    count = 1; goals = sort == "goals" ? int(most / 25) : 0
    while (count < most - 20) {
      if (placed < goals) { serve_goal(); say("close"); tick(10); say("close") }
      else { tick(1); say("close") }
    }
    tick(1)
    while (count < most - 2) say("commit 0 : behind")
    say("close")
    say("in end : end")
  }'
}

if [ "${1:-}" = --print ]; then journal "$2" "$3"; exit; fi

program=${1:-$here/../crates/lundocsef/out/lundocsef}
text=$(mktemp); trap 'rm -f "$text"' EXIT

seconds() {
  best=
  for _ in 1 2 3; do
    begun=$(date +%s%N); said=$("$program" replay < "$text"); over=$(date +%s%N)
    taken=$((over - begun))
    if [ -z "$best" ] || [ "$taken" -lt "$best" ]; then best=$taken; fi
  done
  printf '%-6s %6d entries  %9d bytes  %d.%03d s  %s\n' "$1" "$2" "$(wc -c < "$text")" $((best / 1000000000)) $((best / 1000000 % 1000)) "$said"
}

for sort in ticks goals; do
  for entries in 62500 125000 250000; do
    journal $sort $entries > "$text"
    seconds $sort $entries
  done
done
