#!/usr/bin/env bash
# Want of memory, one allocation at a time: in the first run the first allocation fails, in the second the second, and so on, up
# to the first run that ends without having asked for so many. Then the same, but each later allocation fails too. It does this
# under each form of the program. Each run has to end by itself. With status 9 it has written the front of what it would have
# written; with status 0, as where it did without the memory, all of it. Of `run pair`, whose journal no second run need make
# again, `replay` has to accept the lines that were written whole.
# A C compiler is wanted, for the few lines that stand in front of the allocator.
# Say where the program is, or leave it to crates/lundocsef/out/lundocsef; then the forms that are to be tried, or leave it to all.
set -u
here=$(cd "$(dirname "$0")" && pwd)
program=${1:-$here/../crates/lundocsef/out/lundocsef}
[ $# -gt 1 ] && forms=("${@:2}") || forms=('run solo 8' 'run pair 8 7' check replay report 'demo 2')
made=$(mktemp -d); trap 'rm -rf "$made"' EXIT

# FIRST and LAST are the numbers of the allocations that fail. Each of them leaves a byte in the file 9.
cc -shared -fPIC -O1 -o "$made/failing.so" -x c - << 'END' || exit 2
#include <errno.h>
#include <stdatomic.h>
#include <stdlib.h>
#include <unistd.h>
extern void *__libc_malloc(size_t), *__libc_calloc(size_t, size_t), *__libc_realloc(void *, size_t), *__libc_memalign(size_t, size_t);
static atomic_long asked;
static int fails(void) {
    const char *first = getenv("FIRST"), *last = getenv("LAST");
    long number = atomic_fetch_add(&asked, 1) + 1;
    if (!first || !last || number < atol(first) || atol(last) < number || write(9, "x", 1) != 1) return 0;
    errno = ENOMEM;
    return 1;
}
void *malloc(size_t size) { return fails() ? NULL : __libc_malloc(size); }
void *calloc(size_t count, size_t size) { return fails() ? NULL : __libc_calloc(count, size); }
void *realloc(void *old, size_t size) { return fails() ? NULL : __libc_realloc(old, size); }
void *memalign(size_t to, size_t size) { return fails() ? NULL : __libc_memalign(to, size); }
void *aligned_alloc(size_t to, size_t size) { return memalign(to, size); }
int posix_memalign(void **out, size_t to, size_t size) { return (*out = memalign(to, size)) ? 0 : 12; }
END

printf '%s\n' 'horizon 100' 'lead 30' 'kind obs { duration 5 }' 'kind pic { param n 1 3 duration n use cam n }' 'capacity cam 9' begin > "$made/model"
{ cat "$made/model"; printf '%s\n' 'goal 1 obs 10 20 must' 'tick 10' 'goal 2 pic 40 50 must n=2' 'rubbish' 'tick 41' end; } > "$made/input"
{ cat "$made/model"; "$program" run solo 8 < "$made/input"; } > "$made/journal"

failed=0
wrong() { failed=$((failed + 1)); echo "WRONG: $*"; }

# Runs some words over a file, and looks at what came of it: the words, the file, the allocations that fail.
try() {
  : > "$made/marks"
  timeout 60 env FIRST="$3" LAST="$4" LD_PRELOAD="$made/failing.so" "$program" $1 < "$2" > "$made/out" 2> /dev/null 9> "$made/marks"
  status=$?
  counts[$status]=$((${counts[$status]:-0} + 1))
  [ $status = 9 ] || [ $status = 0 ] || wrong "$1, allocations $3 to $4: status $status"
  if [[ $1 = run\ pair* ]]; then
    whole=$(wc -l < "$made/out")
    { cat "$made/model"; head -n "$whole" "$made/out"; } > "$made/front"
    [ "$whole" = 0 ] || "$program" replay < "$made/front" > /dev/null || wrong "$1, allocations $3 to $4: no front of a legal journal"
  else
    head -c "$(wc -c < "$made/out")" "$made/whole" | cmp -s - "$made/out" || wrong "$1, allocations $3 to $4: no front of the output"
    [ $status = 9 ] || cmp -s "$made/whole" "$made/out" || wrong "$1, allocations $3 to $4: status 0 without the whole output"
  fi
  [ -s "$made/marks" ]
}

for words in "${forms[@]}"; do
  file=$made/input
  case $words in replay | report) file=$made/journal ;; esac
  "$program" $words < "$file" > "$made/whole"
  for last in one all; do
    declare -A counts=()
    number=1
    while try "$words" "$file" $number "$([ $last = one ] && echo $number || echo 1000000000)"; do number=$((number + 1)); done
    echo "$words, $last that $([ $last = one ] && echo fails || echo follow fail): $((number - 1)) allocations, status 9 in ${counts[9]:-0} runs, 0 in ${counts[0]:-0}"
  done
done
[ $failed = 0 ]
