#!/usr/bin/env bash
# Times `check` over model texts of about 250 KB, 500 KB and 1 MB, each twice as long as the one before, and prints the
# best of three runs in seconds. Say where the program is, or leave it to crates/lundocsef/out/lundocsef.
set -u
here=$(cd "$(dirname "$0")" && pwd)
program=${1:-$here/../crates/lundocsef/out/lundocsef}
text=$(mktemp); trap 'rm -f "$text"' EXIT

# 8 parameters that are set and 8 that follow from them, 32 reservations, 16 links in each of so many kinds, and comments up to 4,080 bytes a kind
filled() {
  awk -v kinds="$1" 'BEGIN {
    print "horizon 1000000 lead 30\ncapacity cam 10"
    for (k = 0; k < kinds; k++) {
      kind = "kind k" k " {\n"
      for (p = 0; p < 8; p++) kind = kind "param p" p " 1 16 default 4\n"
      for (p = 8; p < 16; p++) kind = kind "param p" p " 1 99 = p" p - 8 " * 2 + min ( p" p - 8 " , 7 ) - 3\n"
      kind = kind "duration p0 * 2 + p1\n"
      for (r = 0; r < 32; r++) kind = kind "use cam p" r % 16 " + p" (r + 1) % 16 " * 2 + max ( p" (r + 2) % 16 " , 3 ) * 4 - p" (r + 3) % 16 " + 17 + p" (r + 4) % 16 " + p" (r + 5) % 16 " + 1\n"
      for (l = 0; l < 16; l++) kind = kind "link start k" (k + l) % kinds " end -60 0\n"
      while (length(kind) < 3980) kind = kind "# a comment that fills the text of this kind ........................ \n"
      print kind "}"
    }
    print "begin"
  }'
}

# 8 alternatives of 16 slots in each of so many kinds, each slot of a later kind: as many edges as kinds can have
contained() {
  awk -v kinds="$1" 'BEGIN {
    print "horizon 1000000 lead 30"
    for (k = 0; k < kinds; k++) {
      print "kind k" k " { duration 5"
      for (a = 0; a < 8 && k + 1 < kinds; a++) {
        printf "alternative {"
        for (s = 0; s < 16; s++) printf " slot s%d k%d%s", s, k + 1 + (a * 16 + s) % (kinds - k - 1), s % 4 == 3 ? "\n" : ""
        print " }"
      }
      print "}"
    }
    print "begin"
  }'
}

# a head, a piece that comes over and over up to so many bytes, and a tail
repeated() {
  awk -v size="$1" -v head="$2" -v piece="$3" -v tail="$4" 'BEGIN {
    print head
    for (n = length(head); n + length(piece) + length(tail) + 9 < size; n += length(piece) + 1) print piece
    print tail "\nbegin"
  }'
}

small='kind shot { param n 1 9 param k 0 3 default 2 duration 4 use cam 6-n-1 raise bat min(n,3) at start set mode on at start link start shot end -3 - 0 }'
states='horizon 100 lead 30 state s {'

seconds() {
  best=
  for _ in 1 2 3; do
    start=$(date +%s%N); said=$("$program" check < "$text"); stop=$(date +%s%N)
    taken=$((stop - start))
    if [ -z "$best" ] || [ "$taken" -lt "$best" ]; then best=$taken; fi
  done
  printf '%-10s %9d bytes  %d.%03d s  %s\n' "$1" "$(wc -c < "$text")" $((best / 1000000000)) $((best / 1000000 % 1000)) "$said"
}

for kinds in 64 128 256; do filled $kinds > "$text"; seconds filled; done
for kinds in 64 128 256; do contained $kinds > "$text"; seconds contained; done
for size in 262144 524288 1048576; do repeated $size 'horizon 100 lead 30' "$small" '' > "$text"; seconds kinds; done
for size in 262144 524288 1048576; do repeated $size "$states" a '} start a any' > "$text"; seconds states; done
for size in 262144 524288 1048576; do repeated $size "$states" horizo '} start a any' > "$text"; seconds 'long names'; done
for size in 262144 524288 1048576; do repeated $size "$states a } start a" 'step a a' '' > "$text"; seconds steps; done
