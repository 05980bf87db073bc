#!/usr/bin/env bash
# Writes the largest loop, 16 variables and 64 rows, and three rankings for it. With f(x) = 30,000 (x1 - x2 + x3 - .. - x16),
# 32 rows say -f(x) <= 1,000,000 and 32 rows say f(x') - f(x) <= -1,000,000. Y gives weight to the first half of them, Z to
# the second: 60,000 each, then the same with 60,001 at the end of Z, then 1 each.
set -eu
times() { local i; for ((i = 0; i < $1; i++)); do printf '%b' "$2"; done; }

guard() { times 8 '\xd0\x8a\x30\x75'; times 16 '\x00\x00'; printf '\x40\x42\x0f\x00'; }
fall() { times 8 '\xd0\x8a\x30\x75'; times 8 '\x30\x75\xd0\x8a'; printf '\xc0\xbd\xf0\xff'; }

printf '\x06\x11\x00\x00' # L = 4,358
printf '\x01\x00'         # kind 1, loop
printf '\x10\x00\x40\x00' # n = 16, m = 64
for _ in {1..32}; do guard; done
for _ in {1..32}; do fall; done

ranking() { # WEIGHT LAST, two bytes each: the last weight is LAST
  printf '\x02\x01\x00\x00'                                # L = 258
  printf '\x02\x00'                                        # kind 2, ranking
  times 32 "$1"; times 32 '\x00\x00'                       # Y
  times 32 '\x00\x00'; times 31 "$1"; printf '%b' "$2"     # Z
}
ranking '\x60\xea' '\x60\xea'
ranking '\x60\xea' '\x61\xea'
ranking '\x01\x00' '\x01\x00'
