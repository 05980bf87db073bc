#!/usr/bin/env bash
# Writes a loop of 16 variables with 63 rows 0 <= 2,000,000,000 and the row 0 <= -2,000,000,000, and a ranking for it that gives 60,000
# to each of the 63 in Y and to the last row in Z. So the start is -63 * 60,000 * 2,000,000,000 = -7,560,000,000,000,000, the least
# that a ranking has, and the fall is 60,000 * 2,000,000,000 = 120,000,000,000,000.
set -eu
times() { local i; for ((i = 0; i < $1; i++)); do printf '%b' "$2"; done; }

printf '\x06\x11\x00\x00' # L = 4,358
printf '\x01\x00'         # kind 1, loop
printf '\x10\x00\x40\x00' # n = 16, m = 64
for _ in {1..63}; do times 32 '\x00\x00'; printf '\x00\x94\x35\x77'; done
times 32 '\x00\x00'; printf '\x00\x6c\xca\x88'

printf '\x02\x01\x00\x00'                  # L = 258
printf '\x02\x00'                          # kind 2, ranking
times 63 '\x60\xea'; printf '\x00\x00'     # Y
times 63 '\x00\x00'; printf '\x60\xea'     # Z
