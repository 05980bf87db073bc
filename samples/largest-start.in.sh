#!/usr/bin/env bash
# Writes a loop of 16 variables with 64 rows 0 <= -2,000,000,000, and a ranking for it whose multipliers are all 60,000. So start and
# fall are 64 * 60,000 * 2,000,000,000 = 7,680,000,000,000,000, the most that a ranking has.
set -eu
times() { local i; for ((i = 0; i < $1; i++)); do printf '%b' "$2"; done; }

printf '\x06\x11\x00\x00' # L = 4,358
printf '\x01\x00'         # kind 1, loop
printf '\x10\x00\x40\x00' # n = 16, m = 64
for _ in {1..64}; do times 32 '\x00\x00'; printf '\x00\x6c\xca\x88'; done

printf '\x02\x01\x00\x00' # L = 258
printf '\x02\x00'         # kind 2, ranking
times 64 '\x60\xea'       # Y
times 64 '\x60\xea'       # Z
