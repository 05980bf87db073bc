#!/usr/bin/env bash
# Writes a loop of 16 variables and 64 rows and a ranking for it. With f(x) = 30,000 (x1 + .. + x16) the rows are 31 times
# -f(x) <= 2,000,000,000, 31 times f(x') - f(x) <= 0, then 0 <= -1 and 0 <= 2,000,000,000. Y gives 60,000 to those with 2,000,000,000,
# Z 60,000 to those with 0 and 1 to 0 <= -1. So each entry of the rank is 31 * 60,000 * 30,000 = 55,800,000,000, the start is
# -32 * 60,000 * 2,000,000,000 and the fall 1: where all variables are 1,000,000, the bound has 18 digits.
set -eu
times() { local i; for ((i = 0; i < $1; i++)); do printf '%b' "$2"; done; }

none='\x00\x00' # 0
up='\x30\x75'   # 30,000
down='\xd0\x8a' # -30,000
row() { times 16 "$1"; times 16 "$2"; printf '%b' "$3"; } # A A' b

printf '\x06\x11\x00\x00' # L = 4,358
printf '\x01\x00'         # kind 1, loop
printf '\x10\x00\x40\x00' # n = 16, m = 64
for _ in {1..31}; do row $down $none '\x00\x94\x35\x77'; done
for _ in {1..31}; do row $down $up '\x00\x00\x00\x00'; done
row $none $none '\xff\xff\xff\xff'
row $none $none '\x00\x94\x35\x77'

printf '\x02\x01\x00\x00'                                                # L = 258
printf '\x02\x00'                                                        # kind 2, ranking
times 31 '\x60\xea'; times 32 $none; printf '\x60\xea'                   # Y
times 31 $none; times 31 '\x60\xea'; printf '\x01\x00'; printf '\x00\x00' # Z
