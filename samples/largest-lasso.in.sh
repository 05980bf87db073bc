#!/usr/bin/env bash
# Writes a loop of 16 variables and 64 rows, all with the right side b = -2,000,000,000, and a lasso for it. With
# f(x) = 30,000 (x1 + .. + x16) the rows are f(x) <= b, -f(x') <= b, f(x') <= b and 61 times 0 <= b; the stem is -f(x') <= b and the
# invariant f(x) + b >= 0, which the stem's row starts and the loop's second row keeps. All of Y and Z is 60,000, with the added row's
# too, so start and fall are 65 * 60,000 * 2,000,000,000 = 7,800,000,000,000,000, the most that there is.
set -eu
times() { local i; for ((i = 0; i < $1; i++)); do printf '%b' "$2"; done; }

none='\x00\x00' # 0
up='\x30\x75'   # 30,000
down='\xd0\x8a' # -30,000
row() { times 16 "$1"; times 16 "$2"; printf '\x00\x6c\xca\x88'; } # A A'

printf '\x06\x11\x00\x00' # L = 4,358
printf '\x01\x00'         # kind 1, loop
printf '\x10\x00\x40\x00' # n = 16, m = 64
row $up $none
row $none $down
row $none $up
for _ in {1..61}; do row $none $none; done

printf '\xf8\x01\x00\x00'                            # L = 504
printf '\x04\x00'                                    # kind 4, lasso
printf '\x01\x00'                                    # ms = 1
row $none $down                                      # the stem
times 16 $up                                         # s
printf '\x00\x6c\xca\x88'                            # s0
printf '\x60\xea'                                    # k
printf '\x60\xea'                                    # T
printf '\x60\xea'                                    # k2
printf '\x00\x00\x60\xea'; times 62 $none            # H
printf '\x00\x00'                                    # h0
times 65 '\x60\xea'                                  # Y
times 65 '\x60\xea'                                  # Z
