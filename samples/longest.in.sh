#!/usr/bin/env bash
# Writes 65,536 bytes, the longest sheet that is judged: the loop P (46 bytes), three exclusions of 32 bytes that fail, and
# then 3,633 rankings of 18 bytes, S1's with all its multipliers 1, 2, 3 and so on. 46 + 3 * 32 + 3,633 * 18 = 65,536.
set -eu
cd "$(dirname "$0")"

./bytes p.hex | head -c 46

for _ in 1 2 3; do
  printf '\x1c\x00\x00\x00\x03\x00\x01\x00' # L = 28, kind 3, q = 1
  for _ in {1..6}; do printf '\x00\x00\x00\x00'; done # U, V, W
done

for ((k = 1; k <= 3633; k++)); do
  printf -v number '\\x%02x\\x%02x' $((k % 256)) $((k / 256))
  printf '\x0e\x00\x00\x00\x02\x00'                                   # L = 14, kind 2
  printf '%b' "$number" '\x00\x00\x00\x00' '\x00\x00' "$number" "$number" # Y = (k, 0, 0), Z = (0, k, k)
done
