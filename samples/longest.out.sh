#!/usr/bin/env bash
# Writes the text of the longest sheet. A ranking's numbers are S1's, times its multiplier.
set -eu
printf 'loop 2 3\n1 refused 32 0\n2 refused 32 0\n3 refused 32 0\n'
for ((k = 1; k <= 3633; k++)); do echo "$((k + 3)) rank $k -$k from $((2 * k)) down $k"; done
