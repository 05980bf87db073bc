#!/usr/bin/env bash
# Writes 65,537 bytes: the longest sheet, and one byte more.
set -eu
"$(dirname "$0")/longest.in.sh"
printf '\x00'
