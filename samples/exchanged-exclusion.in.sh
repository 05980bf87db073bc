#!/usr/bin/env bash
# Writes a loop, an accepted exclusion in which no two numbers of one form are alike, and that exclusion with every two fields of one form, and
# every two lists of one length, exchanged.
exec python3 "$(dirname "$0")/../tests/exchanges.py" sheet exclusion
