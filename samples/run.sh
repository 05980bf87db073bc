#!/usr/bin/env bash
# Runs the program on every sample and compares what it writes, byte for byte, with the text that the sample should have.
#
#     samples/run.sh [PROGRAM]
#
# PROGRAM is the repository's target/bin/sheet unless it is named. For each sample one line is printed, which starts with
# `passed ` or `failed `; the exit is not 0 if one failed. A sample NAME is an input, NAME.hex (bytes as digits) or NAME.in.sh
# (a script that writes the bytes), and a text, NAME.out or NAME.out.sh (a script that writes it). x86/run starts the program,
# so the machine need not be x86-64. After the samples comes `samples/bytes` itself: large and small digits, and what it refuses.
set -u
folder=$(cd "$(dirname "$0")" && pwd) || exit 1
program=${1:-$folder/../target/bin/sheet}
scratch=$(mktemp -d) || exit 1
trap 'rm -rf "$scratch"' EXIT
failed=0

input_of() { case $1 in *.hex) "$folder/bytes" "$1" ;; *) "$1" ;; esac; }
text_of() { if [ -f "$folder/$1.out" ]; then cat "$folder/$1.out"; else "$folder/$1.out.sh"; fi; }

sample() { # INPUT NAME
  input_of "$1" >"$scratch/in" || return 1
  text_of "$2" >"$scratch/out" || return 1
  "$folder/../x86/run" "$program" <"$scratch/in" >"$scratch/written" || return 1
  cmp "$scratch/written" "$scratch/out"
}

# Runs what is named and prints its line; what it wrote follows where it failed.
part() { # LINE COMMAND [WORD...]
  if "${@:2}" >"$scratch/log" 2>&1; then
    echo "passed $1"
  else
    failed=$((failed + 1))
    echo "failed $1"
    cat "$scratch/log"
  fi
}

for input in "$folder"/*.hex "$folder"/*.in.sh; do
  name=$(basename "$input")
  name=${name%.hex} name=${name%.in.sh}
  part "sample $name" sample "$input" "$name"
done

both_cases() { cmp <(echo 'FF 0a Ef # a comment' | timeout 30 "$folder/bytes") <(printf '\xff\x0a\xef'); }

# No byte, one line that ends as told, and exit code 2.
refused() { # ENDING [WORD...], with the input of the caller
  timeout 30 "$folder/bytes" "${@:2}" >"$scratch/written" 2>"$scratch/err"
  [ $? -eq 2 ] && [ ! -s "$scratch/written" ] && [ "$(wc -l <"$scratch/err")" -eq 1 ] && grep "^bytes: .*$1\$" "$scratch/err"
}

echo 'f0 0g' >"$scratch/letter"
echo 'ff f' >"$scratch/half"
part "bytes of large and small digits" both_cases
part "bytes of a missing file refused" refused 'there is no such file' "$scratch/missing"
part "bytes of a directory refused" refused 'is a directory' "$scratch"
part "bytes of a letter refused" refused 'g is not a hexadecimal digit' <"$scratch/letter"
part "bytes with half a byte refused" refused "half of its digits ($scratch/half)" "$scratch/half"
part "bytes of a closed input refused" refused 'standard input is closed' <&-
[ "$failed" -eq 0 ]
