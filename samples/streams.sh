#!/usr/bin/env bash
# Runs the program where reading or writing goes wrong, or comes in bits, and compares standard output and standard error, byte for byte, with what
# is stored.
#
#     samples/streams.sh [FOLDER]
#
# FOLDER is the one that holds the programs, the repository's target/bin unless it is named. For each case one line is printed, which starts with
# `passed ` or `failed `; the exit is not 0 if one failed. A case NAME must write streams/NAME.err to standard error, and to standard output the text
# that its line below names: a sample's, or streams/NAME.out, or nothing. The programs are started by x86/run, so every case runs on a machine that is
# not x86-64 as well, under an emulator that hands the streams, signals and limits of the case on.
set -u
folder=$(cd "$(dirname "$0")" && pwd) || exit 1
programs=$(cd "${1:-$folder/../target/bin}" && pwd) || exit 1
scratch=$(mktemp -d) || exit 1
trap 'rm -rf "$scratch"' EXIT
failed=0

# A program, for at most 30 seconds: a case in which it waits for ever fails.
program() { timeout 30 "$folder/../x86/run" "$programs/$1" "${@:2}"; }
sheet() { program sheet "$@"; }

text_of() { # WHICH NAME
  case $1 in
    nothing) ;;
    stored) cat "$folder/streams/$2.out" ;;
    *) if [ -f "$folder/$1.out" ]; then cat "$folder/$1.out"; else "$folder/$1.out.sh"; fi ;;
  esac
}

# A case: its name, the text it must print, and the function that runs it.
case_of() { # NAME TEXT FUNCTION
  local ok=0
  text_of "$2" "$1" >"$scratch/text" || ok=1
  : >"$scratch/out"
  "$3" >"$scratch/out" 2>"$scratch/err" || ok=1
  {
    cmp "$scratch/out" "$scratch/text" || ok=1
    diff "$folder/streams/$1.err" "$scratch/err" || ok=1
  } >"$scratch/log" 2>&1
  if [ "$ok" -eq 0 ]; then
    echo "passed stream $1"
  else
    failed=$((failed + 1))
    echo "failed stream $1"
    cat "$scratch/log"
  fi
}

"$folder/bytes" "$folder/p.hex" >"$scratch/p" || exit 1
"$folder/longest.in.sh" >"$scratch/longest" || exit 1
"$folder/too-long.in.sh" >"$scratch/too-long" || exit 1
mkfifo "$scratch/pipe" "$scratch/back" || exit 1

# ---- sound inputs

longest() { sheet <"$scratch/longest"; }
too_long() { sheet <"$scratch/too-long"; }
endless() { head -c 100000000 /dev/zero 2>/dev/null | sheet; }
small_stack() { (ulimit -s 1024 && sheet <"$scratch/longest"); }

# one byte a write, and the same so slowly that each byte is read by itself
bytes() { dd bs=1 status=none <"$scratch/longest" | sheet; }
slow_bytes() {
  for ((i = 0; i < 82; i++)); do
    dd bs=1 skip=$i count=1 status=none <"$scratch/p"
    sleep 0.005
  done | sheet
}

# a pipe that does not wait, empty at first and once more in the middle of a record; half a second, since a program may take a tenth to start
empty_pipe() {
  exec 4<>"$scratch/pipe" 3<"$scratch/pipe"
  dd iflag=nonblock count=0 status=none <&3
  { sleep 0.5; head -c 50 "$scratch/p"; sleep 0.5; tail -c +51 "$scratch/p"; } >&4 3<&- &
  exec 4>&-
  sheet <&3
  exec 3<&-
}

# a pipe that does not wait, and is full until its reader starts
full_pipe() {
  exec 5<>"$scratch/back" 4<"$scratch/back" 3>"$scratch/back" 5>&-
  dd oflag=nonblock count=0 status=none >&3 </dev/null
  { sleep 0.5; timeout 30 cat; } <&4 3>&- >"$scratch/taken" &
  exec 4<&-
  sheet <"$scratch/longest" >&3
  exec 3>&-
  wait $!
  cat "$scratch/taken"
}

# ---- what cannot be read

directory() { sheet <"$scratch"; }
closed_input() { sheet <&-; }
broken_input() { sheet </proc/self/mem; }

# ---- what cannot be written

full_disk() { sheet <"$scratch/longest" >/dev/full; }
closed_output() { sheet <"$scratch/p" >&-; }
no_reader() { (trap '' PIPE && sheet <"$scratch/longest" | true); }
file_size_limit() { (trap '' XFSZ && ulimit -f 8 && sheet <"$scratch/longest"); }
other_program() { program cases <"$folder/../crates/cases/stdin" >/dev/full; }

# ---- arguments, with an input that never comes

argument() { sheet my.sheet <>"$scratch/pipe"; }
help() { sheet --help <>"$scratch/pipe"; }

case_of longest longest longest
case_of too-long too-long too_long
case_of endless too-long endless
case_of small-stack longest small_stack
case_of bytes longest bytes
case_of slow-bytes p slow_bytes
case_of empty-pipe p empty_pipe
case_of full-pipe longest full_pipe
case_of directory nothing directory
case_of closed-input nothing closed_input
case_of broken-input nothing broken_input
case_of full-disk nothing full_disk
case_of closed-output nothing closed_output
case_of no-reader nothing no_reader
case_of file-size-limit stored file_size_limit
case_of other-program nothing other_program
case_of argument nothing argument
case_of help nothing help
[ "$failed" -eq 0 ]
