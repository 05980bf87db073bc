#!/usr/bin/env bash
# Builds and runs everything that stands around the archive: the C header and example, the Rust wrapper, the Python package
# with its pages, the example that asks a solver, and the second opinion with its generated cases; and whether the proved
# table of exchanges leaves none out.
#
#     tests/run.sh [--cases N] [--seed N] [FOLDER]
#
# FOLDER is the one that holds librip.a, the repository's target/staticlib unless it is named. For each part one line is
# printed, which starts with `passed ` or `failed `; what a failed part printed follows it. The exit is not 0 if a part
# failed. The second opinion compares 400,000 cases from seed 1 unless told otherwise here; nothing in the environment
# changes that.
set -u
cases=400000 seed=1
while [ $# -gt 1 ]; do
  case $1 in
    --cases) cases=$2 ;;
    --seed) seed=$2 ;;
    *) echo "failed arguments: $1"; exit 1 ;;
  esac
  shift 2
done
root=$(cd "$(dirname "$0")/.." && pwd) || exit 1
folder=${1:-$root/target/staticlib}
if [ ! -f "$folder/librip.a" ]; then
  echo "failed archive"
  echo "$folder/librip.a is not there: tools/build rip makes it"
  exit 1
fi
CUSHIEDOO_LIB_DIR=$(cd "$folder" && pwd) || exit 1
export CUSHIEDOO_LIB_DIR
cd "$root" || exit 1
scratch=$(mktemp -d)
trap 'rm -rf "$scratch"' EXIT
failed=0

# The archive is for x86-64. On another machine what hands each call on to it, under an emulator, is linked for it.
if [ "$(uname -m)" != x86_64 ]; then
  if ! x86/bridge "$CUSHIEDOO_LIB_DIR" target/x86 >"$scratch/log" 2>&1; then
    echo "failed bridge to the archive"
    cat "$scratch/log"
    exit 1
  fi
  CUSHIEDOO_LIB_DIR=$root/target/x86
fi

# Runs a part's function and prints its line; with `show`, the last lines that it printed as well.
part() {
  local name=$1 show=$2
  shift 2
  if "$@" >"$scratch/log" 2>&1; then
    echo "passed $name"
    [ "$show" -eq 0 ] || tail -n "$show" "$scratch/log"
  else
    failed=$((failed + 1))
    echo "failed $name"
    tail -n 40 "$scratch/log"
  fi
}

there() { command -v "$1" >/dev/null || { echo "$1 is missing: this part needs it"; return 1; }; }

c_example() {
  there cc || return 1
  cc -std=c99 -Wall -Wextra -Werror -Iinclude examples/c/judge.c "$CUSHIEDOO_LIB_DIR/librip.a" \
    -o "$scratch/judge" || return 1
  "$scratch/judge" >"$scratch/judge.out" || return 1
  diff examples/c/judge.expected "$scratch/judge.out"
}

# The header as C99 and, where there is a compiler for it, as C++11: no warning, what it states is what the archive answers,
# its version is the wrapper's, and a null pointer gets a warning.
c_header() {
  there cc || return 1
  local version
  version=$(sed -n 's/^version = "\(.*\)\.\(.*\)\.\(.*\)"$/10000 * \1 + 100 * \2 + \3/p' bindings/rust/Cargo.toml)
  local strict=(-Wall -Wextra -pedantic -Werror -Iinclude "-DVERSION=($version)")
  cc -std=c99 "${strict[@]}" tests/header.c "$CUSHIEDOO_LIB_DIR/librip.a" -o "$scratch/header" || return 1
  "$scratch/header" || return 1
  if cc -std=c99 "${strict[@]}" -DWITH_NULL -c tests/header.c -o "$scratch/null.o" 2>"$scratch/null"; then return 1; fi
  grep -q nonnull "$scratch/null" || return 1
  command -v c++ >/dev/null || return 0
  c++ -std=c++11 "${strict[@]}" -x c++ tests/header.c -x none "$CUSHIEDOO_LIB_DIR/librip.a" -o "$scratch/header" || return 1
  "$scratch/header"
}

# Each cargo project keeps its own target folder; none needs the network.
cargo_in() {
  there cargo || return 1
  local project=$1
  shift
  (cd "$project" && cargo "$@")
}

rust_wrapper() { cargo_in bindings/rust test --offline --locked; }

# The second opinion is compiled while the parts before it run; if that fails, its own parts say why.
compile_second_opinion() {
  cargo_in tests test --release --offline --locked --no-run
  cargo_in tests build --release --offline --locked
}
compile_second_opinion >"$scratch/compiled" 2>&1 &

second_opinion_samples() {
  wait
  cargo_in tests test --release --offline --locked
}

second_opinion() {
  cargo_in tests run --release --offline --locked -- --cases "$cases" --seed "$seed"
}

# The proved table of exchanges has every pair of fields and lists, with the answers that 01 gives.
exchanges() {
  there python3 || return 1
  tests/exchanges.py check
}

# The example that asks a solver, as far as it goes without one.
proposer() {
  there python3 || return 1
  tests/propose.py
}

# The Python package over a shared library with the archive in it. Its tests need python3's standard library alone.
python_library() {
  there python3 && there cc || return 1
  bindings/python/build "$CUSHIEDOO_LIB_DIR" "$scratch"
}

python_tests() { # MODULE
  (cd bindings/python &&
    CUSHIEDOO_LIBRARY=$scratch/libcushiedoo.so PYTHONDONTWRITEBYTECODE=1 python3 -W error -m unittest "tests.$1")
}

part "exchanges, none left out" 1 exchanges
part "proposer, without z3" 0 proposer
part "c header" 0 c_header
part "c example" 0 c_example
part "rust wrapper" 0 rust_wrapper
part "python library" 0 python_library
for file in bindings/python/tests/test_*.py; do
  module=$(basename "$file" .py)
  part "python ${module#test_}" 0 python_tests "$module"
done
part "second opinion, the paper's samples" 0 second_opinion_samples
part "second opinion, $cases generated cases" 15 second_opinion
[ "$failed" -eq 0 ]
