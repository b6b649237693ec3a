#!/bin/sh
# Fuzzes the library's three calls against the oracle, with clang's libFuzzer (Debian's clang and
# libclang-rt packages). The oracle is compiled with coverage, which leads the fuzzer; the harness is
# compiled with the address and undefined-behaviour sanitizers. What fails is left in
# oracle/target/fuzz.
#
#   run.sh [SECONDS] [MORE OPTIONS OF LIBFUZZER..]
set -eu
cd "$(dirname "$0")/../.."
library=$(cd "${SANTOFUNYE_LIB:-target/staticlib}" 2>/dev/null && pwd || true)/libsimplifier.a
[ -f "$library" ] || { echo "no libsimplifier.a: 'tools/staticlib' in the repository's root makes it" >&2; exit 1; }
cd oracle
seconds=${1:-3600}
[ $# -eq 0 ] || shift

host=$(rustc -vV | sed -n 's/^host: //p')
coverage="-Cpasses=sancov-module -Cllvm-args=-sanitizer-coverage-level=4"
coverage="$coverage -Cllvm-args=-sanitizer-coverage-inline-8bit-counters"
coverage="$coverage -Cllvm-args=-sanitizer-coverage-pc-table -Cllvm-args=-sanitizer-coverage-trace-compares"
folder=target/fuzz
mkdir -p $folder/corpus $folder/seeds
RUSTFLAGS=$coverage cargo build --release --quiet -p fuzz --lib --target "$host" --target-dir $folder/oracle
cargo run --release --quiet -p fuzz --bin seeds -- $folder/seeds 2000
clang -g -O1 -Wall -Wextra -fsanitize=fuzzer,address,undefined fuzz/fuzz.c \
    "$folder/oracle/$host/release/libfuzz_oracle.a" "$library" -lpthread -ldl -lm -o $folder/fuzz
exec $folder/fuzz -max_total_time="$seconds" -max_len=8192 -artifact_prefix=$folder/ \
    -print_final_stats=1 "$@" $folder/corpus $folder/seeds
