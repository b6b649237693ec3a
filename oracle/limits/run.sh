#!/usr/bin/env bash
# The limits through the exports in a stack of 1 MB, the smallest stack that they run in, and nanoseconds a node.
# Needs target/staticlib/libsimplifier.a (tools/staticlib) and gcc.
set -eu
cd "$(dirname "$0")"
root=../..
build=$root/target/limits
mkdir -p "$build"
gcc -O2 -Wall -Wextra -o "$build/limits" limits.c "$root/target/staticlib/libsimplifier.a"
echo 'in a stack of 1 MB:'
(ulimit -s 1024 && "$build/limits")
least=1024
for kb in 768 512 384 256 192 128 96 64 48 32; do
    if (ulimit -s "$kb" && "$build/limits" >/dev/null) 2>/dev/null; then least=$kb; else break; fi
done
echo "the smallest stack of those tried in which all of it runs: $least KB"
"$build/limits" bench
