#!/usr/bin/env bash
# Proves the library behind the header, links the example with it, runs it, and compares what it prints with expected.txt.
set -eu
cd "$(dirname "$0")/.."
mkdir -p target
(cd crates/door && rt lib)
cc -std=c99 -Wall -Wextra -Werror -O2 -o target/example c/example.c crates/door/out/libdoor.a
target/example | diff - c/expected.txt
echo "the example prints what is expected"
