#!/usr/bin/env bash
# Builds the dictionary as a static library and the program beside it, and measures: the time of a call, and with
# `--instructions` the instructions of a call, counted by callgrind.
set -eu
cd "$(dirname "$0")/.."
mkdir -p target
(cd crates/speed && rt lib) > target/speed.log 2>&1 || { tail -20 target/speed.log; exit 1; }
rustc -C opt-level=3 -o target/speed speed/main.rs -L crates/speed/out -l static=speed
target/speed
[ "${1:-}" = --instructions ] || exit 0
for n in 1000 5000 25000; do
    profile=target/speed.$n.callgrind
    valgrind --tool=callgrind --callgrind-out-file="$profile" target/speed --once "$n" > /dev/null 2>&1
    callgrind_annotate --inclusive=yes --threshold=100 "$profile" | awk -v n="$n" '
        { gsub(",", "", $1) }
        match($0, /main::(plain|grouped|hash|btree)_(enter_and_find|enter|find) /) { count[substr($0, RSTART + 6, RLENGTH - 7)] = $1 / n }
        END {
            printf "%d tags, instructions a call\n", n
            for (i = split("plain grouped", ours, " "); i > 0; i--)
                printf "  %-10s enter %6.0f   find %6.0f\n", ours[i], count[ours[i] "_enter"], count[ours[i] "_enter_and_find"] - count[ours[i] "_enter"]
            for (i = split("btree hash", theirs, " "); i > 0; i--)
                printf "  %-10s enter %6.0f   find %6.0f\n", theirs[i], count[theirs[i] "_enter"], count[theirs[i] "_find"]
        }'
done
