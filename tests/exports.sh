#!/bin/sh
# The desk's functions as C and Rust call them: examples/c and examples/rust are built with the archive, bench/native-archive's, and run
# on Day D. Where the machine is another than x86-64, or a compiler is missing, the test or its part is left out, and that is said
# (.ci/run).
set -u
cd "$(dirname "$0")/.." || exit 1
work=$(mktemp -d) || exit 1
trap 'rm -rf "$work"' EXIT
machine=$(uname -m)
left_out() { echo "left out: tests/exports.sh: $*"; }

[ "$machine" = x86_64 ] || { left_out "the archive is for x86-64, and none can be made for $machine"; exit 77; }
command -v cc >/dev/null || { left_out 'there is no cc'; exit 77; }
if ! bench/native-archive desk "$work/libdesk.a" >"$work/log" 2>&1; then
    tail -n 5 "$work/log"
    echo 'exports: no archive'
    exit 1
fi
printf 'event what a b c\n1 T 0 1 0\n2 F 0 12 8\n' >"$work/day-d"
wrong=0

# day_d LANGUAGE : the program that was built prints the list of Day D and ends with 0.
day_d() {
    "$work/$1" >"$work/list" || { grep '^wrong' "$work/list"; echo "exports: $1: an answer is wrong"; wrong=1; }
    if cmp "$work/list" "$work/day-d"; then echo "exports: Day D through $1 on $machine"; else wrong=1; fi
}

if cc -std=c99 -Wall -Wextra -Werror -I include -o "$work/c" examples/c/main.c "$work/libdesk.a"; then day_d c; else wrong=1; fi
if ! command -v rustc >/dev/null; then
    left_out 'the Rust example: there is no rustc'
elif rustc --edition 2021 -D warnings -L "$work" -o "$work/rust" examples/rust/main.rs; then
    day_d rust
else
    wrong=1
fi
exit "$wrong"
