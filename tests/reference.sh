#!/bin/sh
# The reference shares no code with the proved crates. It agrees with the vectors, with every answer that the program `ask` is held
# to, and with what `ask` answers to random, damaged and extreme questions, some thousands by a fixed seed, which must reach all that
# they are meant to reach. It needs rustc, and the cc that rustc links with; without them it is left out, and that is said (.ci/run).
set -eu
for tool in rustc cc; do
    command -v "$tool" >/dev/null || { echo "left out: tests/reference.sh: there is no $tool"; exit 77; }
done
here=$(cd "$(dirname "$0")/.." && pwd -P)
cd "$here"
work=$(mktemp -d)
trap 'rm -rf "$work"' EXIT
rustc -O --edition 2021 --crate-type rlib --crate-name reference --out-dir "$work" reference/src/lib.rs
rustc -O --edition 2021 --extern "reference=$work/libreference.rlib" -o "$work/reference" reference/src/main.rs
"$work/reference" vectors tests/vectors
[ -s crates/ask/stdin ] || { echo 'crates/ask/stdin has no question'; exit 1; }
"$work/reference" answer <crates/ask/stdin >"$work/answers"
cmp "$work/answers" crates/ask/stdout
echo "the reference answers ask's questions with the same bytes"

# Its own tests: the thirteen examples, each request in small cases, and that batches are so many quotes on days by seed.
rustc -C opt-level=1 --edition 2021 --test -o "$work/own" reference/src/lib.rs
"$work/own" -q >"$work/own-said" || { cat "$work/own-said"; exit 1; }
grep '^test result: ok' "$work/own-said"

[ "$(uname -m)" = x86_64 ] || { echo 'left out: tests/reference.sh: questions by seed: the program ask is for x86-64'; exit 0; }
# A difference is written down where the run is, so it runs in the temporary folder and what it wrote is shown.
cd "$work"
count=8000
if ! timeout 600 ./reference fuzz sh "$here/tests/run-program" ask --seed 1 --count "$count" >said; then
    cat said difference-*.txt 2>/dev/null || true
    echo "the proved program and the reference differ, or the run took over ten minutes"
    exit 1
fi
grep -E '^(op|seed) ' said
grep -qx "seed 1: $count questions, 0 differences" said
grep -qx 'not reached: nothing' said || { grep '^not reached: ' said; exit 1; }
