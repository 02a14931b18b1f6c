#!/bin/sh
# docs/BELIEVED.md has between its marks what tests/believed makes of the sources as they are now.
set -eu
work=$(mktemp -d)
trap 'rm -rf "$work"' EXIT
tests/believed > "$work/now"
awk '
    /^<!-- end of the list -->$/ { inside = 0 }
    inside { print }
    /^<!-- the list: .* -->$/ { inside = 1 }' docs/BELIEVED.md > "$work/page"
if ! diff "$work/page" "$work/now" > "$work/difference"; then
    echo 'docs/BELIEVED.md is not what the sources say now (< the page, > the sources):'
    cat "$work/difference"
    echo 'Read what changed: it has to be believed. Then run tests/believed --write.'
    exit 1
fi
head -n 1 "$work/now"
