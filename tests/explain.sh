#!/bin/sh
# What explain says of a clerk's first day, examples/clerk.day: alone (tests/explain/alone), beside a good sheet (tests/explain/good), and beside
# damaged ones. Of these tests/explain/NAME has what differs from the words beside the good sheet, as diff prints it: where the sheet
# was refused, and what it says there. Then the same of tests/explain/named.day, where home cancels orders and names who initiated the trade, and of
# tests/explain/again.day, where it cancels orders priced as for a block that was none and their exchanges send again. And what it says of received
# orders, tests/explain/received.day, a day without a Satisfaction Order: alone, and the same beside its empty sheet.
set -u
cd "$(dirname "$0")/.." || exit 1
[ "$(uname -m)" = x86_64 ] || { echo 'left out: tests/explain.sh: the programs are for x86-64'; exit 77; }
work=$(mktemp -d) || exit 1
trap 'rm -rf "$work"' EXIT
tried=0 wrong=0

# held NAME FILE : the file is what must be said.
held() {
    tried=$((tried + 1))
    diff "tests/explain/$1" "$2" || { echo "explain: $1: other words than in tests/explain/$1"; wrong=$((wrong + 1)); }
}

# told STATUS NAME OCTAL : explain beside this sheet, and check of the same, end with this status and begin alike.
told() {
    # shellcheck disable=SC2059
    printf "$3" >"$work/sheet"
    ./hasurenta explain "$work/journal" "$work/sheet" >"$work/told" 2>"$work/said"
    status=$?
    ./hasurenta check "$work/journal" "$work/sheet" >"$work/checked" 2>"$work/words"
    if [ "$status" -ne "$1" ] || [ "$(head -n 1 "$work/told")" != "$(cat "$work/checked")" ] || ! cmp -s "$work/said" "$work/words"; then
        echo "explain: $2: status $status, or not what check says: $(cat "$work/said")"
        wrong=$((wrong + 1))
    fi
}

damaged() { # NAME OCTAL
    told 1 "$@"
    diff "$work/good" "$work/told" >"$work/differs"
    held "$1" "$work/differs"
}

./hasurenta encode examples/clerk.day >"$work/journal" || exit 1
./hasurenta explain "$work/journal" >"$work/told" || exit 1
held alone "$work/told"
told 0 good '\000\036\024\000\012\005\010\000\014'
cp "$work/told" "$work/good"
held good "$work/good"

# The clerk's slips: the file cut short; a line too many; a number left as it was; a late order filled; more than was claimed; one
# contract less than is due; one contract moved to the other exchange.
damaged cut '\000\036\024\000\012'
damaged goes-on '\000\036\024\000\012\005\010\000\014\000\000\000'
damaged does-not-add-up '\000\036\023\000\012\005\010\000\014'
damaged late-order-filled '\000\036\024\000\012\005\000\014\000'
damaged above-the-claim '\000\051\011\000\000\017\010\000\014'
damaged one-short '\000\036\024\000\011\006\010\000\014'
cp "$work/told" "$work/short"
damaged one-moved '\000\035\025\000\013\004\010\000\014'

# What docs/CLERK.md shows of the sheet that is one short, and of a received order.
sed -n 's/^    \(Trade [0-9]\)/\1/p; s/^    \(Event [0-9]\)/\1/p; s/^    \(  [a-z]\)/\1/p' docs/CLERK.md >"$work/shown"
[ "$(wc -l <"$work/shown")" -eq 6 ] || { echo 'explain: docs/CLERK.md does not show six lines'; wrong=$((wrong + 1)); }
while IFS= read -r line; do
    grep -qxF -e "$line" "$work/short" tests/explain/received || { echo "explain: never told: $line"; wrong=$((wrong + 1)); }
done <"$work/shown"

./hasurenta encode tests/explain/named.day >"$work/journal" || exit 1
./hasurenta explain "$work/journal" >"$work/told" || exit 1
held named "$work/told"
told 0 named-good '\016\000\062\000\017\000\011\000\014\016\000\036\000\017\000'
cp "$work/told" "$work/good"
held named-good "$work/good"

# A cancellation that came late is taken for one in time; one in time is put before the reason that stands; an order that was cancelled in time is filled.
damaged named-late '\016\000\062\016\000\017\011\000\014\016\000\036\000\017\000'
damaged named-over-nine '\016\000\062\000\017\000\016\000\014\016\000\036\000\017\000'
damaged named-and-filled '\016\036\024\000\017\000\011\000\014\016\000\036\000\017\000'

./hasurenta encode tests/explain/again.day >"$work/journal" || exit 1
./hasurenta explain "$work/journal" >"$work/told" || exit 1
held again "$work/told"
zero='\013\000\062\013\000\017\000\055\005\017\000\017'
one='\013\000\036\010\000\017\000\027\007\000\007\010'
two='\013\000\036\013\000\017\016\000\036\017\000\017'
told 0 again-good "$zero$one$two"
cp "$work/told" "$work/good"
held again-good "$work/good"

# Of trade 0 the order that was cancelled is filled in the place of the one that was sent again; both are filled; the one that was sent again too late is filled.
# Of trade 1 an order that was sent again is held against the report.
damaged again-first-filled '\000\055\005\013\000\017\000\000\062\017\000\017'"$one$two"
damaged again-both-filled '\013\055\005\013\000\017\000\055\005\017\000\017'"$one$two"
damaged again-late-filled '\013\000\062\013\000\017\000\055\005\000\017\000'"$one$two"
damaged again-by-the-report "$zero"'\013\000\036\010\000\017\010\000\036\000\017\000'"$two"

./hasurenta encode tests/explain/received.day >"$work/journal" || exit 1
./hasurenta explain "$work/journal" >"$work/alone" || exit 1
held received "$work/alone"
told 0 received-beside ''
sed 1d "$work/told" | cmp -s "$work/alone" - || { echo 'explain: received: other words beside a sheet than alone'; wrong=$((wrong + 1)); }

[ "$tried" -eq "$(ls tests/explain | grep -cv '\.day$')" ] || { echo 'explain: tests/explain has a file that nothing is held to'; wrong=$((wrong + 1)); }
echo "explain: $tried days told, $wrong wrong"
[ "$wrong" -eq 0 ]
