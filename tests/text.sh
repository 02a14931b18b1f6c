#!/bin/sh
# The text form of a journal. Clock times and words give the bytes that milliseconds and numbers give; a batch's quotes are the lines
# below it; what decode writes encodes to the same bytes; a time that goes back, what is no clock time, what is no word of its name and
# a quote that belongs to no batch are refused, with the words that they must have. What examples/README.md shows of the text is held
# to the same.
set -u
cd "$(dirname "$0")/.." || exit 1
[ "$(uname -m)" = x86_64 ] || { echo 'left out: tests/text.sh: the programs are for x86-64'; exit 77; }
work=$(mktemp -d) || exit 1
trap 'rm -rf "$work"' EXIT
tried=0 wrong=0 what=''

fail() {
    echo "text: $what: $*"
    wrong=$((wrong + 1))
}

# encode FILE, decode FILE : what the launcher makes of it is put into FILE.journal, FILE.text.
encode() { ./hasurenta encode "$1" >"$1.journal" 2>"$work/err" || fail "not encoded: $(cat "$work/err")"; }
decode() { ./hasurenta decode "$1" >"$1.text" 2>"$work/err" || fail "not decoded: $(cat "$work/err")"; }

# A start from which a record of any kind is accepted, up to half past nine.
h='header home 1 exchanges 3 close 57600000 sizes 10 10 10 10 10 10'
start="$h
sent after 34199000 type 1 to 2 series 0 side 2 price 110 size 10
trade after 500 series 0 price 100 size 12 form 0 complex 0 initiator 3 delay 0
satisfaction after 500 trade 0 from 2 price 100 size 20"

# same LINES LINES : after the start, both give the same bytes.
same() {
    what=$2
    tried=$((tried + 1))
    printf '%s\n%s\n' "$start" "$1" >"$work/numbers"
    printf '%s\n%s\n' "$start" "$2" >"$work/words"
    encode "$work/numbers"
    encode "$work/words"
    [ -s "$work/words.journal" ] && cmp -s "$work/numbers.journal" "$work/words.journal" || fail "not the bytes of: $1"
}

# ---- each kind with a time of either sort
while read -r kind rest; do
    same "$kind after 60000${rest:+ $rest}" "$kind at 09:31:00.000${rest:+ $rest}"
done <<'END_OF_LINES'
quote exchange 3 series 31 bid 0 size 0 customers 0 offer 1000000 size 100000 customers 7
status exchange 2 state 1
trade series 0 price 1 size 100000 form 2 complex 1 initiator 3 delay 600000
sent type 2 to 3 series 0 side 1 price 1000000 size 1
response order 0 filled 10
received type 1 from 3 series 31 side 2 price 5 size 9
satisfaction trade 0 from 3 price 110 size 20
naming claim 0 exchange 3
closing
cancellation claim 0
END_OF_LINES

# ---- a batch: its quotes on the lines below it, whatever space, empty lines and comments there are
one='series 31 bid 0 size 0 customers 0 offer 1000000 size 100000 customers 7'
two='series 0 bid 5 size 9 customers 0 offer 6 size 9 customers 9'
same "batch after 60000 exchange 3
$one
$two" "batch at 09:31 exchange 3 # two quotes
    $one

# the second
	 $two  # the last"
same "batch after 0 exchange 2
$two
batch after 0 exchange 2
$one
status after 0 exchange 2 state 1" "batch at 9:30 exchange 2
  $two
batch at 9:30 exchange 2
  $one
status at 9:30 exchange 2 state non-firm"
# As many as there may be, one series many times.
quotes() { awk -v n="$1" -v quote="${2:-$two}" 'BEGIN { while (n-- > 0) print "    " quote }'; }
for count in 1 2 31 32; do
    what="a batch of $count"
    tried=$((tried + 1))
    printf '%s\nbatch at 09:30:00.000 exchange 3\n%s\n' "$h" "$(quotes $count)" >"$work/words"
    encode "$work/words"
    decode "$work/words.journal"
    tail -n +2 "$work/words" >"$work/below"
    tail -n +2 "$work/words.journal.text" | cmp -s - "$work/below" || fail 'decode does not write it as it was'
done

# ---- each way to write a clock time
while read -r ms clock; do
    same "status after $ms exchange 2 state 1" "status at $clock exchange 2 state 1"
done <<'END_OF_LINES'
0 9:30
0 09:30
0 9:30:00
0 09:30:00.000
1 9:30:00.001
5 09:30:00.005
50 09:30:00.05
500 09:30:00.5
1000 09:30:01
59999 9:30:59.999
52199999 23:59:59.999
END_OF_LINES
same 'status after 250 exchange 2 state 1
status after 250 exchange 2 state 0' 'status at 9:30:00.25 exchange 2 state 1
status after 250 exchange 2 state 0'
same 'status after 250 exchange 2 state 1
status after 250 exchange 2 state 0' 'status after 250 exchange 2 state 1
status at 09:30:00.500 exchange 2 state 0'

# every minute of a day, every second of an hour, every millisecond of a second
every() { # NAME STEP COUNT CLOCK : a text of clock times, made by awk, and the same in steps
    what="every $1"
    tried=$((tried + 1))
    awk -v h="$h" -v step="$2" -v count="$3" 'BEGIN { print h; for (i = 0; i < count; i++) print "status after " (i ? step : 0) " exchange 2 state 1" }' >"$work/numbers"
    awk -v h="$h" -v count="$3" "BEGIN { print h; for (i = 0; i < count; i++) print \"status at \" $4 \" exchange 2 state 1\" }" >"$work/words"
    encode "$work/numbers"
    encode "$work/words"
    [ -s "$work/words.journal" ] && cmp -s "$work/numbers.journal" "$work/words.journal" || fail 'not the same bytes'
}
every minute 60000 1440 'sprintf("%d:%02d", i / 60, i % 60)'
every second 1000 3600 'sprintf("0:%02d:%02d", i / 60, i % 60)'
every millisecond 1 1000 'sprintf("00:00:00.%03d", i)'

# the close
what=$h
printf '%s\n' "$h" >"$work/numbers"
encode "$work/numbers"
for close in 16:00 16:00:00 16:00:00.000; do
    what="close $close"
    tried=$((tried + 1))
    printf '%s\n' "header home 1 exchanges 3 close $close sizes 10 10 10 10 10 10" >"$work/words"
    encode "$work/words"
    cmp -s "$work/numbers.journal" "$work/words.journal" || fail 'not the bytes of close 57600000'
done

# ---- each word and its number; the word is what decode writes
holding() { # KIND NAME VALUE : a line of this kind with this value
    case $1 in
    status) set -- "$@" 'exchange 2 state 0' ;;
    trade) set -- "$@" 'series 0 price 100 size 12 form 0 complex 0 initiator 0 delay 0' ;;
    sent) set -- "$@" 'type 1 to 2 series 0 side 1 price 120 size 3' ;;
    received) set -- "$@" 'type 1 from 2 series 0 side 1 price 120 size 3' ;;
    esac
    printf '%s after 0 %s\n' "$1" "$4" | sed "s| $2 [0-9]*| $2 $3|"
}
while read -r kind name number word written; do
    same "$(holding "$kind" "$name" "$number")" "$(holding "$kind" "$name" "$word")"
    decode "$work/words.journal"
    tail -n 1 "$work/words.journal.text" | grep -Eq "^$kind at 09:30:00.000 .*$name ${written:-$word}( |\$)" || fail "decode does not write ${written:-$word}"
done <<'END_OF_WORDS'
status state 0 firm
status state 1 non-firm
status state 2 rotation
trade form 0 none
trade form 1 cross
trade form 2 other
trade complex 0 no
trade complex 1 yes
trade initiator 0 none
trade initiator 3 3
sent type 1 P/A
sent type 1 p/a P/A
sent type 2 principal
sent side 1 buy
sent side 2 sell
received type 1 P/A
received type 1 p/a P/A
received type 2 principal
received side 1 buy
received side 2 sell
END_OF_WORDS

# ---- what decode writes encodes to the same bytes
back() { # JOURNAL
    tried=$((tried + 1))
    decode "$1"
    encode "$1.text"
    cmp -s "$1" "$1.text.journal" || fail 'decoded and encoded again, it is not the same'
    ! grep -q ' after ' "$1.text" || fail 'decode wrote milliseconds for a time'
}
for text in examples/*.day; do
    what=$text
    cp "$text" "$work/day"
    encode "$work/day"
    back "$work/day.journal"
done

# The journals of the vectors that are accepted, as octal escapes.
paste -d ' ' tests/vectors/e.questions tests/vectors/e.answers | awk '
    BEGIN { for (i = 0; i < 256; i++) octal[sprintf("%02x", i)] = sprintf("\\%03o", i) }
    $1 == "journal" && $3 == "accepted" {
        bytes = ""
        for (i = 1; i < length($2); i += 2) bytes = bytes octal[substr($2, i, 2)]
        print bytes
    }' >"$work/journals"
accepted=0
while IFS= read -r bytes; do
    accepted=$((accepted + 1))
    what="accepted journal $accepted of tests/vectors"
    # shellcheck disable=SC2059
    printf "$bytes" >"$work/vector"
    back "$work/vector"
    cat "$work/vector.text" >>"$work/texts"
done <"$work/journals"
what='tests/vectors'
[ "$accepted" -ge 75 ] || fail "only $accepted accepted journals"
for kind in header quote status trade sent response received satisfaction naming closing batch cancellation; do
    grep -q "^$kind " "$work/texts" || fail "no accepted journal has a line of kind $kind"
done

# ---- one awk says what another says
for other in mawk gawk; do
    command -v $other >/dev/null 2>&1 || continue
    for text in examples/*.day "$work/words" "$work/vector.text"; do
        what="$other on $text"
        tried=$((tried + 1))
        awk -v way=numbers -f launcher/words.awk "$text" >"$work/one" || fail 'no numbers by awk'
        $other -v way=numbers -f launcher/words.awk "$text" >"$work/two" || fail 'no numbers'
        cmp -s "$work/one" "$work/two" || fail 'other numbers than by awk'
    done
done

# ---- faults, in these words
# faulty SAID LINES : the launcher may put its name in front, and what a refusal means behind or in a line of its own.
faulty() {
    what=$1
    tried=$((tried + 1))
    printf '%s\n' "$2" >"$work/text"
    ./hasurenta encode "$work/text" >"$work/out" 2>"$work/err"
    status=$?
    [ "$status" -eq 1 ] || fail "status $status, not 1"
    [ ! -s "$work/out" ] || fail 'wrote something'
    sed -e 's/^hasurenta: //' -e 's/\(: refused [0-9]*\).*/\1/' "$work/err" >"$work/said"
    grep -qxF -- "$1" "$work/said" || fail "said: $(cat "$work/said")"
    cat "$work/said" >>"$work/all-said"
}
clock='a clock time (0:00 to 23:59:59.999)'

faulty 'line 5: 09:29:59.000 is before the record before it, at 09:30:00.000' "$start
status at 9:29:59 exchange 2 state firm"
faulty 'line 6: 09:30:00.000 is before the record before it, at 09:30:00.001' "$start
status after 1 exchange 2 state firm
status at 09:30:00.000 exchange 2 state non-firm"
faulty 'line 4: 00:00:00.000 is before the record before it, at 23:59:59.999' "$h
status at 23:59:59.999 exchange 2 state firm

status at 0:00 exchange 2 state firm"

for bad in 24:00 9:60 09:30:60 9:5 09 930 34200000 09:30: 09:30:00. 09:30:00.0000 09:30.5 9:30:5 009:30 -1:00 +9:30 09:30:00,000 9:30am :30 noon firm; do
    faulty "line 2: expected $clock after \"at\", found \"$bad\"" "$h
status at $bad exchange 2 state firm"
done
faulty "line 2: expected $clock after \"at\", found the end of the line" "$h
closing at"
faulty 'line 2: expected a number after "after", found "09:30"' "$h
closing after 09:30"
faulty 'line 2: unknown word "by", expected "after" or "at"' "$h
closing by 09:30"
faulty 'line 2: expected "after" or "at", found the end of the line' "$h
closing"
faulty 'line 2: unknown word "after", expected the end of the line' "$h
closing at 09:30 after 5"
faulty 'line 2: expected a number after "delay", found "0:30"' "$h
trade at 09:30 series 0 price 100 size 12 form none complex no initiator none delay 0:30"

for bad in 24:00 4pm 16:00:00.0000; do
    faulty "line 1: expected $clock or a number after \"close\", found \"$bad\"" "header home 1 exchanges 2 close $bad sizes 10 10 10 10"
done
faulty "line 1: expected $clock or a number after \"close\", found the end of the line" 'header home 1 exchanges 2 close'
faulty 'line 1: refused 3' 'header home 1 exchanges 2 close 0:04:59.999 sizes 10 10 10 10'

# Where the day's time has passed, the line by which it did is refused, also when a clock time follows.
faulty 'line 3: refused 5' "$h
status at 23:59:59.999 exchange 2 state firm
status after 1 exchange 2 state firm
status at 09:30 exchange 2 state firm"
faulty 'line 2: refused 5' "$h
status after 99999999999999999999 exchange 2 state firm
status at 09:30 exchange 2 state firm"

while read -r kind name expected; do
    for bad in purchase Firm P/a 1.0 -1 2x; do
        faulty "line 5: expected $expected or a number after \"$name\", found \"$bad\"" "$start
$(holding "$kind" "$name" "$bad")"
    done
done <<'END_OF_NAMES'
status state firm, non-firm, rotation
trade form none, cross, other
trade complex no, yes
trade initiator none
sent type P/A, principal
sent side buy, sell
received type P/A, principal
received side buy, sell
END_OF_NAMES
faulty 'line 5: expected buy, sell or a number after "side", found the end of the line' "$start
received at 09:30 type P/A from 2 series 0 side"
faulty 'line 5: expected firm, non-firm, rotation or a number after "state", found "buy"' "$start
status at 09:30 exchange 2 state buy"
faulty 'line 5: expected a number after "exchange", found "none"' "$start
status at 09:30 exchange none state firm"
faulty 'line 5: unknown word "prize", expected "price"' "$start
trade at 09:30 series 0 prize 100"

# A batch: what stands in its line and in those below it, and which line is named.
kinds='header, quote, status, trade, sent, response, received, satisfaction, naming, closing, batch, cancellation'
b='batch at 09:30 exchange 2'
faulty 'line 5: expected "exchange", found the end of the line' "$start
batch at 09:30"
faulty 'line 5: unknown word "series", expected the end of the line' "$start
$b $one"
faulty 'line 5: unknown word "count", expected the end of the line' "$start
$b count 2
$one
$two"
faulty 'line 7: unknown word "serie", expected "series" or a kind: '"$kinds" "$start
$b
$one
serie 0 bid 5"
faulty 'line 7: unknown word "serie", expected a kind: '"$kinds" "$start
$b
status at 09:30 exchange 2 state firm
serie 0 bid 5"
faulty 'line 6: expected a number after "series", found "all"' "$start
$b
series all bid 5"
faulty 'line 6: expected a number after "series", found the end of the line' "$start
$b
series"
faulty 'line 7: expected a number after "bid", found "none"' "$start
$b
$one
    series 0 bid none size 0 customers 0 offer 6 size 9 customers 9"
faulty 'line 7: unknown word "after", expected "bid"' "$start
$b
$one
    series 0 after 0 bid 5 size 9 customers 0 offer 6 size 9 customers 9"
faulty 'line 7: unknown word "bid", expected "size"' "$start
$b
$one
    series 0 bid 5 bid 5 size 9 customers 0 offer 6 size 9 customers 9"
faulty 'line 7: expected "customers", found the end of the line' "$start
$b
$one
    series 0 bid 5 size 9 customers 0 offer 6 size 9"
faulty 'line 7: unknown word "series", expected the end of the line' "$start
$b
$one
    $two $two"
faulty 'line 2: expected a batch above "series", found "header"' "$h
    $two"
faulty 'line 8: expected a batch above "series", found "status"' "$start
$b
$one
status at 09:30 exchange 2 state firm
    $two"
faulty 'line 1: expected the header first, found "series"' "$two"
faulty 'line 1: expected the header first, found "batch"' "$b
$two"
faulty 'line 7: a second header' "$start
$b
$one
$h"
# What cannot be read is said first, wherever it stands; of what can, the batch's line is named, for the first of its quotes that is refused.
unfit='series 0 bid 6 size 9 customers 0 offer 6 size 9 customers 9'
beyond='series 32 bid 5 size 9 customers 0 offer 6 size 9 customers 9'
faulty 'line 8: unknown word "prize", expected "bid"' "$start
$b
$unfit
$beyond
series 0 prize 5"
faulty 'line 5: refused 6' "$start
$b
$two
$unfit
$beyond"
faulty 'line 5: refused 5' "$start
$b
$two
$beyond
$unfit"
for bad in 'series 0 bid 1000001 size 9 customers 0 offer 0 size 0 customers 0' 'series 0 bid 5 size 100001 customers 0 offer 0 size 0 customers 0' 'series 268435456 bid 5 size 9 customers 0 offer 0 size 0 customers 0'; do
    faulty 'line 5: refused 5' "$start
$b
$one
$bad"
done
for bad in 0 4; do
    faulty 'line 5: refused 5' "$start
batch at 09:30 exchange $bad
$unfit"
done
faulty 'line 5: refused 5' "$start
batch after 52200000 exchange 2
$unfit"
faulty 'line 8: refused 5' "$start
$b
$one
$two
batch at 09:30 exchange 4
$two"
faulty 'line 7: refused 5' "$start
$b
$one
status at 09:30 exchange 4 state firm"
# How many quotes there are is judged before they are.
faulty 'line 5: refused 5' "$start
$b"
faulty 'line 5: refused 5' "$start
$b
status at 09:30 exchange 2 state firm"
for count in 33 34 1000; do
    faulty 'line 5: refused 5' "$start
$b
$(quotes $count "$unfit")"
    faulty "line 5: a batch has 1 to 32 quotes, each on a line below it that begins with \"series\"; found $count" "$start
$b
$(quotes $count)"
done
faulty 'line 5: a batch has 1 to 32 quotes, each on a line below it that begins with "series"; found 0' "$start
$b"

# ---- what is shown
what='the comment of examples/day-d.day'
tried=$((tried + 1))
cp examples/day-d.day "$work/day"
sed -n 's/^#   //p' examples/day-d.day >"$work/numbers"
encode "$work/day"
encode "$work/numbers"
[ -s "$work/numbers" ] && cmp -s "$work/day.journal" "$work/numbers.journal" || fail 'not the same bytes in numbers'

what='the lines of examples/README.md'
tried=$((tried + 1))
grep -E '^    (header|quote|status|trade|sent|response|received|satisfaction|naming|closing|batch|    series|cancellation) ' examples/README.md | sed 's/^    //' >"$work/shown"
[ "$(sed 's/^ *//' "$work/shown" | cut -d ' ' -f 1 | sort -u | wc -l)" -eq 13 ] || fail 'not a line of each kind'
encode "$work/shown"
decode "$work/shown.journal"
cmp -s "$work/shown" "$work/shown.journal.text" || fail 'not as decode writes them'

what='the faults of examples/README.md'
tried=$((tried + 1))
sed -n 's/^    hasurenta: \(line .*\)/\1/p' examples/README.md >"$work/shown"
[ -s "$work/shown" ] || fail 'none'
while IFS= read -r line; do
    grep -qxF -- "$line" "$work/all-said" || fail "never said: $line"
done <"$work/shown"

echo "text: $tried tries, $wrong wrong"
[ "$wrong" -eq 0 ]
