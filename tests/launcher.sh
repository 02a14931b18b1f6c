#!/bin/sh
# The launcher: each command on the examples and on what must be refused, by name and by standard input. What it writes, what
# it says on standard error and its status are held to what they must be. Builds are tried on a copy with an rt of our own.
set -u
cd "$(dirname "$0")/.." || exit 1
[ "$(uname -m)" = x86_64 ] || { echo 'left out: tests/launcher.sh: the programs are for x86-64'; exit 77; }
work=$(mktemp -d) || exit 1
trap 'rm -rf "$work"' EXIT
tried=0 wrong=0 what=''

fail() {
    echo "launcher: $what: $*"
    wrong=$((wrong + 1))
}

# Every line on standard error has one form, but for a refusal's own line.
formed() {
    grep -v -e '^hasurenta: .' -e '^refused [0-9][0-9]* at [0-9][0-9]*$' "$work/err" >"$work/line" && fail "said in another form: $(cat "$work/line")"
}

# expect STATUS ARGUMENT.. : the launcher with these arguments ends with this status.
expect() {
    wanted=$1
    shift
    what="hasurenta $*"
    tried=$((tried + 1))
    ./hasurenta "$@" >"$work/out" 2>"$work/err"
    got=$?
    [ "$got" -eq "$wanted" ] || fail "status $got, not $wanted; it said: $(cat "$work/err")"
    formed
}

# The words of a refusal's number.
words() { sed -n "s/^$1 | [^|]* | //p" launcher/refusals; }

# What was last written, or said: the bytes of a file, a line, nothing, some words in it, a last line.
wrote_file() { cmp -s "$work/out" "$1" || fail "did not write the bytes of $1"; }
wrote() { printf '%s\n' "$1" >"$work/line"; cmp -s "$work/out" "$work/line" || fail "did not write: $1"; }
wrote_nothing() { [ ! -s "$work/out" ] || fail 'wrote something'; }
said_lines() { printf '%s\n' "$@" >"$work/line"; cmp -s "$work/err" "$work/line" || fail "did not say: $*, but: $(cat "$work/err")"; }
said_nothing() { [ ! -s "$work/err" ] || fail "said something: $(cat "$work/err")"; }
named() { grep -qF -- "$1" "$work/err" || fail "did not name $1"; wrote_nothing; }
hinted() { [ "$(tail -n 1 "$work/err")" = "hasurenta: $1" ] || fail "did not say at last: $1, but: $(cat "$work/err")"; }

# One line, in the launcher's form; behind a line of a text that is refused a second, with the words.
said() {
    case $1 in
    *': refused '*) said_lines "hasurenta: $1" "hasurenta: ${1%: refused *}: $(words "${1##* }")" ;;
    *) said_lines "hasurenta: $1" ;;
    esac
}

# A refusal `refused N at P`, written or, by sheet and decode, said; and its words behind its place in words, which may be none.
in_words() {
    number=${1#refused } number=${number%% *}
    echo "hasurenta: ${2:+$2: }$(words "$number")"
}
refused() { wrote "$1"; said_lines "$(in_words "$@")"; }
refused_aside() { wrote_nothing; said_lines "$1" "$(in_words "$@")"; }

# ---- the examples, there and back
for text in examples/*.day; do
    name=$(basename "$text" .day)
    journal=$work/$name.journal sheet=$work/$name.sheet
    expect 0 encode "$text"; said_nothing; cp "$work/out" "$journal"
    expect 0 encode <"$text"; said_nothing; wrote_file "$journal"
    sed '/^#/d' "$text" >"$work/plain"
    expect 0 decode "$journal"; said_nothing; wrote_file "$work/plain"
    expect 0 decode <"$journal"; wrote_file "$work/plain"; cp "$work/out" "$work/again"
    expect 0 encode "$work/again"; wrote_file "$journal"
    expect 0 day "$journal"; said_nothing; wrote_file "examples/$name.list"
    expect 0 day <"$journal"; wrote_file "examples/$name.list"
    expect 0 day - <"$journal"; wrote_file "examples/$name.list"
    expect 0 sheet "$journal"; said_nothing; cp "$work/out" "$sheet"
    expect 0 sheet <"$journal"; wrote_file "$sheet"
    expect 0 check "$journal" "$sheet"; said_nothing; wrote accepted
    expect 0 check - "$sheet" <"$journal"; wrote accepted
    expect 0 check "$journal" - <"$sheet"; wrote accepted
done
[ "$tried" -ge 168 ] || { what=examples; fail "only $tried tries"; }

d=$work/day-d.journal
printf '\001\002\200\320\273\033\012\012\012\012\001\350\007\002\000\156\024\017\170\024\000\003\000\000\144\014\000\000\000\000\007\350\007\000\002\156\024' >"$work/bytes"
what='encode of Day D'
cmp -s "$d" "$work/bytes" || fail 'not the bytes of document 01'
printf '\000\014\010' >"$work/bytes"
what='sheet of Day D'
cmp -s "$work/day-d.sheet" "$work/bytes" || fail 'not 0, 12, 8'
expect 0 totals "$work/orders.journal"; said_nothing; wrote 'sent 25 filled 6 cancelled 12 pending 7'
expect 0 totals <"$d"; wrote 'sent 0 filled 0 cancelled 0 pending 0'

# In words: every reason, a claim limited at the close, and a day without a Satisfaction Order.
what='encode of examples/reasons.day'
cmp -s "$work/reasons.journal" crates/explain/stdin || fail 'not the journal that explain is run on'
expect 0 explain "$work/reasons.journal"; said_nothing; wrote_file crates/explain/stdout
expect 0 explain <"$work/lock.journal"; wrote 'no Satisfaction Order'

# Beside a sheet it begins with what check says; tests/explain.sh has the rest.
begins() { [ "$(head -n 1 "$work/out")" = "$1" ] || fail "did not begin with: $1"; }
s=$work/day-d.sheet
round='the two files stand the wrong way round: the journal comes first'
expect 0 explain "$d" "$s"; said_nothing; begins accepted
expect 0 explain "$d" - <"$s"; begins accepted
printf '\000\013\011' >"$work/sheet"
expect 1 explain - "$work/sheet" <"$d"; begins 'refused 25 at 0'; said_lines "$(in_words 'refused 25 at 0' 'trade 0')"
expect 1 explain "$s" "$d"; begins 'refused 3 at 0'; hinted "$round"

# From another folder, through a link, with a name that needs quoting.
what='hasurenta day, from elsewhere'
tried=$((tried + 1))
mkdir "$work/a b"
cp "$d" "$work/a b/-d 1"
ln -s "$PWD/hasurenta" "$work/a b/link"
(cd "$work/a b" && ./link day './-d 1' && ./link check './-d 1' ../day-d.sheet) >"$work/out" 2>"$work/err" || fail 'status not 0'
said_nothing
{ cat examples/day-d.list; echo accepted; } >"$work/both"
wrote_file "$work/both"

# ---- a header alone: accepted, and its only sheet is empty
printf '\001\002\200\320\273\033\012\012\012\012' >"$work/header"
: >"$work/empty"
expect 0 sheet "$work/header"; wrote_nothing; said_nothing
expect 0 check "$work/header" "$work/empty"; wrote accepted
expect 0 day "$work/header"; wrote 'event what a b c'

# ---- refused journals and sheets, in numbers and in words
what=launcher/refusals
[ "$(words 25)" = 'the fills do not make the due total' ] || fail 'no words for 25'
printf '\200\000' >"$work/overlong"
awk 'BEGIN { for (i = 0; i < 40000; i++) printf "\001" }' >"$work/long"
for command in day totals explain; do
    expect 1 $command "$work/overlong"; refused 'refused 2 at 0' 'byte 0 of the journal'
    expect 1 $command <"$work/empty"; refused 'refused 2 at 0' 'byte 0 of the journal'
    expect 1 $command "$work/long"; refused 'refused 1 at 0' ''
done
for command in sheet decode; do
    expect 1 $command "$work/overlong"; refused_aside 'refused 2 at 0' 'byte 0 of the journal'
    expect 1 $command <"$work/long"; refused_aside 'refused 1 at 0' ''
done
refused_journal() { # REFUSAL PLACE OCTAL : a record after a header
    # shellcheck disable=SC2059
    { cat "$work/header"; printf "$3"; } >"$work/journal"
    expect 1 day "$work/journal"; refused "$1" "$2"
    expect 1 decode <"$work/journal"; refused_aside "$1" "$2"
    expect 1 check "$work/journal" "$work/empty"; refused "$1" "$2"
}
tenth='the record that starts at byte 10'
refused_journal 'refused 2 at 12' 'byte 12 of the journal' '\002\000\200\000'
refused_journal 'refused 4 at 10' "$tenth" '\144\000'
refused_journal 'refused 4 at 10' "$tenth" '\014\000\000'
# A batch: its count is judged before its quotes are read, which are read before they are judged.
refused_journal 'refused 2 at 13' 'byte 13 of the journal' '\012\000\002'
refused_journal 'refused 5 at 10' "$tenth" '\012\000\002\000'
refused_journal 'refused 5 at 10' "$tenth" '\012\000\002\041'
refused_journal 'refused 2 at 14' 'byte 14 of the journal' '\012\000\000\040'
refused_journal 'refused 2 at 27' 'byte 27 of the journal' '\012\000\003\002\000\001\001\000\001\001\000\040\002\001\000\001\001\200\000'
refused_journal 'refused 6 at 10' "$tenth" '\012\000\002\002\000\001\001\000\001\001\000\040\001\001\000\002\001\000'
refused_journal 'refused 5 at 10' "$tenth" '\012\000\002\002\040\001\001\000\002\001\000\000\001\001\000\001\001\000'
refused_journal 'refused 5 at 10' "$tenth" '\002\000\003\000'
refused_journal 'refused 6 at 10' "$tenth" '\001\000\002\000\001\001\000\001\001\000'
refused_journal 'refused 7 at 10' "$tenth" '\005\000\000\000'
refused_journal 'refused 8 at 1162' 'the record that starts at byte 1162' "$(awk 'BEGIN { for (i = 0; i < 129; i++) printf "\\003\\000\\000\\001\\001\\000\\000\\000\\000" }')"
printf '\003\002\200\320\273\033\012\012\012\012' >"$work/journal"
expect 1 totals "$work/journal"; refused 'refused 3 at 0' 'the header'

refused_sheet() { # REFUSAL PLACE OCTAL [JOURNAL]
    # shellcheck disable=SC2059
    printf "$3" >"$work/sheet"
    expect 1 check "${4:-$d}" "$work/sheet"; refused "$1" "$2"
}
refused_sheet 'refused 20 at 0' 'byte 0 of the sheet' ''
refused_sheet 'refused 20 at 2' 'byte 2 of the sheet' '\000\014'
refused_sheet 'refused 20 at 1' 'byte 1 of the sheet' '\000\200\000\010'
refused_sheet 'refused 20 at 3' 'byte 3 of the sheet' '\000\014\010\000'
refused_sheet 'refused 21 at 0' 'line 0 of the sheet' '\000\014\007'
refused_sheet 'refused 22 at 0' 'line 0 of the sheet' '\013\000\024'
refused_sheet 'refused 24 at 0' 'line 0 of the sheet' '\000\015\007'
refused_sheet 'refused 25 at 0' 'trade 0' '\000\013\011'
refused_sheet 'refused 21 at 2' 'line 2 of the sheet' '\000\010\026\000\006\030\000\006\031' "$work/shared-out.journal"
refused_sheet 'refused 26 at 0' 'trade 0' '\000\010\026\000\006\030\000\006\030' "$work/shared-out.journal"
awk 'BEGIN { printf "\014\014\010"; for (i = 0; i < 70000; i++) printf "\001" }' >"$work/sheet"
expect 1 check "$d" "$work/sheet"; refused 'refused 20 at 3' 'byte 3 of the sheet'
expect 1 check "$work/overlong" "$work/sheet"; refused 'refused 2 at 0' 'byte 0 of the journal'
expect 1 check "$work/long" "$work/sheet"; refused 'refused 1 at 0' ''

# ---- something else handed in than was asked for
a_text='this is a text; hasurenta encode makes a journal of it'
a_sheet='this reads as a sheet, and a journal is asked for'
for command in day totals explain sheet decode; do
    for text in examples/*.day; do
        expect 1 $command "$text"; hinted "$text: $a_text"
    done
    expect 1 $command <examples/day-d.day; hinted "standard input: $a_text"
    for name in day-d reasons shared-out; do
        expect 1 $command "$work/$name.sheet"; hinted "$work/$name.sheet: $a_sheet"
    done
    expect 1 $command - <"$s"; hinted "standard input: $a_sheet"
done
expect 1 check "$s" "$d"; hinted "$round"
expect 1 check - "$d" <"$s"; hinted "$round"
expect 1 check "$s" "$work/reasons.journal"; hinted "$round"
expect 1 check "$work/empty" "$work/lock.journal"; hinted "$round"
expect 1 check "$d" "$d"; hinted "$d: this is a journal, and a sheet is asked for"
expect 1 check "$work/overlong" "$d"; hinted "$d: this is a journal, and a sheet is asked for"
expect 1 check examples/day-d.day "$s"; hinted "examples/day-d.day: $a_text"
expect 1 check "$d" examples/day-d.day; hinted 'examples/day-d.day: this is a text, and a sheet is asked for'
echo '0 12 8' >"$work/text"
expect 1 check "$d" "$work/text"; hinted "$work/text: this is a text, and a sheet is asked for"
expect 1 sheet examples/day-d.list; hinted 'examples/day-d.list: this is a text, and a journal is asked for'
# Bytes that could be a text, but are a reason, filled and cancelled: 9, 10, 10.
printf '\011\012\012' >"$work/sheet"
expect 1 check "$d" "$work/sheet"; refused 'refused 22 at 0' 'line 0 of the sheet'
for name in "$d" "$s" "$work/reasons.journal" "$work/reasons.sheet"; do
    expect 1 encode "$name"; wrote_nothing; hinted "$name: this is no text; hasurenta decode makes one of a journal"
done
# Numbers of a header that reads in threes, refused for its close: no sheet.
printf '\002\003\001\012\012\012\012\012\012' >"$work/journal"
expect 1 day "$work/journal"; refused 'refused 3 at 0' 'the header'

# ---- faults of a text, by its line
faulty() { # SAID TEXT
    # shellcheck disable=SC2059
    printf "$2" >"$work/text"
    expect 1 encode "$work/text"; wrote_nothing; said "$1"
}
h='header home 1 exchanges 2 close 57600000 sizes 10 10 10 10'
q='quote after 1000 exchange 2 series 0 bid 110 size 20 customers 15 offer 120 size 20 customers 0'
faulty 'line 4: unknown word "prize", expected "price"' "$h\n$q\n\ntrade after 0 series 0 prize 100 size 12 form 0 complex 0 initiator 0 delay 0\n"
faulty 'line 2: expected a number after "series", found "zero"' "$h\nquote after 1 exchange 2 series zero\n"
faulty 'line 2: expected a number after "after", found the end of the line' "$h\nstatus after"
faulty 'line 2: expected "state", found the end of the line' "$h\nstatus after 0 exchange 2\n"
faulty 'line 3: unknown word "now", expected the end of the line' "$h\n# so far good\nstatus after 0 exchange 2 state 1 now\n"
faulty 'line 2: unknown word "qoute", expected a kind: header, quote, status, trade, sent, response, received, satisfaction, naming, closing, batch, cancellation' "$h\nqoute after 0\n"
faulty 'line 1: expected the header first, found "status"' 'status after 0 exchange 2 state 1\n'
faulty 'line 3: a second header' "$h\n\n$h\n"
faulty 'line 1: expected 4 sizes, found 3' 'header home 1 exchanges 2 close 57600000 sizes 10 10 10\n'
faulty 'line 1: unknown word "size", expected "sizes"' 'header home 1 exchanges 2 close 57600000 size 10 10 10 10\n'
faulty 'line 1: refused 3' 'header home 1 exchanges 9 close 57600000 sizes 10 10 10 10\n'
faulty 'line 1: refused 3' 'header home 3 exchanges 2 close 57600000 sizes 10 10 10 10\n'
faulty 'line 2: expected a header, found the end of the text' '# nothing\n\n'
faulty 'line 0: expected a header, found the end of the text' ''
faulty 'line 3: refused 5' "$h\n$q\nstatus after 0 exchange 3 state 1\n"
faulty 'line 2: refused 5' "$h\nstatus after 0 exchange 2 state 99999999999999999999\n"
faulty 'line 3: refused 5' "$h\nstatus after 86399999 exchange 2 state 1\nstatus after 1 exchange 2 state 1\n"
faulty 'line 2: refused 6' "$h\nquote after 0 exchange 2 series 0 bid 120 size 1 customers 0 offer 120 size 1 customers 0\n"
faulty 'line 4: refused 7' "$h\n$q\n# none was sent\nresponse after 0 order 0 filled 0\nresponse after 0 order 1 filled 0\n"
faulty 'line 2: refused 7' "$h\nresponse after 0 order 0 filled 0\nstatus after 0 exchange 3 state 1\n"
faulty 'line 4: refused 7' "$h\nclosing after 0\n$q\nclosing after 1\n"
faulty 'line 2: expected a number after "after", found the end of the line' "$h\nclosing after"
faulty 'line 2: unknown word "series", expected the end of the line' "$h\nclosing after 0 series 0\n"
# Whom a record may name that cancels a Satisfaction Order, and that it does so once, in time or late.
t='trade after 0 series 0 price 100 size 12 form 0 complex 0 initiator'
f='satisfaction after 1 trade 0 from 2 price 110 size 5'
faulty 'line 4: refused 7' "$h\n$t 2 delay 0\n$f\nnaming after 0 claim 1 exchange 2\n"
faulty 'line 4: refused 7' "$h\n$t 0 delay 0\n$f\nnaming after 0 claim 0 exchange 2\n"
faulty 'line 4: refused 7' "$h\n$t 2 delay 0\n$f\nnaming after 0 claim 0 exchange 1\n"
faulty 'line 4: refused 5' "$h\n$t 2 delay 0\n$f\nnaming after 0 claim 0 exchange 0\n"
faulty 'line 4: refused 5' "$h\n$t 2 delay 0\n$f\nnaming after 0 claim 1 exchange 3\n"
for late in 0 180001; do
    faulty 'line 5: refused 7' "$h\n$t 2 delay 0\n$f\nnaming after $late claim 0 exchange 2\nnaming after 0 claim 0 exchange 2\n"
done
faulty 'line 2: unknown word "order", expected "claim"' "$h\nnaming after 0 order 0 exchange 2\n"
# Which order a cancellation may be for, and until when: one that is there, priced as for a block where there was none, up to three minutes old.
p='satisfaction after 1 trade 0 from 2 price 100 size 5'
c='cancellation after 0 claim'
n='naming after 0 claim 0 exchange 2'
block='quote after 0 exchange 2 series 0 bid 310 size 20 customers 15 offer 0 size 0 customers 0\ntrade after 0 series 0 price 300 size'
faulty 'line 4: refused 7' "$h\n$t 0 delay 0\n$p\n$c 1\n"
faulty 'line 4: refused 7' "$h\n$t 0 delay 0\n$f\n$c 0\n"
faulty 'line 4: refused 7' "$h\n$t 0 delay 0\n$p\ncancellation after 180001 claim 0\n"
faulty 'line 5: refused 7' "$h\n$block 500 form 1 complex 0 initiator 0 delay 0\nsatisfaction after 1 trade 0 from 2 price 300 size 5\n$c 0\n"
faulty 'line 5: refused 5' "$h\n$block 499 form 1 complex 0 initiator 0 delay 0\nsatisfaction after 1 trade 0 from 2 price 300 size 5\n$c 268435456\n"
# Cancelled is cancelled, by either record; and only a cancellation lets its exchange send again, once.
faulty 'line 5: refused 7' "$h\n$t 2 delay 0\n$p\n$c 0\n$c 0\n"
faulty 'line 5: refused 7' "$h\n$t 2 delay 0\n$p\n$c 0\n$n\n"
for late in 0 180001; do
    faulty 'line 5: refused 7' "$h\n$t 2 delay 0\n$p\nnaming after $late claim 0 exchange 2\n$c 0\n"
done
faulty 'line 4: refused 7' "$h\n$t 2 delay 0\n$p\n$f\n$c 0\n"
faulty 'line 5: refused 7' "$h\n$t 2 delay 0\n$p\n$n\n$f\n"
faulty 'line 6: refused 7' "$h\n$t 2 delay 0\n$p\n$c 0\n$f\n$f\n"
faulty 'line 6: refused 7' "$h\n$t 2 delay 0\n$p\n$c 0\n$p\n$c 1\n"
faulty 'line 2: unknown word "order", expected "claim"' "$h\ncancellation after 0 order 0\n"
faulty 'line 2: unknown word "exchange", expected the end of the line' "$h\ncancellation after 0 claim 0 exchange 2\n"
# A batch: 1 to 32 quotes on the lines below it, and where there are more, or none, how many were found is said.
b='batch after 0 exchange 2'
quotes() { awk -v n="$1" 'BEGIN { while (n-- > 0) printf "    series 0 bid 110 size 20 customers 15 offer 120 size 20 customers 0\\n" }'; }
printf '\012\000\002\001\000\156\024\017\170\024\000' >"$work/bytes"
# shellcheck disable=SC2059
printf "$h\n$b\n$(quotes 1)" >"$work/text"
expect 0 encode "$work/text"; said_nothing; cp "$work/out" "$work/journal"
cat "$work/header" "$work/bytes" >"$work/both"
expect 0 encode <"$work/text"; wrote_file "$work/both"
expect 0 day "$work/journal"; wrote 'event what a b c'
for count in 0 33 20000; do
    # shellcheck disable=SC2059
    printf "$h\n$q\n$b\n$(quotes $count)$q\n" >"$work/text"
    expect 1 encode "$work/text"; wrote_nothing
    said_lines 'hasurenta: line 3: refused 5' "hasurenta: line 3: $(words 5)" "hasurenta: line 3: a batch has 1 to 32 quotes, each on a line below it that begins with \"series\"; found $count"
done
faulty 'line 3: refused 5' "$h\n$q\nbatch after 0 exchange 3\n$(quotes 32)"
faulty 'line 3: refused 6' "$h\n$q\n$b\n$(quotes 1)series 0 bid 120 size 1 customers 0 offer 120 size 1 customers 0\n"
faulty 'line 5: refused 7' "$h\n$b\n$(quotes 2)response after 0 order 0 filled 0\n"
faulty 'line 4: unknown word "serie", expected "series" or a kind: header, quote, status, trade, sent, response, received, satisfaction, naming, closing, batch, cancellation' "$h\n$b\n$(quotes 1)serie 1\n"
faulty 'line 3: expected a batch above "series", found "quote"' "$h\n$q\n$(quotes 1)"
faulty 'line 2: unknown word "-", expected a kind: header, quote, status, trade, sent, response, received, satisfaction, naming, closing, batch, cancellation' "$h\n- after 0\n"
awk -v h="$h" -v q="$q" 'BEGIN { print h; for (i = 0; i < 3000; i++) print q }' >"$work/text"
expect 1 encode "$work/text"; wrote_nothing; named 'refused 1'
# More lines than any journal has records.
awk -v h="$h" 'BEGIN { print h; for (i = 0; i < 20000; i++) print "closing after 0" }' >"$work/text"
expect 1 encode "$work/text"; wrote_nothing; said 'line 16381: refused 1'
printf '  header\thome 01 exchanges 2 close 57600000 sizes 10 10 10 0000000000010 # all in one line\r\n\r\n' >"$work/text"
expect 0 encode "$work/text"; wrote_file "$work/header"

# ---- more than is needed ends at once, and takes no more
# bounded COMMAND.. : runs it, but no longer than a minute.
bounded() {
    { "$@" <&3 & } 3<&0
    started=$!
    (sleep 60 & wait $!; kill "$started") >/dev/null 2>&1 &
    watchdog=$!
    wait "$started"
    got=$?
    kill "$watchdog" 2>/dev/null
    return "$got"
}

# What takes in a megabyte more than it must is ended by that.
sparing() {
    ulimit -f 6144
    exec ./hasurenta "$@"
}

# endless STATUS ARGUMENT.. : as expect, of an input without end.
endless() {
    wanted=$1
    shift
    what="hasurenta $*, of an endless input"
    tried=$((tried + 1))
    bounded sparing "$@" </dev/zero >"$work/out" 2>"$work/err"
    got=$?
    [ "$got" -eq "$wanted" ] || fail "status $got, not $wanted"
    formed
}
too_long='longer than 2097152 bytes, more than the text of a journal needs'
endless 1 encode; wrote_nothing; said "standard input: $too_long"
endless 1 encode /dev/zero; said "/dev/zero: $too_long"
endless 1 day; refused 'refused 1 at 0' ''
endless 1 decode -; refused_aside 'refused 1 at 0' ''
endless 1 check - "$s"; refused 'refused 1 at 0' ''
endless 1 check "$d" -; refused 'refused 20 at 3' 'byte 3 of the sheet'
awk 'BEGIN { while (i++ < 2200000) printf "y" }' >"$work/text"
expect 1 encode "$work/text"; wrote_nothing; said "$work/text: $too_long"
# As long as it may be: comments up to the last byte.
{ cat examples/day-d.day; awk -v n="$((2097152 - $(wc -c <examples/day-d.day) - 1))" 'BEGIN { while (i++ < n) printf "#"; print "" }'; } >"$work/text"
expect 0 encode "$work/text"; said_nothing; wrote_file "$d"
echo >>"$work/text"
expect 1 encode "$work/text"; wrote_nothing

# ---- help
expect 0 --help; said_nothing; cp "$work/out" "$work/all"
expect 0 help; wrote_file "$work/all"
grep -q 'docs/NUMBERS.md' "$work/all" || fail 'does not name docs/NUMBERS.md'
[ "$(wc -l <"$work/all")" -le 30 ] || fail 'is more than a screen'
mkdir "$work/root"
ln -s "$PWD/hasurenta" "$PWD/examples" "$work/root/"
for command in day totals explain sheet check encode decode; do
    expect 0 $command --help; said_nothing; cp "$work/out" "$work/help"
    expect 0 $command -h; wrote_file "$work/help"
    expect 0 $command "$d" --help; wrote_file "$work/help"
    expect 0 help $command; wrote_file "$work/help"
    grep -q "^hasurenta $command " "$work/help" || fail 'does not name itself'
    grep -q '^Exit status: 0 accepted, 1 refused' "$work/help" || fail 'has no exit status'
    grep -q "^  hasurenta $command " "$work/all" || fail 'stands not in the help of all'
    sed -n 's/^    //p' "$work/help" >"$work/example"
    grep -q "hasurenta $command\( \|\$\)" "$work/example" || fail 'has no example of its own'
    (cd "$work/root" && sh -e "$work/example") >"$work/out" 2>"$work/err" || fail 'has an example that does not run'
    said_nothing
done
expect 0 encode --help
grep -q '2097152 bytes' "$work/out" || fail 'does not say how much is taken'
expect 2 help wash; said 'wash: no such command; hasurenta --help says more'
expect 2 help ../refusals; wrote_nothing

# ---- what cannot be run
for command in day totals explain sheet encode decode; do
    expect 2 $command "$work/not there"; wrote_nothing; said "$work/not there: No such file or directory"
    expect 2 $command "$work"; wrote_nothing; said "$work: Is a directory"
    expect 2 $command <"$work"; wrote_nothing; said 'standard input: Is a directory'
    expect 2 $command ''; wrote_nothing; named 'named by nothing'
done
for command in day totals sheet encode decode; do
    expect 2 $command "$d" "$d"; named "$command takes one file at most, found 2"
done
for command in check explain; do
    expect 2 $command "$work/not there" "$d"; named "$work/not there: No such file or directory"
    expect 2 $command "$d" "$work"; named "$work: Is a directory"
    expect 2 $command "$d" ''; wrote_nothing
    expect 2 $command "$d" "$d" "$d"; named 'found 3 files'
    expect 2 $command - - <"$d"; wrote_nothing
done
expect 2 check "$d"; named 'found 1 files'
expect 2 wash; named 'wash: no such command'
expect 2; wrote_nothing; named 'no command is named'

what='hasurenta day, with no room on standard output'
if [ -c /dev/full ]; then
    tried=$((tried + 1))
    ./hasurenta day "$d" >/dev/full 2>"$work/err"
    [ $? -eq 2 ] || fail 'status not 2'
    said 'standard output: No space left on device'
fi

# A program that is built needs no kit.
what='hasurenta day, with no kit'
tried=$((tried + 1))
(RATTLE_HOME=$work/nothing; export RATTLE_HOME; ./hasurenta day "$d") >"$work/out" 2>"$work/err" || fail 'status not 0'
said_nothing
wrote_file examples/day-d.list

# ---- builds, on a copy with an rt of our own: it says when it is run twice at once, takes a while, and copies the program that is
# built. It ends with 1, as rt does where the program that it runs does so.
bare=$work/bare
new_copy() {
    rm -rf "$bare"
    mkdir -p "$bare/bin"
    for name in day totals explain encode; do mkdir -p "$bare/crates/$name"; done
    cp -R hasurenta launcher "$bare/"
    printf 'rules:\nrows: rules # a row\nother staticlib: rules\nday: rows libc\ntotals: rows\nexplain opt_level=1: rows\n' >"$bare/crates.txt"
    cat >"$bare/bin/rt" <<END_RT
#!/bin/sh
[ "\$*" = run ] || { echo "not run: \$*"; exit 2; }
name=\$(basename "\$PWD")
cd ../..
mkdir busy 2>/dev/null || echo "\$name" >>twice
echo "\$name" >>ran
mkdir -p crates/rules/out/rlib crates/rows/out/rlib "crates/\$name/out"
: >crates/rules/out/rlib/stamp
: >crates/rows/out/rlib/stamp
. ./turn
cp "$PWD/crates/\$name/out/\$name" "crates/\$name/out/"
sleep 1
: >"crates/\$name/out/\$name.stamp"
rmdir busy
exit 1
END_RT
    chmod +x "$bare/bin/rt"
    echo 'sleep 1' >"$bare/turn"
}

# The copy's launcher takes the place of this process.
copy() {
    unset RATTLE_HOME
    PATH=$bare/bin:$PATH
    exec "$bare/hasurenta" "$@"
}

# from_copy NAME ARGUMENT.. : what the copy's launcher writes, what it says and its status are kept under the name.
from_copy() {
    kept=$work/$1
    shift
    rm -f "$kept.status"
    bounded copy "$@" >"$kept.out" 2>"$kept.err"
    echo $? >"$kept.status"
}

# The last one to be looked at.
ended() { # NAME STATUS
    tried=$((tried + 1))
    cp "$work/$1.out" "$work/out"
    cp "$work/$1.err" "$work/err"
    [ "$(cat "$work/$1.status")" -eq "$2" ] || fail "status $(cat "$work/$1.status"), not $2; it said: $(cat "$work/err")"
}

no_flag() { [ -z "$(ls "$bare/target/building")" ] || fail "left a flag: $(ls "$bare/target/building")"; }
ran() { [ "$(sort "$bare/ran" | tr '\n' ' ')" = "$1 " ] || fail "rt was run for: $(cat "$bare/ran")"; }
starting='proving and building day, once: 3 crates, which can take some minutes'
waiting='another build goes on in this folder'

what='a build'
new_copy
from_copy one day "$d"; ended one 0; wrote_file examples/day-d.list; said "$starting"; ran day; no_flag
from_copy one day "$d"; ended one 0; wrote_file examples/day-d.list; said_nothing; ran day

what='a program that is linked and has no stamp'
rm "$bare/crates/day/out/day.stamp"
from_copy one day "$d"; ended one 0; wrote_file examples/day-d.list; ran 'day day'

what='a program that rt ci has run'
rm "$bare/crates/day/out/day.stamp"
cp crates/day/stdout "$bare/crates/day/"
cp crates/day/stdout "$bare/crates/day/out/"
from_copy one day "$d"; ended one 0; wrote_file examples/day-d.list; said_nothing; ran 'day day'

what='a program that wrote something else when rt ci ran it'
echo other >"$bare/crates/day/out/stdout"
from_copy one day "$d"; ended one 0; wrote_file examples/day-d.list; said "$starting"; ran 'day day day'

what='a program that is gone, where rt ci had run it'
rm "$bare/crates/day/out/day" "$bare/crates/day/out/day.stamp"
cp crates/day/stdout "$bare/crates/day/out/"
from_copy one day "$d"; ended one 0; wrote_file examples/day-d.list; said "$starting"; ran 'day day day day'
[ ! -e "$bare/crates/day/out/stdout" ] || fail 'left what the earlier program wrote'

what='a build with no kit'
new_copy
tried=$((tried + 1))
(RATTLE_HOME=$work/nothing; export RATTLE_HOME; "$bare/hasurenta" day "$d") >"$work/out" 2>"$work/err"
[ $? -eq 2 ] || fail 'status not 2'
named "$work/nothing"
formed

what='five starts at once'
new_copy
for name in one two three four five; do
    case $name in two | four) command=totals ;; *) command=day ;; esac
    from_copy $name $command "$d" &
done
wait
[ ! -e "$bare/twice" ] || fail 'rt was run twice at the same time'
ran 'day totals'
no_flag
for name in one two three four five; do
    ended $name 0
    formed
    case $name in two | four) wrote 'sent 0 filled 0 cancelled 0 pending 0' ;; *) wrote_file examples/day-d.list ;; esac
    [ "$(grep -c "$waiting" "$work/err")" -le 1 ] || fail 'said more than once that it waits'
done
[ "$(cat "$work"/one.err "$work"/two.err "$work"/three.err "$work"/four.err "$work"/five.err | grep -c "$waiting")" -ge 1 ] || fail 'nobody said that it waits'

what='the first command of README'
new_copy
printf 'encode: rows\n' >>"$bare/crates.txt"
{ (copy encode examples/day-d.day) | (copy day); } >"$work/out" 2>"$work/err"
tried=$((tried + 1))
wrote_file examples/day-d.list
[ ! -e "$bare/twice" ] || fail 'rt was run twice at the same time'
ran 'day encode'

# Waits until a file has some words, at most a minute.
until_said() {
    patience=60
    until grep -qs "$2" "$1"; do
        patience=$((patience - 1))
        [ "$patience" -gt 0 ] || { fail "$1 never had: $2"; return; }
        sleep 1
    done
}

what='a flag whose process is gone'
new_copy
(exit 0) &
gone=$!
wait "$gone"
mkdir -p "$bare/target/building"
echo "$gone" >"$bare/target/building/$gone.left"
from_copy one day "$d"; ended one 0; said "$starting"; no_flag

what='a flag whose process has ended and was not waited for'
if [ -r /proc/self/stat ]; then
    new_copy
    # shellcheck disable=SC2016
    sh -c '(exit 0) & echo $! >"$0"; exec sleep 300' "$work/ended" &
    parent=$!
    until_said "$work/ended" .
    mkdir -p "$bare/target/building"
    : >"$bare/target/building/$(cat "$work/ended").left"
    from_copy one day "$d"; ended one 0; said "$starting"; no_flag
    kill "$parent"
else
    echo "left out: tests/launcher.sh: $what: there is no /proc"
fi

what='a flag with our own process number'
new_copy
mkdir -p "$bare/target/building"
mv "$bare/hasurenta" "$bare/launched"
# shellcheck disable=SC2016
printf '#!/bin/sh\n: >"%s/target/building/$$.left"\nexec "%s/launched" "$@"\n' "$bare" "$bare" >"$bare/hasurenta"
chmod +x "$bare/hasurenta"
from_copy one day "$d"; ended one 0; said "$starting"; no_flag

what='a launcher that was killed, whose rt goes on'
new_copy
sleep 300 &
going=$!
mkdir -p "$bare/target/building"
echo "$going" >"$bare/target/building/$gone.left"
from_copy one day "$d" &
until_said "$work/one.err" "$waiting, process $gone; waiting until it has ended"
[ ! -e "$bare/ran" ] || fail 'did not wait'
kill "$going"
wait
ended one 0; said_lines "$(grep "$waiting" "$work/err")" "hasurenta: $starting"; no_flag

for signal in TERM HUP; do
    what="a build that is ended by $signal"
    # a shell cannot trap what it was started to ignore, as nohup has it
    # shellcheck disable=SC2016
    if sh -c 'kill -s "$0" $$; exit 0' $signal 2>/dev/null; then
        echo "left out: tests/launcher.sh: $what: it is ignored here"
        continue
    fi
    new_copy
    # shellcheck disable=SC2016
    echo 'sleep 300 & echo $! >prover; wait' >"$bare/turn"
    copy day "$d" >"$work/one.out" 2>"$work/one.err" &
    started=$!
    until_said "$bare/prover" .
    kill -s $signal "$started"
    wait "$started"
    echo $? >"$work/one.status"
    ended one 2; wrote_nothing; formed; hinted 'the build was ended; the crates that were proved so far are kept'
    ! kill -s 0 "$(cat "$bare/prover")" 2>/dev/null || fail 'left a prover running'
    no_flag
    rmdir "$bare/busy"
    echo 'sleep 1' >"$bare/turn"
    from_copy one day "$d"; ended one 0; said "$starting"
done

what='progress, elsewhere than on a terminal'
new_copy
echo 'sleep 8' >"$bare/turn"
echo 0 >"$bare/clock"
# a clock that is twenty seconds on each time it is asked
printf '#!/bin/sh\nread -r now <"%s"\necho $((now + 20)) >"%s"\necho "$now"\n' "$bare/clock" "$bare/clock" >"$bare/bin/date"
chmod +x "$bare/bin/date"
from_copy one day "$d"; ended one 0; formed
grep -q '^hasurenta: building day: 2 of 3 crates proved, 40 s so far$' "$work/err" || fail "did not say how far it is at 40 s: $(cat "$work/err")"
grep -q '^hasurenta: building day: [23] of 3 crates proved, 80 s so far$' "$work/err" || fail "did not say how far it is at 80 s: $(cat "$work/err")"
! grep -q ' 20 s so far' "$work/err" || fail 'said too often how far it is'

what='progress on a terminal'
if script -qec true /dev/null >/dev/null 2>&1 </dev/null; then
    new_copy
    tried=$((tried + 1))
    (unset RATTLE_HOME; PATH=$bare/bin:$PATH; export PATH; script -qec "'$bare/hasurenta' day '$d'" /dev/null) </dev/null >"$work/out" 2>&1
    tr '\r' '\n' <"$work/out" | grep -q '^hasurenta: building day: [23] of 3 crates proved, [0-9]* s so far *$' || fail "did not say how far it is: $(cat "$work/out")"
    tr -d '\r' <"$work/out" | tail -n 3 | cmp -s - examples/day-d.list || fail 'did not print the day'
else
    echo 'left out: tests/launcher.sh: progress on a terminal: there is no script'
fi

what='a build that fails'
new_copy
echo 'echo "no proof of $name"; exit 1' >"$bare/turn"
from_copy one day "$d"; ended one 2; named 'no proof of day'; hinted 'day could not be built'; no_flag
[ ! -e "$bare/crates/day/out/day" ] || fail 'left a program'

what='a launcher without its folder'
new_copy
rm -r "$bare/launcher"
from_copy one day "$d"; ended one 2; formed; named "$bare/launcher/build.sh: not there"

echo "launcher: $tried tries, $wrong wrong"
[ "$wrong" -eq 0 ]
