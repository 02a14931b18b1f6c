# What else there is to say of a refusal: its words, and where something else was handed in than was asked for, what it is.
# All of it is said beside a refusal, never of what was accepted.

# words_of NUMBER [PLACE] : what a refusal's number means, behind its place in words where that is given.
words_of() {
    awk -F ' [|] ' -v number="$1" -v place="${2:-}" '
        $1 == number {
            where = $2
            sub(/P/, place, where)
            print (place == "" || where == "-" ? "" : where ": ") $3
            found = 1
        }
        END { if (!found) print "refusal " number " has no words" }' "$here/launcher/refusals"
}

# say_refusal 'refused N at P'
say_refusal() {
    # shellcheck disable=SC2086
    set -- $1
    say "$(words_of "$2" "$4")"
}

# A journal has a control character, home's number in its first byte; so has every good sheet that is not empty, the 0 of a reason
# or of what is filled for one.
is_text() { [ -s "$1" ] && [ "$(tr -d '\011\012\015\040-\377' <"$1" | wc -c)" -eq 0 ]; }

is_text_of_a_day() { is_text "$1" && awk '$1 == "header" { found = 1; exit } END { exit !found }' "$1"; }

# Whole numbers in threes, each first one a reason, for no more Satisfaction Orders than there may be; and not home's number and how
# many exchanges there are, with which a journal begins.
reads_as_sheet() {
    od -A n -v -t u1 "$1" | awk '
        function is_reason(n) { return n == 0 || (n >= 2 && n <= 15) }
        function take(n) {
            count++
            if (count <= 2) front[count] = n
            if (count % 3 == 1 && !is_reason(n)) unfit = 1
        }
        BEGIN { weight = 1 }
        {
            for (i = 1; i <= NF; i++) {
                groups++
                number += $i % 128 * weight
                weight *= 128
                if ($i >= 128) continue
                if (groups > 4 || (groups > 1 && $i == 0)) unfit = 1
                take(number)
                groups = 0; number = 0; weight = 1
            }
        }
        END {
            heads = front[1] >= 1 && front[1] <= front[2] && front[2] <= 8
            exit !(count && count % 3 == 0 && count <= 3 * 512 && !groups && !unfit && !heads)
        }'
}

hint_journal() {
    if is_text_of_a_day "$work/journal"; then say "$journal: this is a text; hasurenta encode makes a journal of it"
    elif reads_as_sheet "$work/journal"; then say "$journal: this reads as a sheet, and a journal is asked for"
    elif is_text "$work/journal"; then say "$journal: this is a text, and a journal is asked for"
    fi
}

# refusal_of PROGRAM JOURNAL SHEET : the number with which the program refuses the two, or nothing where it accepts them.
refusal_of() {
    run "$@"
    number=1
    IFS= read -r first <"$work/answer"
    case $first in
    accepted) number='' ;;
    'refused '*) first=${first#refused } number=${first%% *} ;;
    esac
}

# hint_pair PROGRAM NUMBER : of a journal and a sheet that were refused with this number. Below 20 it is the journal's: so the program
# itself tells whether the sheet is a journal, when it is handed in as one.
hint_pair() {
    if [ "$2" -ge 20 ]; then
        refusal_of "$1" "$work/sheet" "$work/sheet"
        if [ "${number:-20}" -ge 20 ]; then say "$sheet: this is a journal, and a sheet is asked for"
        elif is_text "$work/sheet" && ! reads_as_sheet "$work/sheet"; then say "$sheet: this is a text, and a sheet is asked for"
        fi
        return
    fi
    refusal_of "$1" "$work/sheet" "$work/journal"
    if [ "${number:-21}" -gt 20 ] || { [ "$number" -eq 20 ] && reads_as_sheet "$work/journal"; }; then
        say 'the two files stand the wrong way round: the journal comes first'
        return
    fi
    hint_journal
    [ "$number" -ne 20 ] || say "$sheet: this is a journal, and a sheet is asked for"
}

# hint_batch 'line N: refused R' : of a batch with fewer quotes than one, or more than it may have. A line of numbers is the line in the
# text, kind, milliseconds and fields; a batch's second field is the count.
hint_batch() {
    [ "${1##* }" -eq 5 ] || return 0
    count=$(awk -v line="${1%%:*}" 'NR > 1 && "line " $1 == line && $2 == 10 { print $5; exit }' "$work/numbers")
    [ "${count:-1}" -ge 1 ] && [ "${count:-1}" -le 32 ] || say "${1%%:*}: a batch has 1 to 32 quotes, each on a line below it that begins with \"series\"; found $count"
}

hint_text() {
    [ ! -s "$work/text" ] || is_text "$work/text" || say "$text: this is no text; hasurenta decode makes one of a journal"
}
