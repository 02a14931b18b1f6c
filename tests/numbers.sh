#!/bin/sh
# docs/NUMBERS.md, the launcher's words and the definitions name the same numbers:
# - each refusal of crates/rules/specs/Refusals.antt, and no other, stands in launcher/refusals and on the page, in the same words;
# - each reason that crates/rules/specs/Reasons.antt can give, and 0, and no other, stands on the page, and its rule in the words of explain; the
#   same are taken for a reason by launcher/hints.sh;
# - each reason of a line R that crates/rules/specs/Verdicts.antt can give, and no other, stands on the page and in the help of `day`;
# - each letter that crates/rules/specs/PrintedDay.antt prints, and each kind of crates/rules/specs/Record.antt, and no other, stands on the page.
set -u
cd "$(dirname "$0")/.." || exit 1
page=docs/NUMBERS.md table=launcher/refusals specs=crates/rules/specs
found=$(mktemp -d) || exit 1
trap 'rm -rf "$found"' EXIT
wrong=0 looked=0

# same WHAT FILE FILE : two lists that must be one, and not empty.
same() {
    looked=$((looked + $(wc -l <"$2")))
    if [ -s "$2" ] && cmp -s "$2" "$3"; then return; fi
    echo "numbers: $1:"
    diff "$2" "$3"
    wrong=$((wrong + 1))
}

# The rows of the table under a heading of the page, without its head.
rows() { awk -v heading="## $1" '/^## / { on = $0 == heading } on && /^\| / && !/^\|---/ { if (rows++) print }' "$page"; }
first_column() { sed 's/^| \([^ ]*\) | .*/\1/' | sort; }

grep -o '= [0-9][0-9]*$' "$specs/Refusals.antt" | tr -d '= ' | sort >"$found/defined"
sed -n 's/^\([0-9][0-9]*\) | .*/\1/p' "$table" | sort >"$found/worded"
same 'refusals defined, and those of the launcher' "$found/defined" "$found/worded"
grep -v '^#' "$table" | sort >"$found/words"
rows Refusals | sed 's/^| \([^|]* | [^|]* | [^|]*\) | [^|]* |$/\1/' | sort >"$found/page"
same "the launcher's words, and those of the page" "$found/words" "$found/page"

{ awk '/^reason_rows h k =/ { on = 1 } on' "$specs/Reasons.antt" | grep -o '[0-9][0-9]* when ' | tr -d ' when'; echo 0; } | sort >"$found/given"
rows Reasons | first_column >"$found/told"
same 'reasons defined, and those of the page' "$found/given" "$found/told"
awk "$(sed -n 's/^ *\(function is_reason\)/\1/p' launcher/hints.sh)
    BEGIN { for (n = 0; n < 1000; n++) if (is_reason(n)) print n }" | sort >"$found/taken"
same 'reasons defined, and those that the launcher takes for one' "$found/given" "$found/taken"
rows Reasons | sed 's/.* | \([^|]*\) |$/\1/' >"$found/rules"
while read -r rule; do
    looked=$((looked + 1))
    grep -qF "$rule" crates/explain/src/*.rt || { echo "numbers: explain names no rule $rule"; wrong=$((wrong + 1)); }
done <"$found/rules"

{
    awk '/^no_duty h past o =/ { on = 1 } /^$/ { on = 0 } on' "$specs/Verdicts.antt" | grep -o '[0-9][0-9]* when ' | tr -d ' when'
    sed -n 's/.*verdict execute_none 0 \([0-9][0-9]*\)$/\1/p' "$specs/Verdicts.antt"
} | sort >"$found/duty"
sed -n 's/^R, why there is no duty, //p' "$page" | grep -o '[:;] [0-9][0-9]* ' | tr -d ':; ' | sort >"$found/why"
same 'reasons of a line R, and those of the page' "$found/duty" "$found/why"
awk '/^Why there is no duty/ { on = 1 } /^$/ { on = 0 } on' launcher/help/day | tr '\n' ' ' | grep -o '[:,] *[0-9][0-9]* ' | tr -d ':, ' | sort >"$found/helped"
same 'reasons of a line R, and those of the help' "$found/duty" "$found/helped"

grep -o 'one_line [^"]*"[A-Z]"' "$specs/PrintedDay.antt" | sed 's/.*"\(.\)"/\1/' | sort >"$found/printed"
rows 'The lines of a day' | first_column >"$found/letters"
same 'letters that are printed, and those of the page' "$found/printed" "$found/letters"

sed -n 's/^[a-z]*_kind = //p' "$specs/Record.antt" | sort >"$found/kinds"
rows 'Numbers in a record' | sed -n 's/^| kind | //p' | grep -o '[0-9][0-9]*' | sort >"$found/named"
same 'kinds defined, and those of the page' "$found/kinds" "$found/named"

echo "numbers: $looked looked at, $wrong wrong"
[ "$wrong" -eq 0 ]
