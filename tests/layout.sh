#!/bin/sh
# Every crate folder is a line of crates.txt, and every must-fail edit says in its first line what would be wrong and fits its file: each
# `old:` text stands there exactly once, where the edit's replacements before it are made, has its `new:` text, and no line is anything
# else (rt passes over what it does not know). That each .rt and .antt file stands in the kit's layout `rt ci` sees to.
set -eu
cd "$(dirname "$0")/.."
for folder in crates/*/; do
    name=$(basename "$folder")
    grep -q "^$name\( staticlib\)*:" crates.txt || { echo "crates/$name is in no line of crates.txt"; exit 1; }
done
edits=0
for edit in crates/*/must-fail/*.edit; do
    CRATE=${edit%/must-fail/*} awk '
        function unfit(why) { print FILENAME ": " why; failed = 1; exit 1 }
        NR == 1 && !/^# ./ { unfit("its first line does not say what would be wrong") }
        /^file: / {
            file = substr($0, 7)
            if (!(file in text)) {
                path = ENVIRON["CRATE"] "/" file
                while ((getline line < path) > 0) text[file] = text[file] line "\n"
                if (!(file in text)) unfit("there is no " path)
            }
        }
        !/^(# .|file: .|old: .|new:( .|$))/ { unfit("line " NR " is no part of an edit: " $0) }
        /^old: / {
            if (old != "") unfit("no new: text for: " old)
            old = substr($0, 6)
        }
        /^new:/ {
            new = substr($0, 5)
            sub(/^ /, "", new)
            at = index(text[file], old)
            if (old == "" || !at) unfit("not in " file ": " old)
            rest = substr(text[file], at + length(old))
            if (index(rest, old)) unfit("more than once in " file ": " old)
            text[file] = substr(text[file], 1, at - 1) new rest
            old = ""
            pairs++
        }
        END {
            if (!failed && old != "") unfit("no new: text for: " old)
            if (!failed && !pairs) unfit("it has no old: and new: pair")
            exit failed
        }' "$edit"
    edits=$((edits + 1))
done
echo "layout: $edits edits fit their files"
