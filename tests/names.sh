#!/bin/sh
# What a page names is there, under that name:
# - a definition or law, `File.name`, `specs/File.name` or `proofs/File.name`; a crate other than rules comes first, as in `sheet/specs/File.name`;
# - an item of a crate, `crate::name`: a function, enum, struct, trait or constant that belongs to no type; `crate::Type::name`: a function or
#   constant of that type or trait, or of a trait of the same file that the type has, or a variant of that enum; with the file's name between, if it is not the crate's first. The crate is of this repository or the kit;
# - a function that C calls, `hasurenta_name`;
# - a must-fail edit, `crate/name`; any other `a/b`, a link and `PAGE.md` are paths, from the root, docs/, crates/rules or the page; NAME is any name.
# Items are looked for everywhere on a page, in blocks of code too; the rest in backticks.
set -eu
cd "$(dirname "$0")/.."
# docs/PORT.md and docs/DESIGN-PASS.md name what was beside what is.
pages=$(ls README.md docs/*.md */README.md tests/vectors/README.md | grep -v -e '^docs/PORT\.md$' -e '^docs/DESIGN-PASS\.md$')
kit=$(dirname "$(rt doc)")
found=$(mktemp -d)
trap 'rm -rf "$found"' EXIT
LC_ALL=C
export LC_ALL

# Every item of the sources, by its whole name. In the kit's layout what belongs to a type, or to an extern block, is indented by four.
awk '
    function there(name) {
        print crate name
        if (module != "") print crate module name
    }
    FNR == 1 {
        parts = split(FILENAME, part, "/")
        crate = part[parts - 2] "::"
        module = part[parts]
        sub(/\.rt$/, "", module)
        module = module == "lib" || module == "main" ? "" : module "::"
        owner = ""
    }
    /^}/ { owner = "" }
    {
        line = $0
        indent = sub(/^    /, "", line)
        if (line ~ /^ / || (indent && owner == "")) next
        sub(/^pub /, "", line)
        words = split(line, word, /[^A-Za-z_0-9]+/)
        name = word[2]
        if (line ~ /^extern "C" fn /) { name = word[4]; word[1] = "fn" }
        if (line ~ /^(safe|unsafe) fn /) { name = word[3]; word[1] = "fn" }
        if (line ~ /^const fn /) name = word[3]
        item = word[1] ~ /^(fn|const|enum|struct|trait|type|static)$/
        if (!indent && item) there(name)
        if (!indent && line ~ /^impl [A-Za-z_0-9]+ for /) {
            methods = split(of_trait[crate name], method, " ")
            for (i = 1; i <= methods; i++) there(word[4] "::" method[i])
        }
        if (!indent && word[1] ~ /^(enum|struct|trait|impl)$/ && /\{$/) {
            owner = word[1] == "impl" && line ~ /^impl</ ? substr(line, index(line, "> ") + 2) : name
            if (word[1] == "impl" && line ~ / for /) owner = substr(line, index(line, " for ") + 5)
            sub(/[^A-Za-z_0-9].*/, "", owner)
            kind = word[1]
        }
        if (indent && kind == "trait" && item) {
            there(owner "::" name)
            of_trait[crate owner] = of_trait[crate owner] " " name
        }
        if (!indent && /^(unsafe )?extern "C" \{$/) owner = kind = "extern"
        if (indent && kind == "extern" && item) there(name)
        if (indent && kind == "impl" && item) there(owner "::" name)
        if (indent && kind == "enum" && line ~ /^[A-Z]/) there(owner "::" word[1])
    }' crates/*/src/*.rt "$kit"/rattle/*/src/*.rt >"$found/there"

# Every definition and law. Its line begins with its name, after words that say how it may be used.
awk '
    FNR == 1 {
        file = FILENAME
        sub(/^crates\//, "", file)
        sub(/\.antt$/, ".", file)
    }
    {
        first = 1
        while ($first ~ /^(pub|abbrev|unfoldable|private)$/) first++
        if ($first ~ /^(record|data|ruleset)$/ && $(first + 1) !~ /^[{(]/) print file $(first + 1)
        else if ($(first + 1) == ":" || ($(first + 1) ~ /^\{.*}$/ && $(first + 2) == ":")) print file $first
    }' crates/*/specs/*.antt crates/*/proofs/*.antt >>"$found/there"

# What the pages name: page, kind, name.
# shellcheck disable=SC2086
awk '
    function named(kind, name) { print FILENAME "\t" kind "\t" name }
    function span(text,    words, word, i) {
        gsub(/[(),;]/, " ", text)
        words = split(text, word, " ")
        for (i = 1; i <= words; i++) {
            if (word[i] ~ /^[^ ]+\.md$/) named("path", word[i])
            else if (word[i] ~ /^([a-z_0-9]+\/)*[A-Z][A-Za-z0-9]*\.[^.]/ && word[i] !~ /^[A-Z]+\.|\.antt$/) named("definition", word[i])
            else if (word[i] ~ /^[a-z0-9.-][A-Za-z0-9_.-]*\/[A-Za-z0-9_.\/-]*$/) named("path", word[i])
            else if (word[i] ~ /^hasurenta_/) named("item", "desk_c::" word[i])
        }
    }
    /^```/ { next }
    {
        line = $0
        while (match(line, /[A-Za-z_0-9]+(::[A-Za-z_0-9]+)+/)) {
            named("item", substr(line, RSTART, RLENGTH))
            line = substr(line, RSTART + RLENGTH)
        }
        line = $0
        while (match(line, /\]\([^)#:]+[)#]/)) {
            named("path", substr(line, RSTART + 2, RLENGTH - 3))
            line = substr(line, RSTART + RLENGTH)
        }
        spans = split($0, part, "`")
        if (spans && spans % 2 == 0) named("open", "something on line " FNR " with an open backtick")
        for (i = 2; i < spans; i += 2) span(part[i])
    }' $pages | sort -u >"$found/named"

# is_there PAGE KIND NAME
is_there() {
    case $2 in
    item) grep -Fqx -e "$3" "$found/there" ;;
    definition)
        case $3 in
        */*/*) grep -Fqx -e "$3" "$found/there" ;;
        */*) grep -Fqx -e "rules/$3" "$found/there" ;;
        *) grep -Fqx -e "rules/specs/$3" -e "rules/proofs/$3" "$found/there" ;;
        esac
        ;;
    path)
        [ -f "crates/${3%%/*}/must-fail/${3#*/}.edit" ] && return
        for path in $(printf '%s\n' "$3" | sed 's/NAME/*/g'); do
            for from in . "$(dirname "$1")" docs crates/rules; do
                for file in "$from"/$path; do [ ! -e "$file" ] || return 0; done
            done
        done
        return 1
        ;;
    *) return 1 ;;
    esac
}

missing=0 count=0
while IFS='	' read -r page kind name; do
    count=$((count + 1))
    is_there "$page" "$kind" "$name" && continue
    echo "$page names $name, which is not there"
    missing=$((missing + 1))
done <"$found/named"
echo "names: $count looked up, $missing missing"
[ "$count" -gt 0 ] && [ "$missing" -eq 0 ]
