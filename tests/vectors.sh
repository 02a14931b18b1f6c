#!/bin/sh
# The vectors stand twice: as lines in tests/vectors, and as the bytes that `ask` is run on (crates/ask/stdin) and held to
# (crates/ask/stdout). Each line is turned into `ask`'s questions, its answer into their answers, and both must be the next bytes of
# those files: no line without its bytes, but a batch given more fields than `ask` takes, and no byte without its line.
# tests/vectors/README.md says which is which.
set -eu
cd "$(dirname "$0")/.."
work=$(mktemp -d)
trap 'rm -rf "$work"' EXIT
LC_ALL=C
export LC_ALL
for file in stdin stdout; do od -An -v -tx1 "crates/ask/$file" | tr -d ' \n' >"$work/$file"; done

WORK=$work awk '
    function unfit(why) {
        print FILENAME " line " FNR ": " substr(why, 1, 120)
        failed = 1
        exit 1
    }

    function number(word) {
        if (word !~ /^(0|[1-9][0-9]*)$/ || length(word) > 15) unfit("not a number: " word)
        return word + 0
    }
    function raw(word) {
        if (word == "-") return ""
        if (word !~ /^[0-9a-f]+$/ || length(word) % 2) unfit("not bytes: " word)
        return word
    }

    # The lowest byte first.
    function bytes_of(n, bytes,    text) {
        for (; bytes > 0; bytes--) {
            text = text hex[n % 256]
            n = int(n / 256)
        }
        if (n) unfit("a number is too large")
        return text
    }
    function four(n) { return bytes_of(n, 4) }
    function row(words, from, to, places,    text) {
        if (to - from >= places) unfit("more than " places " numbers")
        for (; from <= to; from++) {
            text = text four(number(words[from]))
            places--
        }
        for (; places > 0; places--) text = text four(0)
        return text
    }

    # One question with its answer, bytes as hex: they come next in the two files. `kept` is 1 in each.
    function next_is(file, text) {
        if (substr(all[file], at[file], length(text)) != text) unfit("crates/ask/" file " differs, from byte " (at[file] - 1) / 2 " on")
        at[file] += length(text)
    }
    function ask(op, cap, a, b, no, place, out) {
        if (cap > most) unfit("more room than ask lends")
        next_is("stdin", hex[op] four(cap) four(length(a) / 2) four(length(b) / 2) a b)
        next_is("stdout", four(no) four(place) hex[1] four(length(out) / 2) out)
        questions++
    }

    # What the line of the answer says: a refusal is no and place, anything else has no 0.
    function hear() {
        if ((getline said < answers) <= 0) unfit("no answer")
        spoken = split(said, s, / /)
        no = place = 0
        if (s[1] != "refused") return
        if (spoken != 4 || s[3] != "at" || !(no = number(s[2]))) unfit("not an answer: " said)
        place = number(s[4])
    }
    function accepted() { if (!no && said != "accepted") unfit("not an answer: " said) }
    function ok(parts) { if (!no && (s[1] != "ok" || (parts && spoken != 1 + parts))) unfit("not an answer: " said) }
    function written() {
        ok(1)
        return no ? "" : raw(s[2])
    }

    function journal(a,    bytes) {
        accepted()
        bytes = length(a) / 2
        ask(op["journal"], 0, a, "", no, place, "")
        if (no) ask(op["rewrite"], plenty, a, "", no, place, "")
        else {
            ask(op["rewrite"], bytes, a, "", 0, 0, a)
            ask(op["rewrite"], bytes - 1, a, "", short, 0, "")
        }
    }

    # What is printed of a refused journal is one line of text; `ask` answers the refusal itself.
    function printed(bytes,    i, text) {
        for (i = 1; i < length(bytes); i += 2) text = text letter[substr(bytes, i, 2)]
        return text
    }
    function day(a,    list, bytes) {
        list = written()
        bytes = length(list) / 2
        if (no) unfit("not an answer: " said)
        if (printed(substr(list, 1, 16)) == "refused ") {
            if (split(printed(list), s, /[ \n]/) != 5 || s[3] != "at" || s[5] != "") unfit("not a list: " printed(list))
            ask(op["day"], little, a, "", number(s[2]), number(s[4]), "")
        } else {
            ask(op["day"], most, a, "", 0, 0, list)
            ask(op["day"], bytes, a, "", 0, 0, list)
            ask(op["day"], bytes - 1, a, "", short, 0, "")
        }
    }
    function totals(a,    out, i) {
        ok(4)
        for (i = 2; !no && i <= 5; i++) out = out bytes_of(number(s[i]), 8)
        ask(op["totals"], 32, a, "", no, place, out)
    }

    # Home, how many exchanges, the close, two sizes for each exchange: 19 numbers with those of eight.
    function head(from, to,    exchanges) {
        exchanges = number(w[from + 1])
        if (exchanges >= 2 && exchanges <= 8 && to - from - 2 != 2 * exchanges) unfit("not two sizes for each exchange")
        return row(w, from, to, 19)
    }
    function counted(kind, given) {
        if ((kind in fields) && given != fields[kind]) unfit("kind " kind " has " fields[kind] " fields, not " given)
    }
    # Three numbers and the fields, of which there is room for eight at least.
    function places(given) { return 3 + (given > fewest ? given : fewest) }
    # Of a record that is read back: a batch has as many fields as its count says.
    function fields_read(given) {
        counted(s[3], given)
        if (s[3] == batch && given != 2 + 7 * number(s[6])) unfit("a batch of " s[6] " has " given " fields")
        return places(given)
    }
    function read_record(a, b,    out) {
        ok(0)
        if (!no) out = row(s, 2, spoken, fields_read(spoken - 4))
        ask(op["rrecord"], 0, a, b, no, place, out)
    }
    # A batch may be given any number of fields up to the most that `ask` takes: a line with more has no question. So may a kind that
    # is not known, and of those `ask` is given eight.
    function write_record(bar,    kind, given, last) {
        kind = w[bar + 2]
        given = words - bar - 3
        counted(kind, given)
        for (last = words; last > bar + 3 + fewest && !(kind in fields); last--) number(w[last])
        if (kind != batch) ask(op["wrecord"], number(w[2]), head(3, bar - 1) row(w, bar + 1, last, places(0)), "", no, place, written())
        else if (given <= most_fields) ask(op["wrecord"], number(w[2]), head(3, bar - 1) row(w, bar + 1, words, places(given)), "", no, place, written())
        else { head(3, bar - 1); written(); unasked++ }
    }
    function of_numbers(    bar) {
        for (bar = 1; bar < words && w[bar] != "/"; bar++) continue
        if (w[1] == "wheader") ask(op["wheader"], number(w[2]), head(3, words), "", no, place, written())
        else if (w[1] == "wrecord") write_record(bar)
        else if (w[1] == "rrecord" && words == bar + 2) read_record(head(2, bar - 1) four(number(w[bar + 1])), raw(w[bar + 2]))
        else unfit("not a question: " w[1])
    }

    BEGIN {
        for (i = 0; i < 256; i++) hex[i] = sprintf("%02x", i)
        for (i = 1; i < 128; i++) letter[hex[i]] = sprintf("%c", i)
        for (i = split("journal day sheet check totals wheader wrecord rrecord rewrite", names, " "); i > 0; i--) op[names[i]] = i
        # How many fields the kinds 1 to 9 have, and 11; of a batch its count says. And how many `ask` has room for.
        split("8 2 7 6 2 6 4 2 0", fields, " ")
        fields[11] = 1
        batch = 10
        fewest = 8
        most_fields = 226
        # The room that is lent: what `ask` has, more than a journal needs, more than a refusal. And the refusal where it is too short.
        most = 131072
        plenty = 40000
        little = 100
        short = 9
        at["stdin"] = at["stdout"] = 1
        for (file in at) if ((getline all[file] < (ENVIRON["WORK"] "/" file)) <= 0) unfit("crates/ask/" file " is empty")
    }
    FNR == 1 {
        if (answers && (getline said < answers) > 0) unfit(answers " has more lines than its questions")
        answers = FILENAME
        sub(/questions$/, "answers", answers)
    }
    {
        words = split($0, w, / /)
        hear()
        if (w[1] == "journal" && words == 2) journal(raw(w[2]))
        else if (w[1] == "day" && words == 2) day(raw(w[2]))
        else if (w[1] == "sheet" && words == 3) ask(op["sheet"], number(w[2]), raw(w[3]), "", no, place, written())
        else if (w[1] == "check" && words == 3) { accepted(); ask(op["check"], 0, raw(w[2]), raw(w[3]), no, place, "") }
        else if (w[1] == "totals" && words == 2) totals(raw(w[2]))
        else of_numbers()
    }
    END {
        if (failed) exit 1
        if (!questions) unfit("no questions")
        if ((getline said < answers) > 0) unfit(answers " has more lines than its questions")
        for (file in at) if (at[file] <= length(all[file])) unfit("crates/ask/" file " goes on behind the last line")
        print "vectors: " NR " lines are the " questions " questions of ask, with their answers" (unasked ? "; batches given more fields than ask takes: " unasked : "")
    }' tests/vectors/*.questions
