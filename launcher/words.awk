# The text form of a journal: a line for the header and one for each record, every value after its name; below the line of a batch one
# for each of its quotes. One table of names and one of words serve both ways. With way=numbers a text becomes the lines of numbers that
# the program encode reads, each with its line number in front and filled up to one length; with way=text the lines of numbers of the
# program decode become a text.

BEGIN {
    # a kind's place is its number
    kinds = split("quote status trade sent response received satisfaction naming closing batch cancellation", kind, " ")
    # "when" is "after" with milliseconds since the record before, or "at" with a clock time
    names["header"] = "home exchanges close sizes"
    names["quote"] = "when exchange series bid size customers offer size customers"
    names["status"] = "when exchange state"
    names["trade"] = "when series price size form complex initiator delay"
    names["sent"] = "when type to series side price size"
    names["response"] = "when order filled"
    names["received"] = "when type from series side price size"
    names["satisfaction"] = "when trade from price size"
    names["naming"] = "when claim exchange"
    names["closing"] = "when"
    names["batch"] = "when exchange"
    names["cancellation"] = "when claim"
    # a quote of a batch, on a line of its own
    names["series"] = "series bid size customers offer size customers"
    quote_numbers = split(names["series"], unused, " ")
    for (k = 1; k <= kinds; k++) {
        number[kind[k]] = k
        known = known ", " kind[k]
    }
    # the words for a value's numbers, from 0 on
    words["state"] = "firm non-firm rotation"
    words["form"] = "none cross other"
    words["complex"] = "no yes"
    words["initiator"] = "none"
    words["type"] = "- P/A principal"
    words["side"] = "- buy sell"
    for (w in words) learn(w)
    second = 1000
    minute = 60 * second
    hour = 60 * minute
    day = 24 * hour
    any_clock = "a clock time (0:00 to 23:59:59.999)"
    choices["close"] = any_clock
    most_exchanges = 8
    most_quotes = 32
    most_records = 16384
    line_length = 4096
}

# What has a capital in the table may be written without it.
function learn(name,    i, n, word, all) {
    n = split(words[name], word, " ")
    for (i = 1; i <= n; i++) if (word[i] != "-") {
        word_of[name, i - 1] = word[i]
        number_of[name, word[i]] = number_of[name, tolower(word[i])] = i - 1
        all = all ", " word[i]
    }
    choices[name] = substr(all, 3)
}

function clock(ms) {
    return sprintf("%02d:%02d:%02d.%03d", int(ms / hour), int(ms / minute) % 60, int(ms / second) % 60, ms % second)
}

# ---- from numbers to text

function told(name, n) {
    if (name == "when") return "at " clock(time += n)
    if (name == "close") return name " " clock(n)
    return name " " ((name, n) in word_of ? word_of[name, n] : n)
}

# The names of a line, each with its number, from a field on.
function spelled(what, first,    i, n, name, text) {
    n = split(names[what], name, " ")
    for (i = 1; i <= n; i++) text = text " " told(name[i], $(first + i - 1))
    return text
}

way == "text" && NR == 1 {
    text = "header" spelled("header", 1)
    for (i = 5; i <= NF; i++) text = text " " $i
    print text
    next
}

# Kind, milliseconds, fields; those of a batch are its exchange, how many quotes it has, and their numbers.
way == "text" {
    print kind[$1] spelled(kind[$1], 2)
    if (kind[$1] == "batch") for (i = 0; i < $4; i++) print "   " spelled("series", 5 + i * quote_numbers)
    next
}

# ---- from text to numbers

# The first fault ends the run.
function fault(what) {
    print "line " NR ": " what | "cat 1>&2"
    close("cat 1>&2")
    faulty = 1
    exit 1
}

function found(i,    word) {
    if (i > NF) return "the end of the line"
    word = substr($i, 1, 40)
    gsub(/[^!-~]/, "?", word)
    return "\"" word "\""
}

# A number without zeros in front. One with more than ten digits is as unstorable as the largest that has ten.
function figures(digits) {
    sub(/^0+/, "", digits)
    if (digits == "") return "0"
    return length(digits) > 10 ? "9999999999" : digits
}

function is_number(i) { return i <= NF && $i ~ /^[0-9]+$/ }

# Hours and minutes, then seconds or none, then a decimal fraction of a second or none, to the millisecond at most.
function is_clock(i) {
    return $i ~ /^([01]?[0-9]|2[0-3]):[0-5][0-9](:[0-5][0-9](\.[0-9][0-9]?[0-9]?)?)?$/
}

# A clock time in milliseconds after midnight. No part is read with zeros in front, which is octal to some awks, nor the fraction as
# one, since 0.001 is no exact number here.
function midnight_to(i,    part) {
    split($i, part, /[:.]/)
    return figures(part[1]) * hour + figures(part[2]) * minute + figures(part[3]) * second + figures(substr(part[4] "000", 1, 3))
}

# A record takes two bytes or more, so no journal has room for as many: the program refuses the text before it comes to a line that was
# not put.
function put(line, row) { if (puts++ <= most_records) printf "%-" (line_length - 1) "s\n", line " " row }

# Milliseconds since the record before. Where the day's time has passed, the program refuses the line by which it did; a clock time
# after that line is held against nothing.
function elapsed(name, i,    now, ms) {
    if (name == "after") ms = value(name, i)
    else {
        if (!is_clock(i)) return fault("expected " any_clock " after \"at\", found " found(i))
        now = midnight_to(i)
        if (now < time && time < day) return fault(clock(now) " is before the record before it, at " clock(time))
        ms = now < time ? 0 : now - time
    }
    time += ms
    return ms
}

# The number of a value that stands as a number, as one of its name's words or, for the close, as a clock time.
function value(name, i) {
    if (is_number(i)) return figures($i)
    if ((name, $i) in number_of) return number_of[name, $i]
    if (name == "close" && is_clock(i)) return midnight_to(i)
    return fault("expected " (name in choices ? choices[name] " or " : "") "a number after \"" name "\", found " found(i))
}

function unexpected(i, wanted) {
    return fault(i > NF ? "expected " wanted ", found the end of the line" : "unknown word " found(i) ", expected " wanted)
}

# The numbers of a line, each after its name, the first of which is field at; "sizes" is a name with as many as follow.
function numbers_of(what, at,    i, n, name, row) {
    n = split(names[what], name, " ")
    for (i = 1; i <= n; i++) {
        if (name[i] == "when") {
            if ($at != "after" && $at != "at") return unexpected(at, "\"after\" or \"at\"")
            row = row elapsed($at, at + 1) " "
        } else {
            if ($at != name[i]) return unexpected(at, "\"" name[i] "\"")
            if (name[i] == "sizes") return row sizes(at + 1)
            row = row value(name[i], at + 1) " "
        }
        at += 2
    }
    if (at <= NF) return unexpected(at, "the end of the line")
    return row
}

# Two for each exchange, zeros up to the most. How many exchanges there may be is the header writer's to judge.
function sizes(first,    i, n, row) {
    for (i = first; i <= NF; i++) if (!is_number(i)) return fault("expected a number after \"sizes\", found " found(i))
    n = figures($5) + 0
    if (n >= 2 && n <= most_exchanges && NF - first + 1 != 2 * n) return fault("expected " (2 * n) " sizes, found " (NF - first + 1))
    for (i = first; i < first + 2 * most_exchanges; i++) row = row (i <= NF ? figures($i) : 0) " "
    return row
}

# A batch ends where another record begins, or with the text.
function end_batch() {
    if (batch_line) put(batch_line, batch quotes " " quoted)
    batch_line = quotes = 0
    quoted = ""
}

{ sub(/\r$/, ""); sub(/#.*/, "") }

NF == 0 { next }

$1 == "header" {
    if (headed) fault("a second header")
    headed = 1
    above = $1
    put(NR, numbers_of("header", 2))
    next
}

!($1 in number) && $1 != "series" { fault("unknown word " found(1) ", expected " (batch_line ? "\"series\" or " : "") "a kind: header" known) }

!headed { fault("expected the header first, found " found(1)) }

# How many quotes a batch may have is the record writer's to judge: it is given their count, and no more of them than there may be.
$1 == "series" {
    if (!batch_line) fault("expected a batch above \"series\", found \"" above "\"")
    row = numbers_of("series", 1)
    if (++quotes <= most_quotes) quoted = quoted row
    next
}

{
    end_batch()
    above = $1
    row = number[$1] " " numbers_of($1, 2)
    if ($1 != "batch") put(NR, row)
    else {
        batch_line = NR
        batch = row
    }
}

END {
    if (way == "numbers" && !faulty && !headed) {
        print "line " NR ": expected a header, found the end of the text" | "cat 1>&2"
        close("cat 1>&2")
        exit 1
    }
    if (faulty) exit 1
    end_batch()
}
