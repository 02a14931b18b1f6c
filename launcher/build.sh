# A program that is not there yet is proved and built: one build at a time in this folder, and it says how far it is.

flags=$here/target/building
flag='' proving=''

program() { echo "$here/crates/$1/out/$1"; }

# rt links only what it has proved. Once the program is whole `rt run` leaves a stamp beside it, and `rt ci` what the program wrote,
# which must be what its crate says.
is_built() { [ -x "$(program "$1")" ] && { [ -e "$(program "$1").stamp" ] || answers_so "$here/crates/$1"; }; }
answers_so() { cmp -s "$1/out/stdout" "$1/stdout"; }

# The kit's rt.
find_rt() {
    rt=${RATTLE_HOME:+$RATTLE_HOME/bin/rt}
    [ -n "$rt" ] || rt=$(command -v rt) || cannot 'the Rattle kit is not found: put rt on PATH or set RATTLE_HOME'
    [ -x "$rt" ] || cannot "$rt: not there, and the Rattle kit has it"
}

build() {
    ! is_built "$1" || return 0
    find_rt
    take_turn
    is_built "$1" || prove "$1"
    rm -f "$flag"
    flag=''
}

# ---- whose turn it is
# Whoever wants to build raises a flag, a file of its own, and then looks for others. Of any two the one that raised its flag later
# sees the other's, so that no two build. Where both see the other's, the higher process number takes its flag down until it looks
# again. A flag is named for its launcher's process number and holds that of rt; where both are gone it counts for nothing. No two
# flags ever have one name, so that nobody's removal of such a one can hit a flag that is raised meanwhile.

# A process of another user may not be signalled, and is there all the same; one that has ended is not, though nobody may have waited
# for it yet.
is_alive() {
    kill -s 0 "$1" 2>"$work/why" || ! grep -q 'No such process' "$work/why" || return 1
    case $(cat "/proc/$1/stat" 2>/dev/null) in *') Z '*) return 1 ;; esac
}

number_of() { number=${1##*/} number=${number%%.*}; }

stands() { # FLAG
    number_of "$1"
    # our own number on another's flag is that of a process that is gone
    [ "$number" -eq "$$" ] || ! is_alive "$number" || return 0
    read -r number 2>/dev/null <"$1" && is_alive "$number"
}

# The lowest process number among the others whose flag stands, or nothing.
look() {
    other=''
    for seen in "$flags"/[0-9]*; do
        [ -e "$seen" ] && [ "$seen" != "$flag" ] || continue
        stands "$seen" || { rm -f "$seen"; continue; }
        number_of "$seen"
        [ -n "$other" ] && [ "$other" -lt "$number" ] || other=$number
    done
}

take_turn() {
    flag=$flags/$$.${work##*.}
    turns=0
    while :; do
        { mkdir -p "$flags" && printf '' >"$flag"; } 2>/dev/null || cannot "$flags: cannot be written"
        look
        [ -n "$other" ] || return 0
        [ "$other" -gt "$$" ] || rm -f "$flag"
        [ "$turns" -ne 1 ] || say_apart "another build goes on in this folder, process $other; waiting until it has ended"
        turns=$((turns + 1))
        sleep 1
    done
}

# ---- the build

# The crates of crates.txt that a program rests on, itself too.
crates_under() {
    awk -v program="$1" '
        function reach(name,    dep, i, n) {
            if (!(name in uses) || seen[name]++) return
            print name
            n = split(uses[name], dep, " ")
            for (i = 1; i <= n; i++) reach(dep[i])
        }
        { sub(/#.*/, ""); colon = index($0, ":") }
        # before the colon the name may have words behind it
        colon && split(substr($0, 1, colon - 1), head, " ") { uses[head[1]] = substr($0, colon + 1) }
        END { reach(program) }' "$here/crates.txt"
}

prove() {
    out=$here/crates/$1/out
    # of an earlier build, whose program is gone
    rm -f "$out/$1.stamp" "$out/stdout"
    began=$(date +%s)
    under=$(crates_under "$1") || cannot 'crates.txt: cannot be read'
    crates=$(echo "$under" | wc -w)
    say_apart "proving and building $1, once: $((crates)) crates, which can take some minutes"
    apart=$(command -v setsid)
    proving=yes
    # it runs the program as well, whose own status says nothing here
    (cd "$here/crates/$1" && exec ${apart:+"$apart"} "$rt" run) </dev/null >"$work/rt" 2>&1 &
    echo "$!" >"$flag"
    watch "$1"
    wait "$!"
    proving=''
    is_built "$1" || {
        cat "$work/rt" >&2
        rm -f "$(program "$1")"
        cannot "$1 could not be built"
    }
}

# rt leaves a stamp beside each library and each program that it has proved and built.
progress() { # NAME NOW
    proved=0
    for crate in $under; do
        [ ! -e "$here/crates/$crate/out/rlib/stamp" ] && [ ! -e "$here/crates/$crate/out/$crate.stamp" ] || proved=$((proved + 1))
    done
    echo "building $1: $proved of $((crates)) crates proved, $(($2 - began)) s so far"
}

# On a terminal a line that is written anew each second, elsewhere one now and then.
watch() { # NAME
    told=$began
    while is_alive "$!"; do
        sleep 1
        now=$(date +%s)
        if [ -t 2 ]; then
            printf '\rhasurenta: %-66s' "$(progress "$1" "$now")" >&2
        elif [ "$((now - told))" -ge 30 ]; then
            say "$(progress "$1" "$now")"
            told=$now
        fi
    done
    [ ! -t 2 ] || echo >&2
}

# A line of its own, also where another launcher is writing one anew on the same terminal.
say_apart() {
    if [ -t 2 ]; then printf '\rhasurenta: %-66s\n' "$*" >&2; else say "$*"; fi
}

# rt and the provers that it started are one group of processes; the turn is given up once all of them are gone.
end_build() {
    kill -s TERM -- "-$!" 2>/dev/null || kill -s TERM "$!" 2>/dev/null
    wait "$!" 2>/dev/null
    tries=0
    while kill -s 0 -- "-$!" 2>/dev/null && [ "$tries" -lt 10 ]; do
        tries=$((tries + 1))
        sleep 1
    done
    kill -s KILL -- "-$!" 2>/dev/null
    [ ! -t 2 ] || echo >&2
    say 'the build was ended; the crates that were proved so far are kept'
}

end_turn() {
    [ -z "$proving" ] || [ -z "${!:-}" ] || end_build
    [ -z "$flag" ] || rm -f "$flag"
}
