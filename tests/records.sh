# shellcheck shell=sh disable=SC2154
# The gate's part 'the entry, on lists of records'; box reads this file, and has what it names and does not make.
#
# The customer's entry, entry::step_requests, takes a list of records. It is proved; a program that calls it is not, for the kit does
# not cover the making of such a list. So the program that tries it, try_entry, is run without a proof, by `rt try`. It is try_step with
# the functions of tests/try_entry.txt in place of those of the same name: its lists are real, of just as many records as the case has.
# It stands in a copy, beside the crates as they are here, since a crate of this repository must be proved.

# kept: try_step without the functions that tests/try_entry.txt has. It must have had each of them, and what is left may not call the
# step itself.
kept() {
    awk '
        function name(line) { sub(/^fn /, "", line); sub(/\(.*/, "", line); return line }
        NR == FNR { if (/^fn /) other[name($0)] = ++n; next }
        /^fn / && name($0) in other { goes = 1; found++ }
        !goes && /step::step\(/ { calls = 1 }
        !goes
        /^}/ { goes = 0 }
        END { exit found != n || calls }' tests/try_entry.txt crates/try_step/src/main.rt && return
    say "box: tests/try_entry.txt does not fit try_step" >&2
    return 1
}

# lay_entry: the copy, with try_entry and its line in crates.txt.
lay_entry() {
    copy=$work/entry
    copy_crates "$copy" && mkdir -p "$copy/crates/try_entry/src" || return 1
    { cat crates.txt && sed -n 's/^try_step:\(.*\) step /try_entry:\1 entry requests /p' crates.txt; } >"$copy/crates.txt" || return 1
    { kept && cat tests/try_entry.txt; } >"$copy/crates/try_entry/src/main.rt"
}

# few: of step-lists, 0 requests, 32, 33, and 32 of which one in the middle is wrong. More would be too many for the interpreter.
few() {
    for seed in 0 5 6 20; do
        "$second" gen "$seed" step-lists 1 || return 1
    done
}

# many: of step-lists every list, filled in each way; of step-order 50 pairs; and 30 cases of every other kind that a step takes.
many() {
    "$second" gen 0 step-lists 136 && "$second" gen 1 step-order 100 || return 1
    "$second" kinds | awk '$2 == "step" && $1 !~ /-(lists|order)$/ { print $1 }' >"$work/kinds"
    while read -r kind; do
        "$second" gen 1 "$kind" 30 || return 1
    done <"$work/kinds"
}

# in_any_order: a pair of step-order differs in the order of its requests alone, and has one outcome.
in_any_order() {
    "$second" gen 1 step-order 100 | "$second" step | awk 'NR % 2 { one = $0; next } $0 != one { bad = 1 } END { exit bad || NR != 100 }'
}

# try_cases NAME RUNNERS: the program on the cases that NAME makes. `rt try` must say that it ended well in so many of its two runs, and that both that ended wrote the same; what it
# wrote must be what the second program writes.
try_cases() {
    "$1" >"$work/cases" && "$second" step <"$work/cases" >"$work/theirs" || return 1
    (cd "$copy/crates/try_entry" && rt try) <"$work/cases" >"$work/ours" 2>"$work/tried"
    code=$?
    if [ "$code" -ne 0 ] || ! grep "^run=ended status=0 runners=$2 " "$work/tried" || ! cmp "$work/theirs" "$work/ours"; then
        cat "$work/tried" >&2
        keep "entry-$1"
        return 1
    fi
    answered "$1" <"$work/theirs"
}

# entry_on_records: few cases on the interpreter and compiled, with all checked that the compiler takes for granted. `rt try` gives the interpreter 20,000,000 steps and the other 60 s,
# so that with many cases it is enough that the compiled program ended.
entry_on_records() {
    lay_entry && try_cases few 2 || return 1
    in_any_order && try_cases many '[12]'
}
