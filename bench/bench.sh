# shellcheck shell=sh disable=SC2154
# What `./box bench` does; box reads this file, and has what it names and does not make.

made=target/bench # what it builds
day=$(program_of day) peer=$made/peer

# build_peer: the peer, and a program that does nothing, by the kit's own compiler and with its C library; the stopwatch for this machine.
build_peer() {
    kit=$(dirname "$(rt doc)") && tools=$kit/toolchain && mkdir -p "$made" || return 1
    for f in bench/peer/*.c bench/nothing.c; do
        "$tools/bin/clang" --target=x86_64-unknown-linux-gnu -march=x86-64 -fPIE -std=c99 -pedantic -Wall -Wextra -Werror -O3 \
            -c -o "$work/$(basename "$f" .c).o" "$f" || return 1
    done
    linked "$made/nothing" "$work/nothing.o" && rm "$work/nothing.o" && linked "$peer" "$work"/*.o || return 1
    compile "$made/stopwatch" bench/stopwatch.c
}
linked() { # PROGRAM OBJECT..
    program=$1
    shift
    "$kit/bin/rattle-link" --target x86_64-unknown-linux-gnu --toolchain "$tools" -o "$program" "$@" 2>"$work/link" || {
        cat "$work/link" >&2
        return 1
    }
}

# make_input NAME [UNTIL]: an input of the speed run, in the temporary folder; with UNTIL it is a shorter day.
make_input() { awk -v name="$1" -v until="${2-}" -f bench/inputs.awk >"$work/$1${2:+-$2}"; }

# same_bytes NAME..: ours, the peer and the second program print the same of each input.
same_bytes() {
    for input in "$@"; do
        make_input "$input" && cp "$work/$input" "$work/cases" || return 1
        "$day" <"$work/cases" >"$work/ours" || : >"$work/ours"
        "$peer" <"$work/cases" >"$work/theirs" || : >"$work/theirs"
        cmp -s "$work/ours" "$work/theirs" || keep "bench-$input" "ours and the peer" || return 1
        "$second" day <"$work/cases" >"$work/theirs" || return 1
        cmp -s "$work/ours" "$work/theirs" || keep "bench-$input" "ours and the second program" || return 1
    done
    say "$# inputs: ours, the peer and the second program print the same bytes"
}

# turns RUNS {PROGRAM INPUT}..: the programs in turn, so many times; for each a line with the median of its processor time in microseconds,
# the lowest and the highest.
turns() {
    runs=$1 words=$(($# - 1))
    shift
    while [ "$words" -gt 0 ]; do
        set -- "$@" -- "$work/$2" "$1"
        shift 2
        words=$((words - 2))
    done
    "$made/stopwatch" time "$runs" "$@"
}

# minutes RUNS NAME..: what a minute of each day takes. The time of an empty input is taken off: it is all start.
minutes() {
    runs=$1
    shift
    printf '%-10s %12s %12s %8s\n' '' ours peer ratio
    for input in "$@"; do
        turns "$runs" "$day" "$input" "$peer" "$input" "$day" empty "$peer" empty >"$work/times" || return 1
        awk -v name="$input" '
            { took[NR] = $1 }
            END {
                ours = (took[1] - took[3]) / 10081
                peer = (took[2] - took[4]) / 10081
                printf "%-10s %9.2f us %9.2f us %8.2f\n", name, ours, peer, ours / peer
            }' "$work/times"
    done
}

# readings RUNS: what reading takes, as the difference of two inputs of which one goes further.
readings() {
    set -- "$1" empty miscount sheet short tape
    turns "$1" "$day" "$2" "$day" "$3" "$day" "$4" "$day" "$5" "$day" "$6" \
        "$peer" "$2" "$peer" "$3" "$peer" "$4" "$peer" "$5" "$peer" "$6" >"$work/times" || return 1
    awk '
        { took[NR] = $1 }
        function row(what, to, from) {
            ours = took[to] - took[from]
            peer = took[to + 5] - took[from + 5]
            printf "%-34s %9.0f us %9.0f us %8s\n", what, ours, peer, (peer > 0 ? sprintf("%.2f", ours / peer) : "-")
        }
        END {
            printf "%-34s %12s %12s %8s\n", "", "ours", "peer", "ratio"
            took[11] = took[16] = 0
            row("start, and an empty input", 1, 11)
            row("the longest good sheet", 2, 1)
            row("its loop test", 3, 2)
            row("a sheet without rows, loop test", 4, 1)
            row("the longest tape", 5, 4)
        }' "$work/times"
}

# stacks: the smallest stack under which each still runs.
stacks() {
    "$second" gen 1 step-dense 1 >"$work/step" && "$second" gen 1 read-dense 1 >"$work/read" || return 1
    make_input common 100 && make_input dense 100 || return 1
    stack 'a program that does nothing' "$made/nothing" empty
    stack 'ours: nothing read' "$day" empty
    stack 'ours: a sheet read, no step' "$day" sheet
    stack 'ours: a day, common' "$day" common-100
    stack 'ours: a day, dense' "$day" dense-100
    [ ! -x "$(program_of try_read)" ] || stack 'try_read: one reading' "$(program_of try_read)" read
    [ ! -x "$(program_of try_step)" ] || stack 'try_step: one step' "$(program_of try_step)" step
    stack 'peer: a day, dense' "$peer" dense-100
}
stack() { # WHAT PROGRAM INPUT
    kib=$("$made/stopwatch" stack -- "$work/$3" "$2") || return 1
    printf '%-34s %6s KiB\n' "$1" "$kib"
}

load() { say "load $(uptime | sed 's/.*load average[s]*: *//'), $(getconf _NPROCESSORS_ONLN) processors"; }

bench() {
    [ $# -eq 0 ] || misuse bench "takes no further word"
    room
    ready
    second_there
    build_peer || stop 1 "the peer was not built"
    load
    part 'the same bytes' same_bytes empty common dense rings uphill graph longest sheet miscount short tape \
        grow-0 grow-16 grow-32 grow-64 grow-128
    part 'a minute' minutes 7 common dense rings uphill graph
    make_input grow-256 # which is dense once more
    part 'a minute with N triggers' minutes 7 grow-0 grow-16 grow-32 grow-64 grow-128 grow-256
    part 'reading' readings 2001
    part 'stack' stacks
    load
}
