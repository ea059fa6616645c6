# shellcheck shell=sh disable=SC2154
# The gate's part 'main, by a pipe'; box reads this file, and has what it names and does not make.
#
# No contract says what `main` reads and writes. A file comes whole in one read and takes all in one write, but a pipe hands over what
# it has, and a write into it may be cut short: `main` must go on to the end. Each day, and each sheet with what follows it, must be the second
# program's, byte for byte.

pause() { sleep 0.2; } # longer than the program takes to start: it reads before the next part is there

# parts BYTES..: the input in parts of so many bytes, and then what is left, with a pause after each.
parts() {
    for bytes; do
        dd bs="$bytes" count=1 2>/dev/null
        pause
    done
    cat
} <"$work/cases"

# same_output PROGRAM NAME ANSWER: ours is the second program's, which begins with ANSWER.
same_output() {
    "$second" "$1" <"$work/cases" >"$work/theirs" || return 1
    read -r first <"$work/theirs"
    case $first in
    "$3"*) cmp -s "$work/ours" "$work/theirs" || keep "pipe-$1-$2" ;;
    *) say "box: $1, $2: the second program answers $first, and not $3" >&2 && return 1 ;;
    esac
}

# by_parts PROGRAM NAME ANSWER BYTES..: the input comes through a pipe in parts.
by_parts() {
    program=$1 input=$2 answer=$3
    shift 3
    parts "$@" | ours "$program" >"$work/ours" || : >"$work/ours"
    same_output "$program" "$input" "$answer" && say "$program, $input: in $(($# + 1)) parts"
}

# slowly: what comes, in small pieces with pauses.
slowly() {
    while dd bs=8192 count=1 2>/dev/null >"$work/piece" && [ -s "$work/piece" ]; do
        cat "$work/piece"
        sleep 0.01
    done
}

# cut_short: stops what runs beside and, whatever comes, lets it go on. The system then ends a write that waits for room with what it
# has taken so far. (Read slowly alone, a pipe makes the writer wait and takes all in one write.)
cut_short() (
    trap '' HUP INT TERM
    kill -STOP "$beside" && pause && kill -CONT "$beside"
)

# read_slowly NAME ANSWER: a day goes into a pipe that is read slowly. Its first byte says that the program is in a write, which waits
# for room since the pipe holds less than the day; that write is cut short.
read_slowly() {
    mkfifo "$work/pipe" || return 1
    (exec "$(program_of day)") <"$work/cases" >"$work/pipe" &
    beside=$!
    {
        dd bs=1 count=1 2>/dev/null
        pause
        cut_short && slowly
    } <"$work/pipe" >"$work/ours"
    wait "$beside" || : >"$work/ours"
    beside=''
    same_output day "$@" && say "day, $1: read slowly, a write cut short"
}

# lay NAME: an input of bench/inputs.awk. has FILE BYTES: it, or an output, is of so many bytes.
lay() { awk -v name="$1" -f bench/inputs.awk >"$work/cases"; }
has() {
    [ "$(wc -c <"$work/$1")" -eq "$2" ] && return
    say "box: $1: not $2 bytes" >&2
    return 1
}

# main_by_pipe: an input in parts, of which one ends within a line and one with the sheet; the longest input that may pass, which is all
# that a pipe holds, and one byte more; and the longest day.
main_by_pipe() {
    cp examples/worked.day "$work/cases" && by_parts day worked 50 1 30 62 25 || return 1
    cp examples/mixed.day "$work/cases" && by_parts sheet mixed 10 1 30 246 25 || return 1
    lay full && has cases 65536 && by_parts day full 50 1 40000 25534 && by_parts sheet full 10 1 40000 25534 && has ours 65536 || return 1
    lay over && has cases 65537 && by_parts day over E001 1 65535 && by_parts sheet over E001 1 65535 || return 1
    lay common && read_slowly common 50 && has ours 312511
}
