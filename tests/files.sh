# shellcheck shell=sh disable=SC2154
# The gate's part 'a sheet, into a file'; box reads this file, and has what it names and does not make.
#
# `./box sheet -o OUT` is called as people call it. OUT has the whole sheet, and the mode that it had, or it stays as it was; beside it
# nothing is left.

# tried STATUS STORED WORD..: ./box sheet with these words ends with that status and prints what stands in STORED, which may be /dev/null.
tried() {
    wanted=$1 expected=$2
    shift 2
    ./box sheet "$@" </dev/null >"$work/printed" 2>"$work/told"
    code=$?
    [ "$code" -eq "$wanted" ] && cmp "$expected" "$work/printed" && return
    cat "$work/told" >&2
    say "box: ./box sheet $*: the status is $code, or what it prints is other" >&2
    return 1
}

# holds STORED: OUT does, its mode is still what it was, and it is alone in its folder.
holds() {
    cmp "$1" "$outs/out" && [ -n "$(find "$outs/out" -perm 640)" ] && [ "$(ls -A "$outs")" = out ] && return
    say "box: the file is not $1 with its old mode, or something was left beside it" >&2
    return 1
}

# wrong WORD..: a call that is misuse, and changes nothing.
wrong() { tried 2 /dev/null "$@" && holds examples/mixed.sheet; }

sheet_into_file() {
    outs=$work/outs
    mkdir "$outs" && mkfifo "$work/line" && cp examples/mixed.day "$outs/out" && chmod 640 "$outs/out" || return 1
    ln "$outs/out" "$work/kept" || return 1
    tried 0 /dev/null -o "$outs/out" "$outs/out" && holds examples/mixed.sheet && cmp examples/mixed.day "$work/kept" || return 1
    tried 1 examples/damaged.frames -o "$outs/out" examples/damaged.day && holds examples/mixed.sheet || return 1
    wrong -o && wrong examples/mixed.day -o "$outs/out" -o "$outs/out" && wrong -o "$outs" examples/mixed.day || return 1
    ln -s out "$work/link" && wrong -o "$work/link" examples/mixed.day || return 1
    wrong -o "$outs/none/out" examples/mixed.day && wrong -o "$work/line" examples/mixed.day && wrong --roles 3=Adjust || return 1
    tried 0 /dev/null -o "$outs/new" examples/mixed.day && cmp examples/mixed.sheet "$outs/new" || return 1
    ./box sheet examples/mixed.day | ./box day | cmp examples/mixed.frames - && say 'mixed: into a file, which may be the input, and on into a day'
}
