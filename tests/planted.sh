# shellcheck shell=sh disable=SC2154
# The gate's part 'frames, with faults put in'; box reads this file, and has what it names and does not make.
#
# `frames` says its frames back and holds them to what was written. Here its reader of sentences is changed, one fault at a time in a copy:
# of some sentences it must then say that it did not understand them, and none may give other frames than before. Faults past the saying
# back, in the printing itself, are what the comparison with `words` is for.

# faults: a file of view/, what stands in it, and the fault, with bars between them.
faults() {
    cat <<'EOT'
sentence_role.c|*event = 2 * role + (enable ? 1 : 0);|*event = 2 * role + (enable ? 0 : 1);
sentence_role.c|        *condition = 2 * role;|        *condition = 2 * role + 1;
sentence_window.c|row->run = span->to.number - span->from.number + 1;|row->run = span->to.number - span->from.number + (span->to.number == span->from.number);
sentence_window.c|        *period = HOUR;|        *period = DAY;
sentence_rows.c|    *delay = number;|    *delay = 0 * number;
sentence_rows.c|    *priority = number;|    *priority = number > 9 ? 9 : number;
sentence_rows.c|    put(frame, row.end, 4);|    put(frame, NO_END, 4);
sentence_rows.c|    put(frame, role_count, 1);|    put(frame, role_count + 1, 1);
sentence_time.c|    *number = HOUR * number|    *number = (HOUR - 1) * number
sentence_names.c|    add_name(reading->given, role, name);|    add_name(reading->given, role == 3 ? 4 : role, name);
sentences.c|    count(making, (unsigned)kind);|    if (kind == TRIGGER) return 1;\n    count(making, (unsigned)kind);
EOT
}

# plant FILE STANDS FAULT: in the copy, where it must stand once; the program with the fault is then built.
plant() {
    rm -rf "$work/view" && cp -R view "$work/view" || return 1
    [ "$(grep -cF -- "$2" "view/$1")" = 1 ] || return 1
    awk -v stands="$2" -v fault="$3" '
        (at = index($0, stands)) { $0 = substr($0, 1, at - 1) fault substr($0, at + length(stands)) }
        { print }' "view/$1" >"$work/view/$1"
    set --
    for piece in $frames_parts; do
        set -- "$@" "$work/view/$piece.c"
    done
    $compiler -std=c99 -o "$work/faulty" "$@"
}

# wall: the sentences that pass, through the program with the fault. Some must end with status 1, and no frames may be other.
wall() {
    stopped=0
    for sentences in view/tests/sentences/good-*.sentences examples/apart.sentences; do
        "$work/faulty" <"$sentences" >"$work/made" 2>"$work/told"
        case $? in
        0) target/view/frames <"$sentences" | cmp -s - "$work/made" || return 1 ;;
        1) stopped=$((stopped + 1)) ;;
        *) ;;
        esac
    done
    [ "$stopped" -gt 0 ]
}

faults_planted() {
    faults >"$work/faults"
    while IFS='|' read -r source stands fault; do
        if ! plant "$source" "$stands" "$fault" || ! wall; then
            say "box: frames: a fault in $source was not seen, or could not be put in: $fault" >&2
            return 1
        fi
    done <"$work/faults"
    say "$(wc -l <"$work/faults") faults put in, and each was seen"
}
