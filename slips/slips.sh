# shellcheck shell=sh disable=SC2154
# What `./box slips` does; box reads this file, and has what it names and does not make.
#
# A slip is a mistake that a definition and its code make together: every crate is still proved, and only what document 01 prints can tell. slips/NAME.slip says it in words (`# ..`) and
# has the changes, in the form of the must-fail edits: `file:` holds for the pairs `old:`, `new:` after it, and an old text stands once in its file. Lines of one word that follow each other
# are one text. The files may be of any crates, laws and proofs among them, which then fit what they are about. In a copy, every crate that `examples` rests on must be proved, and `examples`
# must be refused, first at the computed test of its table.
test_of_table=proofs/Laws/Said.antt

# change FILE OLD NEW: one text in the place of another.
change() {
    OLD=$2 NEW=$3 awk '
        { text = text $0 "\n" }
        END {
            old = ENVIRON["OLD"]
            at = index(text, old)
            rest = substr(text, at + length(old))
            if (old == "" || !at || index(rest, old)) exit 1
            printf "%s%s%s", substr(text, 1, at - 1), ENVIRON["NEW"], rest
        }' "$1" >"$work/changed" && cp "$work/changed" "$1"
}

# make_slip NAME: its changes, in the copy.
make_slip() {
    word='' changes=0
    { grep '^[a-z]*:' "slips/$1.slip" && say 'end:'; } >"$work/slip"
    while IFS= read -r line; do
        before=$word word=${line%%:*} text=${line#*:}
        text=${text# }
        [ "$word" != "$before" ] || text=$whole'
'$text
        case $before:$word in
        old:new) old=$whole ;;
        new:new) ;;
        new:*)
            change "$work/1/$file" "$old" "$whole" || stop 1 "slips/$1.slip: this is not in $file, or more than once: $old"
            changes=$((changes + 1))
            ;;
        file:*) file=$whole ;;
        esac
        whole=$text
    done <"$work/slip"
    [ "$changes" -gt 0 ] || stop 1 "slips/$1.slip changes nothing"
}

# first_error LOG: where the first error in `examples` stands, as FILE:LINE. (The kit names a file from its crate's folder, and ends with the first crate that is not proved.)
first_error() { sed -n 's|^\(\./\)*\([^: ]*:[0-9]*\):[0-9]*: error.*|\2|p' "$1" | head -n 1; }

# try_slip NAME: what comes of it is left in outcome. Status 1 where it is not as it must be.
try_slip() {
    log=$top/target/slips/$1.log began=$(date +%s)
    rm -rf "$work/1"
    copy_crates "$work/1" || stop 1 "the crates could not be copied"
    make_slip "$1"
    say "$1:$(sed -n 's/^#//p' "slips/$1.slip")"
    if check_in "$work/1" "$log" examples; then
        outcome='NOT REFUSED: examples is still proved'
    elif grep -q '^rt: the library .* did not build' "$log"; then
        outcome="NO SLIP, for this is not proved: $(sed -n 's/^rt: the library \(.*\) did not build.*/\1/p' "$log")"
    elif ! grep -q '^logic=not-proved' "$log"; then
        outcome="NO ANSWER: the check of examples did not end well"
    else
        place=$(first_error "$log")
        outcome="REFUSED FOR ANOTHER REASON, first at $place"
        [ "${place%:*}" != "$test_of_table" ] || outcome="refused, as it must be, first at $place"
    fi
    say "$1: $outcome ($(($(date +%s) - began)) s)"
    case $outcome in refused,*) ;; *) return 1 ;; esac
}

# slips [NAME..]: those, or all.
slips() {
    for name; do
        [ -f "slips/$name.slip" ] || misuse slips "takes names of slips/, and not '$name'"
    done
    # shellcheck disable=SC2046
    [ $# -gt 0 ] || set -- $(cd slips && ls ./*.slip | sed 's|^\./||; s|\.slip$||')
    kit_there
    room
    # What the prover leaves when it is ended goes with the rest.
    TMPDIR=$work && export TMPDIR
    mkdir -p target/slips
    amiss=''
    for name; do
        try_slip "$name" || amiss="$amiss $name"
    done
    [ -z "$amiss" ] || stop 1 "not as it must be:$amiss; target/slips/ has the logs"
    say "box: every slip was refused"
}
