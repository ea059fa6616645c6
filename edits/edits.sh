# shellcheck shell=sh disable=SC2154,SC2034
# What `./box edits` does; box reads this file, and has what it names and does not make.
#
# An edit is a wrong program: a change of a crate that the prover must refuse. Those of crates/CRATE/must-fail/ are tried by every gate: of the entries that others call, of the model's
# definitions, and document 01's easy mistakes. Those of edits/CRATE/ are of helpers, and are tried here, by hand. In a copy, both sorts of the crates that are asked for stand together, and
# `rt must-fail` tries them. A refusal is one by form where the proof only named something that the changed code does not have: no fact was asked (docs/MUTANTS.md).

# edits_of CRATE: the files of both sorts.
edits_of() { find "crates/$1/must-fail" "edits/$1" -name '*.edit' 2>/dev/null; }

# crates_with_edits: in the order of crates.txt.
crates_with_edits() {
    sed -n 's/^\([a-z_0-9]*\):.*/\1/p' crates.txt | while read -r name; do
        [ -z "$(edits_of "$name")" ] || say "$name"
    done
}

# lay_out CRATE..: a copy of the crates, in which these have their edits of both sorts and no other has any.
lay_out() {
    copy_crates "$work/1" || return 1
    rm -rf "$work/1/crates"/*/must-fail
    for name; do
        twice=$(edits_of "$name" | sed 's|.*/||' | LC_ALL=C sort | uniq -d)
        [ -z "$twice" ] || stop 1 "$name has two edits of one name: $twice"
        mkdir "$work/1/crates/$name/must-fail" && edits_of "$name" | while read -r file; do
            cp "$file" "$work/1/crates/$name/must-fail/" || return 1
        done || return 1
    done
}

# edits [CRATE..]: every edit of those, or of all.
edits() {
    for name; do
        listed "$name" || misuse edits "takes crates that crates.txt lists, and not '$name'"
        [ -n "$(edits_of "$name")" ] || misuse edits "finds no edit of $name"
    done
    # shellcheck disable=SC2046
    [ $# -gt 0 ] || set -- $(crates_with_edits)
    kit_there
    room
    # What the prover leaves when it is ended goes with the rest.
    TMPDIR=$work && export TMPDIR
    mkdir -p target
    lay_out "$@" || stop 1 "the crates could not be copied"
    say "box: proving in a copy what is not proved yet" >&2
    check_in "$work/1" "$top/target/edits.log" "$@" || stop 1 "the crates are not proved: target/edits.log says why"
    (cd "$work/1" && rt must-fail "$@") </dev/null >"$work/tried" 2>&1 &
    beside=$! began=$(date +%s)
    told=$began
    while kill -0 "$beside" 2>/dev/null; do
        sleep 1
        going "trying the edits, after $(($(date +%s) - began)) s"
    done
    wait "$beside"
    code=$?
    beside=''
    sed -n 's/^rt: must-fail //p' "$work/tried"
    cp "$work/tried" target/edits.log
    count_edits "$@"
}

# count_edits CRATE..: how many there are, and which were refused only by form, or by a limit of the prover. Status 1 where one was not refused or not tried.
count_edits() {
    there=$(for name; do edits_of "$name"; done | wc -l | tr -d ' ')
    sed -n 's|^rt: must-fail \([a-z_0-9]*/[^:]*\): refused, as it must be|\1|p' "$work/tried" >"$work/refused"
    sed -n 's| (only because a proof file names .*|: refused by form|p; s| (only by a limit .*|: refused by a limit|p' "$work/refused" >"$work/forms"
    refused=$(wc -l <"$work/refused" | tr -d ' ') forms=$(grep -c ' form$' "$work/forms") limits=$(grep -c ' limit$' "$work/forms")
    cat "$work/forms"
    say "box: of $there edits $refused were refused, $((refused - forms - limits)) for a fact, $forms only by form and $limits only by a limit of the prover"
    [ "$code" -eq 0 ] && [ "$refused" -eq "$there" ] || stop 1 "an edit was not refused, or not tried: target/edits.log says which"
}
