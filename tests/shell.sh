# shellcheck shell=sh disable=SC2154
# The gate's part 'the words of ./box'; box reads this file, and has what it names and does not make.
#
# ./box is called as people call it: through links, with each option in each form, with names that do not fit, mistyped, and into a
# pipe that nobody reads.

# answers STATUS PRINTED TOLD CALL..: the call ends with that status and prints what stands in PRINTED, and on standard error stands TOLD,
# or nothing where that is empty.
answers() {
    wanted=$1 expected=$2 words=$3
    shift 3
    "$@" </dev/null >"$work/printed" 2>"$work/told"
    code=$?
    [ "$code" -eq "$wanted" ] && cmp "$expected" "$work/printed" && tells "$words" && return
    cat "$work/told" >&2
    say "box: $*: the status is $code, or what it prints or says is other" >&2
    return 1
}
tells() { if [ -z "$1" ]; then [ ! -s "$work/told" ]; else grep -qF -- "$1" "$work/told"; fi; }

# misused TOLD CALL..: it is misuse, and says so in so many words and no more than two lines.
misused() {
    answers 2 /dev/null "$@" && [ "$(wc -l <"$work/told")" -le 2 ] && return
    say "box: $*: too much is said" >&2
    return 1
}

# No name may make a clash vanish.
names_must_fit() {
    for call in words picture; do
        misused 'names role 8, Release, and the sheet does not have it: its roles are 0 to 7' \
            ./box $call --roles 3=Adjust,8=Release examples/clash.day || return 1
        misused 'part 2: another role has this name already' ./box $call --roles 3=Adjust,7=Adjust examples/clash.day || return 1
        misused 'has no names' ./box $call --roles @/dev/null examples/clash.day || return 1
    done
    misused '--apart, part 2: ' ./box picture --roles 3=Adjust,7=Release --apart 3,8 examples/clash.day || return 1
    say 'names that do not fit are refused'
}

names_in_each_form() {
    for list in --roles=3=Adjust,7=Release '--roles=3=Adjust, 7=Release' --roles=@examples/clash.roles; do
        answers 0 examples/clash.words '' ./box words "$list" examples/clash.day || return 1
    done
    printf '3=Adjust,\r\n\n 7 = Release\n' >"$work/names"
    answers 0 examples/clash.words '' ./box words --roles "@$work/names" examples/clash.day || return 1
    answers 0 examples/clash.words '' ./box words --roles @examples/clash.roles examples/clash.day || return 1
    printf '2=Clean\n3=Adjust\n7=Pr\374fung\n' >"$work/names"
    misused '--roles, part 3: a name has printable characters' env LC_ALL=C.UTF-8 ./box picture --roles "@$work/names" examples/clash.day || return 1
    answers 0 examples/clash.svg '' ./box picture --roles @examples/clash.roles --apart Adjust,7 examples/clash.day || return 1
    say 'names in each form'
}

# Files: through links, after --, as -, and the other way round.
files_in_each_form() {
    mkdir "$work/calls" && cp examples/worked.day "$work/calls/-o" && ln -s "$top/box" "$work/calls/link" || return 1
    (cd "$work/calls" && ln -s link again && ./again words -- -o) | cmp examples/worked.words - || return 1
    ./box words - <examples/worked.day | cmp examples/worked.words - || return 1
    ./box words examples/apart.day | ./box frames | cmp examples/apart.day - || return 1
    ./box frames examples/apart.sentences | cmp examples/apart.day - || return 1
    answers 0 /dev/null '' ./box frames -o "$work/calls/out" examples/worked.words && cmp examples/worked.day "$work/calls/out" || return 1
    answers 2 /dev/null 'line 1, column 1: ' ./box frames -o "$work/calls/out" examples/worked.day || return 1
    answers 0 /dev/null 'line 6 changed: the check 38 is now 29' ./box checks -o "$work/calls/out" examples/damaged.day || return 1
    [ "$(diff examples/damaged.day "$work/calls/out" | grep -c '^>')" = 1 ] || return 1
    answers 0 /dev/null '' ./box words -o "$work/calls/words" examples/worked.day && cmp examples/worked.words "$work/calls/words" || return 1
    answers 2 /dev/null 'which would be lost' ./box frames -o "$work/calls/words" "$work/calls/words" || return 1
    cmp examples/worked.words "$work/calls/words" && say 'files in each form'
}

# The sheet of README keeps Adjust and Release apart, as its own names say, and without its guard a request opens both.
sheet_of_readme() {
    sed -n '/^    a sheet of/,/^    the day ends/s/^    //p' README.md >"$work/calls/my.sentences"
    ./box frames -o "$work/calls/my.day" "$work/calls/my.sentences" || return 1
    ./box picture --roles "@$work/calls/my.sentences" --apart Adjust,Release "$work/calls/my.day" >"$work/calls/my.svg" || return 1
    grep -q '>In these minutes Adjust and Release are never open together.<' "$work/calls/my.svg" || return 1
    grep -v '^on disable Beat' "$work/calls/my.sentences" | ./box frames | ./box picture --roles 1=Adjust,2=Release >"$work/calls/my.svg" || return 1
    grep -q '>Both are open in 20 minutes: 550 to 569.<' "$work/calls/my.svg" && say 'the sheet of README'
}

# A picture is written when all went well, and else the file is as it was.
picture_into_file() {
    answers 0 /dev/null '' ./box picture --roles @examples/apart.roles -o "$work/calls/day.svg" examples/apart.day || return 1
    answers 1 /dev/null 'refused: 8 LOOP' ./box picture -o "$work/calls/day.svg" examples/loop.day || return 1
    misused 'does not have it' ./box picture --roles 9=Adjust -o "$work/calls/day.svg" examples/apart.day || return 1
    cmp examples/apart.svg "$work/calls/day.svg" && say 'a picture into a file'
}

# What is given to the wrong word is said to be so.
hints() {
    answers 1 examples/damaged.frames '; ./box words says what is wrong' ./box sheet examples/damaged.day || return 1
    ./box words examples/worked.words 2>&1 >/dev/null | grep -q '; these are sentences: make frames of them first' || return 1
    sed '/^F0/q' examples/worked.day | ./box day 2>&1 >/dev/null | grep -q '; no tape follows the sheet, and a day needs one' || return 1
    ./box words --roles @examples/loop.roles examples/loop.day 2>&1 >/dev/null | grep -q 'from disable Adjust to disable Release (place 782); take a step' &&
        say 'hints'
}

# What is mistyped is said in a line or two, with what may have been meant.
mistyped() {
    misused 'no such word: pictur; did you mean picture?' ./box pictur examples/apart.day || return 1
    misused 'no such word: fly; ./box help lists them' ./box fly || return 1
    misused 'did you mean words?' ./box help wrods || return 1
    misused 'words has no option --role' ./box words --role 3=Adjust || return 1
    misused 'checks has no option --roles' ./box checks --roles 3=Adjust || return 1
    misused "in quotes, as in '3=Adjust, 7=Release'" ./box words --roles 3=Adjust, 7=Release || return 1
    for word in $(./box help | sed -n 's/^  \([a-z][a-z]*\).*/\1/p'); do
        ./box help "$word" | grep -q "^usage: ./box $word" || return 1
    done
    ./box --version | grep -q '^kit: ' && say 'help, and what is mistyped'
}

# closed CALL..: into a pipe that nobody reads it ends with status 1 and says nothing.
closed() {
    {
        sleep 0.2
        "$@" 2>"$work/told"
        say "$?" >"$work/status"
    } </dev/null | :
    [ "$(cat "$work/status")" = 1 ] && [ ! -s "$work/told" ] && return
    cat "$work/told" >&2
    say "box: $*: into a closed pipe the status is $(cat "$work/status"), or something is said" >&2
    return 1
}
into_closed_pipes() {
    for call in day words picture sheet; do
        closed ./box $call examples/apart.day || return 1
    done
    closed ./box frames examples/apart.words && closed ./box help && closed ./box help day && closed ./box version || return 1
    say 'into a closed pipe'
}

shell_as_told() {
    names_must_fit && names_in_each_form && files_in_each_form && sheet_of_readme && picture_into_file && hints && mistyped && into_closed_pipes
}
