# shellcheck shell=sh disable=SC2154
# What `./box mutants` does; box reads this file, and has what it names and does not make.

# The tool that finds changes, draws some and makes them.
finder=$top/target/mutants
build_finder() {
    [ -x "$finder" ] && [ -z "$(find mutants -newer "$finder")" ] || compile "$finder" mutants/*.c
}

# draw_changes N SEED [CRATE]: the changes to try stand in `drawn`, crate by crate, each after how many of its crate are asked for. Programs
# that only try things, try_NAME, and what they share, cases, are left out: no contract speaks of what they do.
draw_changes() {
    (cd "$work/1" && "$finder" list crates/*/src/*.rt) >"$work/list" || return 1
    awk -F '\t' -v only="${3-}" '$1 !~ /^(try_.*|cases)$/ && (only == "" || $1 == only)' "$work/list" >"$work/mine"
    "$finder" draw "$1" "$2" <"$work/mine" >"$work/drawn" || return 1
    cut -f 2 "$work/drawn" | uniq >"$work/names"
}

# is_proved CRATE: as it stands in this copy. What was said is left in $said.
is_proved() { (cd "crates/$1" && exec rt check) </dev/null >"$said" 2>&1; }

# runs_well CRATE: the tests of a crate that has some pass, and a program ends well and prints what its file stdout has.
runs_well() (
    cd "crates/$1" || exit 1
    if grep -rqF '#[test]' src; then rt test </dev/null >"$said" 2>&1 || exit 1; fi
    [ -e src/main.rt ] || exit 0
    given=stdin wanted=stdout
    [ -e stdin ] || given=/dev/null
    [ -e stdout ] || wanted=/dev/null
    rt run <"$given" >"$said.printed" 2>"$said" && cmp "$wanted" "$said.printed" >>"$said" 2>&1
)

# by_form: what was refused is only that a proof file speaks of a name that the changed code does not have. No fact was asked. (Laws are of no function, wherever they stand.)
by_form() {
    awk '/ did not prove / || (/: no proof: / && !/ it calls /) { fact = 1 }
        /: error: / && !/was not admitted/ { if (/^(\.\/)?proofs\/.*(has no field|has no `|is not in scope)/ && !/^(\.\/)?proofs\/Laws[.\/]/) form = 1; else fact = 1 }
        END { exit !(form && !fact) }' "$said"
}

# judge_change CRATE: what the prover says of this copy. Where it refuses nothing, the crate is run.
judge_change() {
    is_proved "$1"
    code=$?
    if [ "$code" -eq 0 ]; then
        outcome=survived
        runs_well "$1" || outcome='survived, and its run fails'
        return
    fi
    outcome='no answer'
    [ "$code" -eq 1 ] || return
    if grep -q '^logic=not-proved' "$said"; then
        outcome=refused
        ! by_form || outcome='refused by form'
    elif grep -q ': error\[' "$said"; then
        outcome=senseless
    fi
}

# try_change CRATE: makes a change in this copy, judges it and takes it back. After a survivor the copy is proved again.
try_change() {
    file=$(printf '%s\n' "$change" | cut -f 2)
    "$finder" apply "$change" >"$said.new" && cp "$file" "$said.old" && cp "$said.new" "$file" || return 1
    judge_change "$1"
    cp "$said.old" "$file" || return 1
    case $outcome in
    survived*) is_proved "$1" || return 1 ;;
    esac
    printf '%s\t%s\n' "$outcome" "$change" >>"$work/outcomes"
}

# try_crate CRATE: as many changes as are asked of it. What does not compile is no change, and the next comes in its place. Before
# and after, the crate must be proved as it is: else nothing that was refused would count.
try_crate() {
    is_proved "$1" || return 1
    awk -F '\t' -v crate="$1" '$2 == crate' "$work/drawn" >"$said.drawn"
    left=$(head -n 1 "$said.drawn" | cut -f 1)
    while [ "$left" -gt 0 ] && IFS= read -r change; do
        change=${change#*"$tab"}
        try_change "$1" || return 1
        [ "$outcome" = senseless ] || left=$((left - 1))
    done <"$said.drawn"
    is_proved "$1"
}

# try_crates K OF: every OF-th crate from the K-th on, in copy K.
try_crates() {
    cd "$work/$1" || return 1
    said=$work/$1/said tab=$(printf '\t')
    for name in $(awk -v k="$1" -v of="$2" 'NR % of == k % of' "$work/names"); do
        try_crate "$name" && continue
        say "box: $name is not proved as it stands, or a change could not be made or taken back" >"$work/$1/failed"
        tail -n 1 "$said" >>"$work/$1/failed"
        return 1
    done
}

# tell_new N: what came of the changes since this was last asked, one line each.
tell_new() {
    awk -F '\t' -v seen="$seen" -v n="$1" '
        $1 != "senseless" { k++ }
        NR <= seen { next }
        { what = $2 " " substr($3, index($3, "src/")) ":" $4 ", " $8 ": `" $11 "` " ($12 == "" ? "goes" : "becomes `" $12 "`") }
        $1 == "senseless" { print "passed over, for it does not compile: " what; next }
        { printf "%d of %d: %s: %s\n", k, n, $1, what }
        END { print NR >seen_file }' seen_file="$work/seen" "$work/outcomes"
    seen=$(cat "$work/seen")
}

# try_all N: up to two crates at a time, each in a copy of its own.
try_all() {
    jobs=${RT_JOBS:-$(nproc 2>/dev/null || echo 1)} seen=0
    [ "$jobs" = 1 ] || jobs=2
    [ "$jobs" = 1 ] || copy_crates "$work/2" || return 1
    : >"$work/outcomes"
    try_crates 1 "$jobs" &
    beside=$!
    if [ "$jobs" = 2 ]; then
        try_crates 2 2 &
        beside="$beside $!"
    fi
    code=0
    for worker in $beside; do
        while kill -0 "$worker" 2>/dev/null; do
            sleep 1
            tell_new "$1"
        done
        wait "$worker" || code=1
    done
    beside=''
    tell_new "$1"
    cat "$work"/[12]/failed >&2 2>/dev/null
    return "$code"
}

# counted_by FIELD WHAT: the outcomes by crate or by kind, as a table: how many changes there are, were tried, were refused (of these
# by form), and survived; and how many more did not compile.
counted_by() {
    awk -F '\t' -v field="$1" -v what="$2" '
        function line(a, b, c, d, e, f, g) { printf "| %-15s | %7s | %5s | %7s | %7s | %8s | %12s |\n", a, b, c, d, e, f, g }
        FILENAME == ARGV[1] { if (!($field in there)) name[++n] = $field; there[$field]++; all++; next }
        { k = $(field + 1) }
        $1 == "senseless" { none[k]++; passed++; next }
        { tried[k]++; done++ }
        /^refused/ { fact[k]++; facts++ }
        $1 == "refused by form" { form[k]++; forms++ }
        !/^refused/ { left[k]++; lefts++ }
        END {
            line(what, "there", "tried", "refused", "by form", "survived", "not compiled")
            print "|---|---|---|---|---|---|---|"
            for (i = 1; i <= n; i++) {
                k = name[i]
                line(k, there[k], tried[k] + 0, fact[k] + 0, form[k] + 0, left[k] + 0, none[k] + 0)
            }
            line("all", all, done + 0, facts + 0, forms + 0, lefts + 0, passed + 0)
        }' "$work/mine" "$work/outcomes"
}

# unexplained: the survivors as rows of docs/MUTANTS.md, under 'Survivors'. Status 1 where one has no row there with a reason in it.
unexplained() {
    awk -F '\t' '
        function code(s, out, i) {
            while ((i = index(s, "|")) > 0) {
                out = out substr(s, 1, i - 1) "\\|"
                s = substr(s, i + 1)
            }
            return out s == "" ? "(nothing)" : "`" out s "`"
        }
        FILENAME == ARGV[1] {
            if (/^## /) on = $0 == "## Survivors"
            if (on && /^\| /) row[++rows] = $0
            next
        }
        /^refused/ || /^senseless/ { next }
        {
            key = "| " $2 " | " $8 " | " code($11) " | " code($12) " |"
            why = ""
            for (i = 1; i <= rows; i++) if (index(row[i], key) == 1) why = substr(row[i], length(key) + 1)
            gsub(/^[ |]+|[ |]+$/, "", why)
            print $1 ": " key (why == "" ? " NOT EXPLAINED" : " " why)
            if (why == "") bad = 1
        }
        END { exit bad }' docs/MUTANTS.md "$work/outcomes"
}

# mutants N [CRATE] [SEED]: a word of digits is the seed, and no crate's name is one.
mutants() {
    [ $# -ge 1 ] || misuse mutants "takes the number of changes"
    counted mutants "$1" "the number of changes"
    number=$1 crate='' seed=1
    shift
    case ${1-0} in
    [0-9]*) ;;
    '') misuse mutants "takes as a crate one that crates.txt lists, and not ''" ;;
    *)
        crate=$1
        shift
        ;;
    esac
    [ $# -le 1 ] || misuse mutants "takes a number, a crate, a seed and no further word"
    seed=${1-1}
    counted mutants "$seed" "the seed"
    known_crate
    kit_there
    room
    # What the prover leaves when it is ended goes with the rest. A program that is run as nobody must find its way.
    chmod 711 "$work" && TMPDIR=$work && export TMPDIR
    try_mutants
}

known_crate() {
    case $crate in
    '') return ;;
    *[!A-Za-z0-9_]*) misuse mutants "takes as a crate one that crates.txt lists, and not '$crate'" ;;
    try_* | cases) misuse mutants "leaves $crate out: it only tries things, and no contract speaks of it" ;;
    esac
    listed "$crate" || misuse mutants "takes as a crate one that crates.txt lists, and not '$crate'"
}

try_mutants() {
    build_finder || stop 1 "the tool that finds changes was not built"
    copy_crates "$work/1" || stop 1 "the crates could not be copied"
    draw_changes "$number" "$seed" "$crate" || stop 1 "no changes could be drawn"
    [ -s "$work/drawn" ] || misuse mutants "finds no code to change in ${crate:-any crate}"
    say "box: $(wc -l <"$work/mine" | tr -d ' ') changes can be tried, $number are asked for; seed $seed"
    say "box: proving in a copy what is not proved yet" >&2
    # shellcheck disable=SC2046
    check_in "$work/1" "$top/target/mutants.log" $(cat "$work/names") || stop 1 "the crates are not proved: target/mutants.log says why"
    try_all "$number" || stop 1 "nothing counts"
    tried=$(grep -vc '^senseless' "$work/outcomes")
    [ "$tried" -eq "$number" ] || say "box: there were no more than $tried changes that compile"
    say
    counted_by 6 kind
    say
    counted_by 1 crate
    say
    unexplained || stop 1 "a change was not refused, and docs/MUTANTS.md does not say why"
    say "box: every change was refused, or docs/MUTANTS.md says why not"
}
