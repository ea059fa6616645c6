# The public functions and crates/claims/specs/Functions.antt, for `tools/listed`: first come the sources, then the specs of crates/claims.
# Below the name of a function stands its theorem. It is read as a telescope, parts that an arrow ends, and a conclusion.
# - A part is made of binders of plain data, or of types, whose elements are plain data too, or it is a hypothesis. A hypothesis is listed below HYPOTHESES with its reason, and what is listed there is there.
# - What the contract speaks of is bound: the theorem is said for all of it.
# - The conclusion is `Exact` of the contract, word for word, over the answer and the end of all that is lent to be changed. (The contract calls the answer `result`; the theorem gives it a
#   name of its own, which is no other word of the contract.)
# - A word means here what it means in the contract: it comes from the same file. `Exact` says that any two outcomes are equal, and nothing else is defined or renamed.

function amiss(words) { print "listed: " words; bad = 1 }

# ---- words

# text with one blank between words, and blanks around brackets; a comment is no word. A field is a word, whose point stands before it: x.now is x .now. (That m.f stands for f of a module m
# is for bare to say.)
function words_of(s) {
    sub(/(^| )--( .*)?$/, "", s)
    gsub(/[(){};,]/, " & ", s)
    gsub(/[ \t]+/, " ", s)
    sub(/^ /, "", s)
    sub(/ $/, "", s)
    return s
}

# as it is written, for messages
function written(s) { gsub(/\( /, "(", s); gsub(/ \)/, ")", s); gsub(/\{ /, "{", s); gsub(/ \}/, "}", s); return s }

# the words of s, each as it is, but x.field as two where x is no module of `where`
function fields_apart(where, s,    n, i, w, v, head, out) {
    n = split(s, v, " ")
    for (i = 1; i <= n; i++) {
        w = v[i]
        head = w
        sub(/\..*/, ".", head)
        if (w ~ /^[^.]+\.[^.]/ && !((where, head) in from)) gsub(/\./, " .", w)
        out = out (i > 1 ? " " : "") w
    }
    return out
}

# a contract as a statement says it: x for what is lent as x, x' for the same at the end; of a returned part, or of one that may be returned (`option_copied`), what it holds. `.old` and `.new` are of what is lent to be changed, `.now` of what is
# lent to be read, and of the answer: anything else is amiss.
function said(fn, s,    crate, n, i, w, out) {
    crate = fn
    sub(/:.*/, "", crate)
    n = split(fields_apart(crate, s), w, " ")
    for (i = 1; i <= n; i++) {
        if (w[i] == "option_copied" && w[i + 1] == "result") w[i] = ""
        else if (w[i + 1] == ".now" && index(read_only[fn] " result ", " " w[i] " ")) w[i + 1] = ""
        else if (w[i + 1] == ".old" && index(changed[fn] " ", " " w[i] "' ")) w[i + 1] = ""
        else if (w[i + 1] == ".new" && index(changed[fn] " ", " " w[i] "' ")) { w[i] = w[i] "'"; w[i + 1] = "" }
        else if (w[i] ~ /^\.(old|new|now)$/) amiss(fn ": in its contract stands " w[i - 1] w[i] ", and it is not known what that is")
        if (w[i] != "") out = out (out == "" ? "" : " ") w[i]
    }
    return out
}

function bare(w) { if (w ~ /^[A-Za-z][^.]*\../) sub(/^[^.]*\./, "", w); return w } # without the name of a module: other points stand apart

function all_bare(s,    n, i, w, out) {
    n = split(s, w, " ")
    for (i = 1; i <= n; i++) out = out (i > 1 ? " " : "") bare(w[i])
    return out
}

# ---- where a word comes from

# use PATH.{a, b as c}, or PATH as x: c comes from PATH.b, and x stands for PATH
function take_use(where, s,    path, n, i, item, w) {
    sub(/^(ghost )?use /, "", s)
    sub(/;$/, "", s)
    path = s
    sub(/\.\{.*/, "", path)
    if (s !~ /\{/) {
        n = split(path, w, /[. ]/)
        sub(/ as .*/, "", path)
        from[where, w[n] "."] = path
        return
    }
    gsub(/.*\{|\}.*/, "", s)
    n = split(s, item, /, */)
    for (i = 1; i <= n; i++) {
        split(item[i] " as " item[i], w, " as ")
        from[where, spoken(w[2])] = path "." w[1]
    }
}

function spoken(name,    w) { if (name ~ /◌/) { split(name, w, "◌"); name = w[1] w[2] } return name } # ◌≡◌ is said ≡

function origin(where, w,    module) {
    if ((where, w) in from) return from[where, w]
    module = w
    sub(/\..*/, ".", module)
    return (where, module) in from && bare(w) != w ? from[where, module] "." bare(w) : ""
}

# a word of the contract that means something else in the theorem; the names of what is given, and of variables, mean nothing by themselves
function other_meaning(fn, statement,    crate, n, i, w, v, meant) {
    crate = fn
    sub(/:.*/, "", crate)
    n = split(contract[fn], w, " ")
    for (i = 1; i <= n; i++) if (!index(given[fn] " ", " " w[i] " ") && ((crate, w[i]) in from || w[i] !~ /^[a-z]/)) meant[w[i]] = origin(crate, w[i])
    for (v in meant) if (index(bound, " " v " ")) return v
    n = split(statement, w, " ")
    for (i = 1; i <= n; i++) if (bare(w[i]) in meant && origin("claims", w[i]) != meant[bare(w[i])]) return w[i]
    return ""
}

# ---- the code

function open_function(s) {
    split(FILENAME, path, "/")
    split(s, word, "(")
    fn = path[2] "::" word[1]
    public[++functions] = fn
    is_public[fn] = 1
    head = ""
}

# at the body of a function its signature is whole: whether it answers, what it is given, and what of it may be changed
function close_function(    n, i, w, name) {
    outcome[fn] = head ~ /->/ ? "result" : ""
    sub(/^[^(]*\(/, "", head)
    sub(/\)[^)]*$/, "", head)
    n = split(head, w, ", *")
    for (i = 1; i <= n; i++) if (w[i] ~ /:/) {
        name = w[i]
        gsub(/^ +|:.*/, "", name)
        given[fn] = given[fn] " " name
        if (w[i] ~ /: &(.[a-z]+ )?mut /) changed[fn] = changed[fn] " " name "'"
        else if (w[i] ~ /: &/) read_only[fn] = read_only[fn] " " name
    }
    if (fn in clauses) contract[fn] = said(fn, words_of(clauses[fn]))
    fn = ""
}

# ensures { WORDS }, or ensures NAME { WORDS }; of several clauses, all that they say
function take_contract(s) {
    sub(/^ *ensures [^{]*\{ */, "", s)
    sub(/ *\}$/, "", s)
    if (fn in clauses) s = joined_clauses(clauses[fn], s)
    clauses[fn] = s
}
function joined_clauses(one, other) {
    if (!(fn in many)) one = "(" one ")"
    many[fn] = 1
    return one " × (" other ")"
}

function closed(s) { return gsub(/\{/, "", s) == gsub(/\}/, "", s) } # each brace that opens is closed

# a contract may stand over several lines: it is taken as one
FILENAME ~ /\.rt$/ {
    line = $0
    sub(/ *$/, "", line)
    if (clause != "") { sub(/^ +/, "", line); line = clause " " line }
    clause = line ~ /^    (requires|ensures) / && !closed(line) ? line : ""
    if (clause != "") next
    if (line ~ /^ghost use /) { split(FILENAME, path, "/"); take_use(path[2], line) }
    if (line ~ /^pub fn /) { sub(/<.*/, "", $3); open_function($3) } # a lifetime or a type parameter is no part of the name
    if (fn == "") next
    if (line ~ /\{$/) { close_function(); next }
    if (line ~ /^    requires/) asks[fn] = 1
    if (line ~ /^    ensures/) take_contract(line)
    if (line !~ /^    (requires|ensures) /) head = head " " line
    next
}

# ---- a theorem

# the conclusion that a function's theorem must have, where it calls the answer so
function exactly(fn, answer,    outs, n, i, w, said_so) {
    n = split(contract[fn], w, " ")
    for (i = 1; i <= n; i++) said_so = said_so (i > 1 ? " " : "") (outcome[fn] != "" && w[i] == "result" ? answer : w[i])
    if (said_so ~ /^\( [^():]* : [^()]*\) →/) said_so = "( " said_so " )" # what is said for all of something stands in brackets there
    outs = (outcome[fn] == "" ? "" : answer) changed[fn]
    sub(/^ /, "", outs)
    n = split(outs, w, " ")
    return "Exact" mark[n] " ( λ " outs ". " said_so " )"
}

# what the conclusion calls the answer: a name that is no other word of the contract, or else `result`
function answer_in(fn, conclusion,    w) {
    if (outcome[fn] == "" || !match(conclusion, /^Exact[^ ]* \( λ [^ ]+/)) return "result"
    split(substr(conclusion, RSTART, RLENGTH), w, " ")
    sub(/\.$/, "", w[4])
    return index(" " contract[fn] changed[fn] " ", " " w[4] " ") ? "result" : w[4]
}

function is_data(type,    n, i, w, o) { # only words of data, or of a type that is bound: no arrow, no equation
    n = split(type, w, " ")
    for (i = 1; i <= n; i++) {
        o = origin("claims", w[i])
        if (index(types, " " w[i] " ")) continue
        if (w[i] !~ /^[()]$/ && !(o in data) && o !~ /\.specs\.declared\.[A-Za-z]+\.[A-Za-z]+$/) return 0
    }
    return n > 0
}

function hypothesis(fn, s) { asked[++hypotheses] = fn "\t" s }

# (x y : T) (z : U) ..: binds their names, where all are of data; a binder of something else is a hypothesis; what is no binder gives 0
function binders(fn, s,    n, i, w, depth, names, type) {
    n = split(s, w, " ")
    for (i = 1; i <= n; i++) {
        if (w[i] !~ /^[({]$/) return 0
        names = type = ""
        while (++i <= n && w[i] != ":") if (w[i] ~ /^[(){}]$/) return 0; else names = names " " w[i]
        for (depth = 1; ++i <= n; type = type " " w[i]) {
            depth += (w[i] ~ /^[({]$/) - (w[i] ~ /^[)}]$/)
            if (depth == 0) break
        }
        sub(/^ /, "", type)
        if (type == "Type 0") { bound = bound names " "; types = types names " " }
        else if (is_data(type)) bound = bound names " "
        else hypothesis(fn, type)
    }
    return n > 0
}

# the parts before the conclusion, and the conclusion
function telescope(fn, s,    n, i, w, depth, part) {
    n = split(s, w, " ")
    bound = types = " "
    part = ""
    for (i = 1; i <= n; i++) {
        depth += (w[i] ~ /^[({]$/) - (w[i] ~ /^[)}]$/)
        if (depth > 0 || w[i] != "→") { part = part (part == "" ? "" : " ") w[i]; continue }
        if (!binders(fn, part)) hypothesis(fn, all_bare(part))
        part = ""
    }
    return all_bare(part)
}

function all_bound(fn,    n, i, w) {
    n = split(given[fn], w, " ")
    for (i = 1; i <= n; i++) if (index(" " contract[fn] " ", " " w[i] " ") && !index(bound, " " w[i] " ")) amiss(fn ": the theorem is not said for all " w[i])
}

function close_entry(    end, word, exact_end) {
    if (entry in is_public && !(entry in contract)) amiss(entry " has no contract that a theorem could say")
    else if (entry in is_public && theorem == "") amiss(entry " has no theorem below its name")
    else if (entry in is_public) {
        end = telescope(entry, statement)
        all_bound(entry)
        word = other_meaning(entry, statement)
        if (word != "") amiss(entry ": " word " is not the " word " of its contract")
        exact_end = exactly(entry, answer_in(entry, end))
        if (end != exact_end) amiss(entry ": the theorem does not conclude " written(exact_end) ", as its contract says")
    }
    entry = theorem = statement = ""
    open = 0
}

# ---- what `Exact` says

# any two outcomes of n parts are equal
function exact_says(n,    i, a, heads, both, one, other, equal) {
    for (i = 1; i <= n; i++) {
        a = substr("abdef", i, 1)
        heads = heads "{ " toupper(a) " } "
        both = both "( " a " " a "' : " toupper(a) " ) "
        one = one " " a
        other = other " " a "'"
        equal = equal (i > 1 ? " × " : "") (n > 1 ? "( " a " ≡ " a "' )" : a " ≡ " a "'")
    }
    return heads "C = " both "→ C" one " → C" other " → " equal
}

/^Exact[^ ]* / {
    for (i = 1; i <= 5; i++) if ($1 == "Exact" mark[i]) {
        exact[i] = 1
        if (words_of($0) != $1 " " exact_says(i)) amiss($1 " does not say that any two outcomes are equal")
    }
}

# ---- crates/claims

# a line below HYPOTHESES: FUNCTION asks `..`: reason
function take_listed(    s, w) {
    split($0, w, "`")
    s = $0
    sub(/^[^`]*`[^`]*`/, "", s)
    if ($3 != "asks" || w[2] == "" || s !~ /^: [^ ]/) { amiss("below HYPOTHESES stands no hypothesis with its reason: " $0); return }
    allowed[++allowances] = $2 "\t" fields_apart("claims", words_of(w[2]))
}

BEGIN {
    split("- ₂ ₃ ₄ ₅", mark, " ")
    mark[1] = ""
    data["Rattle.std.specs.Prelude.ℕ"] = data["Rattle.std.specs.Prelude.Bool"] = data["Rattle.std.specs.Prelude.List"] = data["Rattle.std.specs.Prelude.Result"] = 1
    data["Rattle.reach_row.specs.Row.Row"] = data["Rattle.answers.specs.Answers.Verdict"] = 1
}

FNR == 1 { close_entry(); part = "" }
FILENAME ~ /\/Functions\.antt$/ {
    if (/^use /) take_use("claims", $0)
    if (/^use .*\{.* as /) amiss("Functions.antt gives a name another meaning: " $0)
    if (/^ *module /) amiss("Functions.antt has a module, whose hypotheses would be those of its theorems")
    if (/^ *((pub|abbrev|unfoldable) )*(record|data) / || (/^ *(pub )?(abbrev|unfoldable) / && !/^abbrev pub Exact[^ ]* : /)) amiss("Functions.antt defines something: " $0)
}
/^-- ====/ { close_entry(); part = $3; sub(/[^A-Z]+$/, "", part) }
/^-- [a-z_0-9]+::[a-z_0-9]+/ {
    name = $2
    sub(/[^a-z_0-9]+$/, "", name)
    if (!(name in is_public)) amiss(FILENAME " names " name ", which is no public function")
    if (part == "" || part == "EXCEPTIONS") listed[name] = 1
    if (part == "") { close_entry(); entry = name }
    if (part == "WHAT") told[name] = 1
    if (part == "HYPOTHESES") take_listed()
    next
}
NF == 0 { close_entry() }
entry != "" && theorem == "" && /^pub [^ ]+ : / { theorem = $2; open = 1; sub(/^pub [^ ]+ : /, "") }
open && /^[^ ]/ && $1 == theorem { open = 0 }
open { statement = fields_apart("claims", words_of(statement " " words_of($0))) }

END {
    close_entry()
    for (i = 1; i <= functions; i++) {
        fn = public[i]
        if (!(fn in listed)) amiss(fn " stands in no theorem of crates/claims and is no exception")
        if (fn in asks && !(fn in told)) amiss(fn " asks something of its caller, and crates/claims does not say what")
    }
    for (i = 1; i <= hypotheses; i++) there[asked[i]] = 1
    for (i = 1; i <= allowances; i++) {
        split(allowed[i], pair, "\t")
        if (!(allowed[i] in there)) amiss(pair[1] ": no theorem asks `" written(pair[2]) "` any more")
        may[allowed[i]] = 1
    }
    for (i = 1; i <= hypotheses; i++) {
        split(asked[i], pair, "\t")
        if (!(asked[i] in may)) amiss(pair[1] ": the theorem asks `" written(pair[2]) "`, which is not listed below HYPOTHESES")
    }
    for (i = 1; i <= 5; i++) if (!exact[i]) amiss("Functions.antt does not define Exact" mark[i])
    exit bad
}
