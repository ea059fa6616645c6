# What rests on what, for `tools/rests`. It reads the sources and the specs of every crate into declarations, and follows the names that each of them cites.
# A file has the name that docs/CLAIMS.md gives it: crates/theory/specs/Sheet.antt is theory/Sheet; what the code of a crate declares is in its src, as theory/src. A law has one name in either
# place: crates/theory/proofs/Laws/Run.antt is theory/Laws/Run, as crates/loops/specs/Laws/Says.antt is loops/Laws/Says. All else of proofs/ is named with that folder, and is not read.
# A declaration has file and name as its key. It is a record, a data type, a definition, a proof, or in the code a type or a function.
# Nothing is passed over: a line that cannot be read, and a word of which it is not known what it stands for, are said. A variable that has the name of a definition counts as that
# definition: rather one too many.

function amiss(words) { if (!(words in told)) print "rests: " words >"/dev/stderr"; told[words] = bad = 1 }

function before(s, mark) { return substr(s, 1, index(s, mark) - 1) }
function after(s, mark) { return substr(s, index(s, mark) + length(mark)) }
function file_of(key) { return before(key, SUBSEP) }
function name_of(key) { return after(key, SUBSEP) }
function path_of(f) { return f in path_at ? path_at[f] : "crates/" f }
function is_kits(key) { return key !~ /^[a-z_0-9]+\// }
function is_code(f) { return f ~ /\/src$/ }
function is_laws(f) { return f ~ /^[^\/]*\/Laws(\/|$)/ }
function in_proofs(f) { return f ~ /^[^\/]*\/proofs\// }
function is_proofs(f) { return is_laws(f) || in_proofs(f) || f ~ /\/Exact$/ }

# the name of a file of specs/ or proofs/ of a crate
function short(f) {
    if (!sub(/\/specs\//, "/", f) && f ~ /^[^\/]*\/proofs\/Laws(\/|$)/) sub(/\/proofs\//, "/", f)
    return f
}

# ---- reading: the names that a file uses

# the file of one of our modules; a module of the kit stands for itself
function module_file(path,    crate) {
    crate = path
    sub(/^Rattle\./, "", crate)
    sub(/\..*/, "", crate)
    if (path !~ /^Rattle\./ || !(crate in is_crate)) return path
    path = after(path, ".")
    if (index(path, crate ".specs.declared.") == 1) return crate "/src"
    gsub(/\./, "/", path)
    return short(path)
}

# use PATH; use PATH as m; use PATH.{a, b as c}. The path of a type that the code declares ends with its name, and its variants stand for it.
function take_use(s,    path, n, i, item, w, name) {
    gsub(/^(ghost )?use |;$/, "", s)
    path = s
    sub(/\.\{.*/, "", path)
    if (s !~ /\{/) {
        n = split(path, w, /[. ]/)
        sub(/ as .*/, "", path)
        module[file, w[n]] = module_file(path)
        return
    }
    gsub(/.*\{|\}.*/, "", s)
    n = split(s, item, /, */)
    for (i = 1; i <= n; i++) {
        split(item[i] " as " item[i], w, " as ")
        name = w[1]
        if (path ~ /\.declared\./) { name = after(path, ".declared."); sub(/\..*/, "", name) }
        if (path ~ /\.TheVariants$/) is_maker[file, spoken(w[2])] = 1
        means(spoken(w[2]), module_file(path) SUBSEP name)
    }
}

function means(w, key) { meaning_in[file, w] = meaning_in[file, w] key "\n" }

# of a name with places, as ◌gives◌after◌, the first word, gives; the others add nothing to it
function spoken(name,    n, i, w, first) {
    n = name ~ /◌/ ? split(name, w, "◌") : 0
    for (i = 1; i <= n; i++) {
        if (first != "" && w[i] != "") adds_nothing[file, w[i]] = 1
        if (first == "") first = w[i]
    }
    return first == "" ? name : first
}

# ---- reading: declarations of specs

function declare(name, kind,    i) {
    key = file SUBSEP name
    if (!(key in kind_of)) { keys[++key_count] = key; kind_of[key] = kind; means(spoken(name), key) }
    for (i = 1; i <= deep; i++) around[key] = around[key] " " block[i]
}

# a line at the margin: where it belongs is left in place
function take_head(line,    w, k, kind) {
    split(line, w, " ")
    place = ""
    if (w[1] == "use") take_use(line)
    if (w[1] ~ /^(use|unfolding|infix|mod)$/ || w[2] == "mod") return
    if (w[1] == "module") { block_margin[++deep] = margin; block[deep] = ""; place = "module"; return }
    for (kind = "proof"; w[++k] ~ /^(abbrev|unfoldable|pub)$/; ) if (w[k] != "pub") kind = "definition"
    place = "head"
    if (w[k] ~ /^(record|data)$/) declare(w[k + 1], w[k])
    else if (w[k + 1] == ":") declare(w[k], kind)
    else if (w[1] == ")") place = "clauses"
    else if (key != "" && index(" " line " ", " " spoken(name_of(key)) " ")) { place = "clauses"; clauses[key] = clauses[key] "\n" }
    else { amiss(path_of(file) ": this line cannot be read: " line); place = "" }
    if (place == "head") is_pub[key] = w[1] == "pub" || w[2] == "pub"
}

# a field of a record, or a constructor of a data type
function take_item(line,    n, i, w) {
    sub(/^ *(pub )?/, "", line)
    items[key] = items[key] "\n" line
    if (kind_of[key] == "record") return
    n = split(before(line, " :"), w, " ")
    for (i = 1; i <= n; i++) { made_by[file, w[i]] = key; is_maker[file, spoken(w[i])] = 1; means(spoken(w[i]), key) }
}

# a line of the declaration, where it belongs
function take_part(line, at) {
    if (place == "module") { sub(/^ *module _/, "", line); block[deep] = block[deep] " " line }
    if (place == "" || place == "module") return
    lines[key]++
    if (place == "items" && at == margin + 2) take_item(line)
    else if (place == "items") items[key] = items[key] " " line
    else if (place == "clauses") clauses[key] = clauses[key] " " line
    else heads[key] = heads[key] " " line
    if (place == "head" && kind_of[key] ~ /^(record|data)$/ && line ~ / where$/) place = "items"
}

# a line of a spec, without comments and without what stands in quotes; a block's lines stand at its margin or deeper
function take_spec(line,    at) {
    gsub(/"[^"]*"/, " ", line)
    sub(/(^| )--( .*)?$/, "", line)
    sub(/ +$/, "", line)
    at = match(line, /[^ ]/) - 1
    if (at < 0) return
    while (deep > 0 && at <= block_margin[deep]) deep--
    margin = deep > 0 ? block_margin[deep] + 2 : 0
    if (at == margin) take_head(line)
    take_part(line, at)
}

# ---- reading: the code

function closed(s) { return gsub(/\{/, "", s) == gsub(/\}/, "", s) } # each brace that opens is closed

# use CRATE::T, or use CRATE::{T, f, ..}: the types, whose names have small letters too
function take_types(line,    n, i, w) {
    gsub(/[^A-Za-z0-9_]+/, " ", line)
    n = split(line, w, " ")
    for (i = 3; i <= n; i++) if (w[i] ~ /^[A-Z].*[a-z]/) means(w[i], w[2] "/src" SUBSEP w[i])
}

# types, and of functions the signature and the contract
# a contract may stand over several lines, and so may what is used: it is taken as one
function take_code(line,    w) {
    if (clause != "") { sub(/^ +/, "", line); line = clause " " line; if (place == "head") lines[key]++ }
    clause = ""
    if (place == "head" && line ~ /^ *(requires|ensures) / && !closed(line)) clause = line
    if (line ~ /^(ghost )?use / && line !~ /;$/) clause = line
    if (clause != "") return
    if (line ~ /^ghost use /) take_use(line)
    if (line ~ /^use [a-z_]+::/) take_types(line)
    sub(/^pub /, "", line)
    if (line ~ /^(struct|enum|trait|type|fn) /) {
        split(line, w, /[ (<;]+/)
        declare(w[2], w[1] == "fn" ? "function" : "type")
        place = "head"
    }
    if (place == "" || line ~ /^ *\/\//) return
    if (line !~ /^\{/) { lines[key]++; heads[key] = heads[key] "\n" line }
    if (line ~ /^[{}]/ || (kind_of[key] == "function" && line ~ /\{$/) || line ~ /^(struct|type) .*;/) place = ""
}

FILENAME == "crates.txt" { if (sub(/:.*/, "") && /^[a-z_0-9]+$/) is_crate[$0] = 1; next }
FNR == 1 {
    file = FILENAME
    sub(/^crates\//, "", file)
    sub(/\/src\/.*/, "/src", file)
    sub(/\.antt$/, "", file)
    file = short(file)
    if (FILENAME ~ /\.antt$/ && file in path_at) {
        if (FILENAME ~ /\/Laws\.antt$/) twice[FILENAME] = path_at[file]
        else amiss(FILENAME ": " path_at[file] " has the same name, " file)
    }
    if (FILENAME ~ /\.antt$/) path_at[file] = FILENAME
    place = key = ""
    deep = 0
    if (FILENAME ~ /^crates\// && !(file in is_file)) { files[++file_count] = file; is_file[file] = 1 }
}
FILENAME ~ /\.antt$/ && !/^(--.*|(pub )?mod [A-Za-z]+)?$/ { says_more[FILENAME] = 1 }
FILENAME ~ /\.antt$/ { take_spec($0) }
FILENAME ~ /\.rt$/ { take_code($0) }
FILENAME ~ /\.md$/ { take_stored($0); take_theorems($0) }

# ---- following: the words of a text

function apart(s) { gsub(/[(){};,]/, " & ", s); return s }

# the keys that a word stands for, each with a line end; nothing for a variable
function meaning(w,    m) {
    if ((file, w) in meaning_in) return meaning_in[file, w]
    m = w
    sub(/\..*/, "", m)
    return m != w && (file, m) in module ? module[file, m] SUBSEP after(w, ".") "\n" : ""
}

# of x.field, where x is no module, x is cited, and a field adds nothing
function cite(w,    n, i, m, k) {
    if (w ~ /^(\.|[0-9]|_$)/ || w in language || (is_code(file) && w ~ /^(Option|Result)$/)) return # in code these two need no `use`
    if (w ~ /^[^.]+\.[^.]/ && !((file, before(w, ".")) in module)) w = before(w, ".")
    m = meaning(w)
    if (m == "" && !(w in variable || (file, w) in adds_nothing)) amiss(path_of(file) ": " name_of(citing) " cites " w ", and it is not known what that is")
    n = split(m, k, "\n") - 1
    for (i = 1; i <= n; i++) {
        if (k[i] in made_by) k[i] = made_by[k[i]]
        if (is_kits(k[i]) || k[i] in kind_of) cites[citing] = cites[citing] k[i] "\n"
        else amiss(path_of(file) ": " name_of(citing) " cites " name_of(k[i]) " of " file_of(k[i]) ", which " (in_proofs(file_of(k[i])) ? "stands among proofs" : "is not there"))
    }
}

# where names follow the bracket at i up to a colon, a binder: its place
function colon_after(i, n) {
    while (++i <= n && word[i] !~ /^[(){};,]$/) {
        if (word[i] == ":") return i
        if (word[i] in language) return 0
    }
    return 0
}

# (x y : .., λ x y. and let x bind variables; the name of a field in record { x = .. is none; all else is cited
function walk(text,    n, i, j) {
    n = split(apart(text), word, " ")
    for (i = 1; i <= n; i++) {
        j = word[i] ~ /^[({]$/ ? colon_after(i, n) : 0
        if (j) while (++i < j) variable[word[i]] = 1
        else if (word[i] == "λ") i = walk_lambda(i, n)
        else if (word[i] == "let") while (word[++i] !~ /^[:=]$/) variable[word[i]] = 1
        else if (word[i] ~ /[^.]\.$/) i = walk_lambda(i - 1, n)
        else if (word[i] !~ /^[(){};,]$/ && !(word[i - 1] ~ /^[{;]$/ && word[i + 1] == "=")) cite(word[i])
    }
}
function walk_lambda(i, n,    w) { # up to the point, or to a bracket, which is a binder
    while (i < n && word[i + 1] !~ /^[({]$/) {
        w = word[++i]
        if (sub(/\.$/, "", w)) { variable[w] = 1; return i }
        variable[w] = 1
    }
    return i
}

# ---- following: a declaration

# before = stand the name, constructors and variables
function walk_clause(text,    n, i, d, left, m) {
    n = split(apart(text), left, " ")
    for (i = 1; i <= n && !(left[i] == "=" && d == 0); i++) {
        d += (left[i] ~ /^[({]$/) - (left[i] ~ /^[)}]$/)
        if (left[i] ~ /^[(){};,]$/ || left[i] == spoken(name_of(citing))) continue
        m = meaning(left[i])
        if (m != "" && (is_kits(m) || (file, left[i]) in is_maker)) cite(left[i])
        else variable[left[i]] = 1
    }
    for (text = ""; ++i <= n; ) text = text " " left[i]
    walk(text)
}

# a field may be cited by those below it
function walk_items(    n, i, w) {
    n = split(items[citing], w, "\n")
    for (i = 2; i <= n; i++) {
        walk(after(w[i], " :"))
        if (kind_of[citing] == "record") variable[before(w[i], " :")] = 1
    }
}

# the types that a line of code names, but for those that are the language's; what an enum's line begins with is its own, and a name all in capitals is a number
function walk_types(line, skipped,    n, i, w) {
    gsub(/[^A-Za-z0-9_]+/, " ", line)
    n = split(line, w, " ")
    for (i = 1 + skipped; i <= n; i++) if (w[i] ~ /^[A-Z].*[a-z]/ && w[i] !~ /^(Option|Result|Fn|FnMut|FnOnce)$/) cite(w[i])
}

# first the signature, whose names the contract speaks of; a type parameter stands for any type, and its bound is the kit's
function walk_code(    n, i, j, w, v) {
    n = split(heads[citing], w, "\n")
    sub(/<[A-Z]: [A-Za-z]+>/, "", w[2])
    for (i = 2; i <= n; i++) if (w[i] !~ /^ *(requires|ensures) /) {
        walk_types(w[i], i > 2 && w[2] ~ /^enum /)
        for (j = split(w[i], v, /[ (,]+/); j > 0; j--) if (sub(/:$/, "", v[j])) variable[v[j]] = 1
    }
    variable["result"] = 1
    for (j = split(heads[citing], v, /[^A-Za-z0-9_]+/); j > 0; j--) if (v[j] ~ /^[A-Z]$/ || v[j - 1] == "ghost") variable[v[j]] = 1 # parameters, and a trait's own
    for (i = 2; i <= n; i++) if (sub(/^ *((requires|ensures) [^{]*|ghost [a-z_]+: )\{/, "", w[i])) { sub(/\};?$/, "", w[i]); walk(w[i]) }
}

function signature(k,    s) {
    s = heads[k]
    sub(/^ *((abbrev|unfoldable|pub) )*((record|data) [^ ]+|[^ ]+ :) ?/, "", s)
    return s
}

# of a definition all that it says, of a proof only what it proves
function follow(k,    n, i, w) {
    if (k in followed) return
    followed[k] = 1
    citing = k
    file = file_of(k)
    split("", variable)
    if (is_code(file)) { walk_code(); return }
    walk(around[k] " " signature(k))
    walk_items()
    n = is_definition(k) ? split(clauses[k], w, "\n") : 0
    for (i = 2; i <= n; i++) walk_clause(w[i])
}

# ---- what is a definition: a type, or something marked as one that gives data. All else is a proof.

function is_definition(k) {
    if (kind_of[k] != "definition") return kind_of[k] != "proof"
    return gives_data(file_of(k), signature(k))
}

# the parts of a text between the marks that stand outside of all brackets
function parts_by(text, mark, part,    n, i, w, d, many) {
    n = split(apart(text), w, " ")
    part[many = 1] = ""
    for (i = 1; i <= n; i++) {
        d += (w[i] ~ /^[({]$/) - (w[i] ~ /^[)}]$/)
        if (d == 0 && w[i] == mark) part[++many] = ""
        else part[many] = part[many] " " w[i]
    }
    return many
}

# the type ends in data: in `Type`, or in what is no equation, no order and no predicate
function gives_data(f, type,    n, i, part, w) {
    n = parts_by(type, "→", part)
    type = part[n]
    n = parts_by(type, "×", part)
    for (i = 1; n > 1 && i <= n; i++) if (!gives_data(f, part[i])) return 0
    if (n > 1) return 1
    n = split(type, w, " ")
    if (w[1] == "(" && w[n] == ")" && parts_by(type, ")", part) == 2) { gsub(/^ *\(|\) *$/, "", type); return gives_data(f, type) }
    for (i = 1; i <= n; i++) if (w[i] in relation) return 0
    return w[1] == "Type" || is_data(f, w[1], n)
}

# a type by its first word: a variable alone; of the kit those listed; of ours what is no predicate
function is_data(f, w, n,    was, k, s) {
    was = file
    file = f
    k = meaning(w)
    file = was
    if (k == "") return n == 1 && w ~ /^[A-Z]$/
    sub(/\n.*/, "", k)
    if (is_kits(k) || kind_of[k] == "type") return !is_kits(k) || name_of(k) in kit_data
    s = signature(k)
    gsub(/[({][A-Z] : Type 0[)}] */, "", s)
    if (kind_of[k] ~ /^(record|data)$/) return s ~ /^ *: Type 0 where$/
    return kind_of[k] == "definition" && s == "Type 0" && gives_data(file_of(k), after(clauses[k], " = "))
}

# ---- what rests on what

# reach(WHAT, KEY): KEY and all that it rests on; each is left in rests with what cites it
function reach(what, k,    n, i) {
    if (!((what, k) in rests)) { rests[what, k] = k; queue[n = 1] = k }
    for (i = 1; i <= n; i++) n = reach_from(what, queue[i], n)
}
function reach_from(what, k, n,    i, many, w) {
    follow(k)
    many = split(cites[k], w, "\n") - 1
    for (i = 1; i <= many; i++) if (!((what, w[i]) in rests)) {
        rests[what, w[i]] = k
        if (!is_kits(w[i])) queue[++n] = w[i]
        else if (what == "to read") kits[++kit_count] = w[i]
    }
    return n
}

function is_entry(k) { return k in entry }
function is_demand(k) { return file_of(k) == "claims/Demands" && is_pub[k] }
function is_contract(k) { return kind_of[k] == "function" && heads[k] ~ /\n *(requires|ensures) / }
function is_read(k) { return ("to read", k) in rests && !is_entry(k) && !is_demand(k) }

# ---- what is amiss

function excused(k,    s) { # a proof among definitions that is listed with its reason, or whose file is
    s = file_of(k) SUBSEP "*"
    if (s in excuse) k = s
    is_needed[k] = 1
    return k in excuse
}

function judge(k,    f, n, i, w) {
    f = file_of(k)
    if (!is_code(f) && !is_laws(f) && !is_definition(k) && !excused(k)) amiss(path_of(f) ": " name_of(k) " is a proof and stands among definitions")
    if (is_laws(f) || !(("to read", k) in rests || ("contracts", k) in rests)) return
    n = split(cites[k], w, "\n") - 1
    for (i = 1; i <= n; i++) if (is_proofs(file_of(w[i]))) amiss(path_of(f) ": " name_of(k) " cites " name_of(w[i]) " of " file_of(w[i]) ", which stands among proofs")
}

# the list that is stored between the two marks, line by line, and the names in it
function take_stored(line,    n, i, w, f) {
    if (line == "<!-- tools/rests: end -->") in_list = 0
    if (in_list) {
        stored = stored line "\n"
        if (split(line, w, "|") == 5) f = w[2]
        gsub(/^ +| +$/, "", f)
        n = f == "" ? 0 : split(w[4], w, "`")
        for (i = 2; i <= n; i += 2) is_stored[f, w[i]] = 1
    }
    if (line == "<!-- tools/rests: begin -->") in_list = marks = 1
}

# the theorems that docs/CLAIMS.md names below each entry, a line - **`name` (crate/src)**, and below anything else
function take_theorems(line,    n, i, w) {
    if (line ~ /^- /) {
        split(line, w, /[`()]/)
        below = line ~ /^- \*\*`[a-z_]+` \([a-z_]+\/src\)\*\*$/ ? w[4] SUBSEP w[2] : ""
        if (below in entry) is_told[below] = 1
    }
    if (line !~ /^    /) in_theorems = line ~ /^  - theorems: /
    n = in_theorems ? split(line, w, "`") : 0
    for (i = 2; i <= n; i += 2) named[below, w[i]] = 1
}

# what a statement speaks of: all that it cites, by itself or through the words of these files
function speaks(what, k,    n, i, w) {
    follow(k)
    n = split(cites[k], w, "\n") - 1
    for (i = 1; i <= n; i++) if (!((what, w[i]) in spoken_of)) {
        spoken_of[what, w[i]] = 1
        if (file_of(w[i]) ~ /^(claims\/Words|runs\/Runs)$/) speaks(what, w[i])
    }
}

# below each entry stand the theorems that speak of its outcome, which its contract cites; and apart from them those that speak of none
function compare_theorems(    i, j, k, e, any, is_theorem) {
    for (e in entry) {
        follow(e)
        if (!index("\n" cites[e], "\n" entry[e] "\n")) amiss("the contract of " name_of(e) " does not cite " name_of(entry[e]) ", which tools/rests.awk takes for its outcome")
        if (!(e in is_told)) amiss("docs/CLAIMS.md does not say the contract of " name_of(e) " in words")
    }
    for (i = 1; i <= key_count; i++) if (is_demand(k = keys[i])) {
        is_theorem[name_of(k)] = 1
        speaks(k, k)
        any = 0
        for (e in entry) {
            if ((k, entry[e]) in spoken_of) any = 1
            if ((k, entry[e]) in spoken_of && !((e, name_of(k)) in named)) amiss("docs/CLAIMS.md does not name " name_of(k) " below " name_of(e) ", of whose outcome it speaks")
            if (!((k, entry[e]) in spoken_of) && (e, name_of(k)) in named) amiss("docs/CLAIMS.md names " name_of(k) " below " name_of(e) ", of whose outcome it does not speak")
        }
        if (!any && !(("", name_of(k)) in named)) amiss("docs/CLAIMS.md does not name " name_of(k) " among those that speak of no entry's outcome")
        if (any && ("", name_of(k)) in named) amiss("docs/CLAIMS.md names " name_of(k) " among those that speak of no entry's outcome")
    }
    for (k in named) {
        sub(".*" SUBSEP, "", k)
        if (!(k in is_theorem)) amiss("docs/CLAIMS.md names " k ", which is no theorem of claims/Demands")
    }
}

function compare(    i, k, differs) {
    if (!marks) { amiss("docs/CLAIMS.md has no list of what is to be read: the marks <!-- tools/rests: begin --> and <!-- tools/rests: end --> are missing"); return }
    for (i = 1; i <= key_count; i++) {
        k = keys[i]
        if (is_read(k) && !(k in is_stored)) { amiss("docs/CLAIMS.md does not list " name_of(k) " of " file_of(k) ", which is to be read: " name_of(rests["to read", k]) " cites it"); differs = 1 }
    }
    for (k in is_stored) if (!is_read(k)) { amiss("docs/CLAIMS.md lists " name_of(k) " of " file_of(k) ", on which nothing rests"); differs = 1 }
    if (!differs && stored != section) amiss("docs/CLAIMS.md has other words or numbers around the list; sh tools/rests --write puts the right ones there")
}

# ---- the list

function comma(n) { return n < 1000 ? n : int(n / 1000) "," sprintf("%03d", n % 1000) }
function joined(list, more, mark) { return list (list == "" ? "" : mark) more }

function of_the_kit(    i, n, f, names, order, out) {
    for (i = 1; i <= kit_count; i++) {
        f = file_of(kits[i])
        if (!(f in names)) order[++n] = f
        names[f] = joined(names[f], "`" name_of(kits[i]) "`", ", ")
    }
    for (i = 1; i <= n; i++) out = joined(out, names[order[i]] " of " order[i], "; ")
    return out
}

# a text in lines of at most 180 characters
function folded(text,    n, i, w, line, out) {
    n = split(text, w, " ")
    for (i = 1; i <= n; i++) {
        if (line != "" && length(line) + 1 + length(w[i]) > 180) { out = out line "\n"; line = "" }
        line = joined(line, w[i], " ")
    }
    return out line "\n"
}

# the row of a file, or more where it would be too long: its lines are counted in the first
function rows(f, lines, names,    n, i, w, row, out) {
    n = split(names, w, ", ")
    for (i = 1; i <= n; i++) {
        if (row != "" && length(row) + 2 + length(w[i]) > 150) { out = out "| " f " | " lines " | " row " |\n"; lines = "–"; row = "" }
        row = joined(row, w[i], ", ")
    }
    return out "| " f " | " lines " | " row " |\n"
}

# rows for each file in the order of crates.txt, and the totals
function list(    i, k, f, names, sum, all, definitions, specs, of, codes, out) {
    for (i = 1; i <= key_count; i++) if (is_read(k = keys[i])) {
        f = file_of(k)
        names[f] = joined(names[f], "`" name_of(k) "`", ", ")
        sum[f] += lines[k]
        all += lines[k]
        definitions++
    }
    for (i = 1; i <= file_count; i++) {
        f = files[i]
        if (f in names) out = out rows(f, sum[f], names[f])
        if (f in names && is_code(f)) codes++
        if (f in names && !is_code(f)) specs++
        if (!is_code(f) && !is_proofs(f) && f !~ /\/Lib$/ && !((f, "*") in excuse)) of++
    }
    return "| File | Lines | Definitions |\n|---|---|---|\n" out "\nIn all " definitions " definitions, " comma(all) " lines without comments: in " specs " of " of " files of definitions, and as types in " codes " files of code.\n" \
        folded("Of the kit's libraries they use " of_the_kit() ".")
}

BEGIN {
    split("→ λ : = × ⊥ ¬ Unit tt Type record let in where", w, " ")
    for (i in w) language[w[i]] = 1
    split("≡ ≢ ≤ < ↔ ⊎ ⊥ ¬", w, " ")
    for (i in w) relation[w[i]] = 1
    split("ℕ Bool List String Char Option Result", w, " ")
    for (i in w) kit_data[w[i]] = 1
    # the functions that others call, each with the definition of its outcome
    n = split("reader/src read_sheet reader/Reading reading writer/src write_sheet writer/Outcome WriteOutcome step/src step step/Outcome Outcome entry/src step_requests step/Outcome Outcome" \
        " resend/src resend resend/Resend ResendOutcome day_print/src day day_print/Day DayOutcome" \
        " faulty_line/src faulty_line faulty_line/Part shown faulty_line/src faulty_part faulty_line/Part faulty_part", w, " ")
    for (i = 1; i <= n; i += 4) entry[w[i] SUBSEP w[i + 1]] = w[i + 2] SUBSEP w[i + 3]
    # proofs that stand among definitions, and why
    excuse["claims/Demands" SUBSEP "*"] = "the theorems that an auditor reads first"
    excuse["claims/Functions" SUBSEP "*"] = "the theorems of every public function"
}

END {
    for (f in twice) if (f in says_more || twice[f] in says_more) amiss(f ": " twice[f] " has the same name, and one of them says more than which files it has")
    for (k in entry) if (!(k in kind_of)) amiss("there is no " name_of(k) " in " file_of(k))
    for (i = 1; i <= key_count; i++) if (is_entry(keys[i]) || is_demand(keys[i])) reach("to read", keys[i])
    for (i = 1; i <= key_count; i++) if (is_contract(keys[i])) reach("contracts", keys[i])
    section = list()
    if (mode == "print") { printf "%s", section; exit bad }
    compare()
    compare_theorems()
    for (i = 1; i <= key_count; i++) judge(keys[i])
    for (k in excuse) if (!(k in is_needed)) amiss("tools/rests.awk excuses " name_of(k) " of " file_of(k) ", which needs no excuse")
    exit bad
}
