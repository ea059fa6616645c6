# Prints one input of the speed run, or of the gate's pipes: awk -v name=NAME [-v until=INSTANT] -f inputs.awk. Nothing in it is random.
#
# Days, of the instants 0 to 10,080 unless `until` says less:
#   common    a dozen rows
#   dense     128 periodic rows and 256 triggers of 4 events and 4 conditions, 63 levels deep by - edges
#   rings     256 triggers on a + ring of 64 events, in the order in which they fire
#   uphill    the same ring in the other order, so that each walk over the rows adds one event
#   graph     the triggers of dense and no periodic row: nothing fires, so that a minute is little but its tests
#   grow-N    the periodic rows of dense and the first N of its triggers
# Readings; those that are refused make no step:
#   longest   the longest good sheet, and as many requests as 65,536 bytes hold: a short day
#   sheet     the longest good sheet and no tape: KIND, after the loop test
#   miscount  the same with a wrong count in its last line: COUNT, before the loop test
#   tape      a sheet without rows and the longest tape, whose last instant is too late: FIELD, at its last line
#   short     the same without the tape: KIND
#   empty     nothing: KIND
# For the pipes:
#   full      an input of exactly 65,536 bytes that passes: a short day
#   over      the same and one byte more: LENGTH
function put(value, bytes) { for (; bytes > 0; bytes--) b[++n] = int(value / 256 ^ (bytes - 1)) % 256 }
function line(  i, sum) {
    for (i = 1; i <= n; i++) {
        sum += b[i]
        printf "%02X", b[i]
    }
    printf "%02X\n", (256 - sum % 256) % 256
    n = 0
}
function header(roles) { put(16, 1); put(1, 1); put(roles, 1); line() }
function periodic(period, first, run, event, priority) {
    put(32, 1); put(0, 4); put(4294967295, 4); put(period, 2); put(first, 2); put(run, 2)
    put(event, 1); put(priority, 1); line()
    periodics++
}
function trigger(events, conditions, head, priority, delay,  e, c, i, j, k) {
    j = split(events, e, " ")
    k = split(conditions, c, " ")
    put(48, 1); put(j, 1); put(k, 1)
    for (i = 1; i <= j; i++) put(e[i], 1)
    for (i = 1; i <= k; i++) put(c[i], 1)
    put(head, 1); put(priority, 1); put(delay, 1); line()
    triggers++
}
function end(more) { put(240, 1); put(periodics, 1); put(triggers + more, 2); line() }
function request(instant, event, priority, delay) { put(64, 1); put(instant, 4); put(event, 1); put(priority, 1); put(delay, 1); line() }
function last(instant) { put(241, 1); put(instant, 4); line() }

# Four roles that are opened in the morning and closed in the evening, two that follow them, and one that waits.
function common(  r) {
    header(8)
    for (r = 0; r < 4; r++) periodic(1440, 480 + 60 * r, 1, 2 * r + 1, 4)
    for (r = 0; r < 4; r++) periodic(1440, 960 + 30 * r, 1, 2 * r, 4)
    trigger("1", "2", 11, 5, 0)
    trigger("3", "11", 13, 5, 0)
    trigger("13", "", 15, 6, 0)
    trigger("0", "", 10, 5, 30)
    end(0)
    last(until)
}

# Each minute most roles are to be enabled, and some of them disabled with a higher priority.
function dense_periodics(many,  i) {
    for (i = 0; i < many; i++)
        if (i % 2 == 0) periodic(60, i % 60, 57, (i + 1) % 128, 8)
        else periodic(60, 7 * i % 60, 5, i - 1, 9)
}
function enabled(role) { return 2 * (role < 0 ? 0 : role) + 1 }
# Rows go up the roles: each enables or disables a role where four below it are enabled, and so hangs on the disabling of these.
function dense_triggers(many,  k, r, v) {
    for (k = 0; k < many; k++) {
        r = 1 + k % 63
        v = int(k / 63)
        trigger(enabled(r - 1) " " enabled(r - 2) " " enabled(r - 3) " " enabled(r - 4), \
            enabled((r + 5) % 64) " " enabled((r + 21) % 64) " " enabled((r + 37) % 64) " " enabled((r + 53) % 64), \
            2 * r + (v + 1) % 2, 1 + v, 0)
    }
}
function dense(many, rows) {
    header(64)
    dense_periodics(many)
    dense_triggers(rows)
    end(0)
    last(until)
}

# Enable r gives enable r + 1, four times over with other priorities, and role 63 comes back to role 0, which alone is given.
function rings(back,  i, k, r) {
    header(64)
    for (i = 0; i < 128; i++) periodic(1 + i, 0, 1, 1, i % 16)
    for (k = 0; k < 256; k++) {
        r = back ? 63 - int(k / 4) : int(k / 4)
        trigger(2 * r + 1, "", 2 * ((r + 1) % 64) + 1, k % 16, 0)
    }
    end(0)
    last(until)
}

function longest(more) {
    header(64)
    dense_periodics(128)
    dense_triggers(256)
    end(more)
}
# So many bytes of requests, 19 each, 32 an instant; how many there are.
function requests(bytes,  i) {
    for (i = 0; 19 * (i + 1) <= bytes; i++) request(int(i / 32), (5 * i) % 128, i % 16, i % 61)
    return i
}
# 9 bytes, 29, 11, 3,446 requests, and 13.
function full() {
    header(64)
    trigger("1 3 5 7", "0 2 4", 9, 5, 0)
    end(0)
    requests(65536 - 49 - 13)
    last(120)
}

BEGIN {
    if (until == "") until = 10080
    if (name == "common") common()
    else if (name == "dense") dense(128, 256)
    else if (name == "rings") rings(0)
    else if (name == "uphill") rings(1)
    else if (name == "graph") dense(0, 256)
    else if (name ~ /^grow-[0-9]+$/) dense(128, substr(name, 6) + 0)
    else if (name == "longest") {
        longest(0)
        last(int((requests(65536 - 12692 - 13) - 1) / 32))
    } else if (name == "sheet") longest(0)
    else if (name == "miscount") longest(1)
    else if (name == "tape" || name == "short") {
        header(64)
        end(0)
        if (name == "tape") {
            requests(65536 - 20 - 13)
            last(10081)
        }
    } else if (name == "full" || name == "over") {
        full()
        if (name == "over") print ""
    } else if (name != "empty") {
        print "inputs.awk: no such input: " name | "cat 1>&2"
        exit 2
    }
}
