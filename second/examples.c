/* The bench examples of document 01, its warnings, the paper's examples, and what all share. */
#include "examples.h"

#include <stdio.h>
#include <string.h>

static unsigned passed = 0, failed = 0;

/* Prints one line for an example and counts it. */
void check(const char *name, int right)
{
    printf("%s %s\n", right ? "pass" : "FAIL", name);
    if (right) {
        passed++;
    } else {
        failed++;
    }
}

/* The same with the words that all the examples of a table begin with. */
void check_named(const char *before, const char *name, int right)
{
    char whole[200];

    sprintf(whole, "%.90s%.100s", before, name);
    check(whole, right);
}

/*
 * Puts frames, given in hexadecimal without their checks and parted by blanks, as lines with
 * checks.
 */
void put_frames(struct text *out, const char *frames)
{
    uint8_t bytes[600];
    size_t length = 0, digits = 0;
    unsigned value;

    for (;; frames++) {
        if (*frames == ' ' || *frames == 0) {
            if (digits > 0) {
                text_frame(out, bytes, length);
            }
            length = 0;
            digits = 0;
            if (*frames == 0) {
                return;
            }
            continue;
        }
        value = (unsigned)(*frames >= 'A' ? *frames - 'A' + 10 : *frames - '0');
        if (digits % 2 == 0) {
            bytes[length] = (uint8_t)(16 * value);
        } else {
            bytes[length] = (uint8_t)(bytes[length] + value);
            length++;
        }
        digits++;
    }
}

/* Whether an answer is the one expected. */
int is(struct answer found, unsigned number, uint32_t place)
{
    return found.number == number && found.place == place;
}

/* Reads the bytes of a sheet into a fresh bench. */
void bench_bytes(struct bench *bench, const uint8_t *bytes, size_t length)
{
    static struct sheet sheet;
    struct lent lent;

    memset(bench, 0, sizeof *bench);
    memset(&sheet, 0, sizeof sheet);
    lent.periodic = bench->periodic;
    lent.periodic_length = PERIODIC_MOST;
    lent.trigger = bench->trigger;
    lent.trigger_length = TRIGGERS_MOST;
    bench->read = read_sheet(bytes, length, &lent, &sheet);
    bench->tables = tables_of(&sheet, &lent);
    bench->state.waiting = bench->waiting;
    bench->state.waiting_length = WAITING_LENGTH;
    bench->requests.list = bench->list;
}

/* Reads a sheet, given as frames, into a fresh bench. */
void bench_frames(struct bench *bench, const char *frames)
{
    static struct text text;

    text_clear(&text);
    put_frames(&text, frames);
    bench_bytes(bench, text.bytes, text.length);
}

/* Reads a sheet, given as it stands. */
struct answer read_of(const char *sheet)
{
    static struct bench bench;

    bench_bytes(&bench, (const uint8_t *)sheet, strlen(sheet));
    return bench.read;
}

/* Reads a sheet, given as frames. */
struct answer read_frames(const char *frames)
{
    static struct bench bench;

    bench_frames(&bench, frames);
    return bench.read;
}

/* Adds a request for the next step. */
static void ask(struct bench *bench, unsigned priority, unsigned event, unsigned delay)
{
    bench->list[bench->requests.count].event = (uint8_t)event;
    bench->list[bench->requests.count].priority = (uint8_t)priority;
    bench->list[bench->requests.count].delay = (uint8_t)delay;
    bench->requests.count++;
}

/* Steps the bench with its requests, which are then used up. */
static struct answer go(struct bench *bench)
{
    struct answer found = step(&bench->tables, &bench->state, bench->events.priorities, EVENTS,
                               &bench->requests);

    bench->requests.count = 0;
    return found;
}

/* Whether the events buffer holds exactly these: pairs of priority and event. */
static int events_are(const struct bench *bench, unsigned count, const unsigned *pairs)
{
    struct set wanted;
    unsigned i;

    memset(&wanted, 0, sizeof wanted);
    for (i = 0; i < count; i++) {
        add(&wanted, pairs[2 * i], pairs[2 * i + 1]);
    }
    return same_set(&wanted, &bench->events);
}

/* How many waiting events the buffer holds. */
static unsigned waiting_events(const struct bench *bench)
{
    unsigned i, p, count = 0;

    for (i = 0; i < WAITING_LENGTH; i++) {
        for (p = 0; p < PRIORITIES; p++) {
            count += (bench->waiting[i] >> p) & 1u;
        }
    }
    return count;
}

/* Whether priority:event waits for instant u. */
static int waits(const struct bench *bench, uint32_t u, unsigned priority, unsigned event)
{
    return ((bench->waiting[(u % WAITING_ROWS) * EVENTS + event] >> priority) & 1) == 1;
}

/* Runs a program on an input and compares all of its output. */
int gives(program *run, const char *input, const char *output)
{
    static struct text out;

    run((const uint8_t *)input, strlen(input), &out);
    return out.length == strlen(output) && memcmp(out.bytes, output, out.length) == 0;
}

/* Runs a program on frames and expects one refusal. */
int refuses(program *run, const char *frames, struct answer refusal)
{
    static struct text in, out;
    char wanted[40];
    unsigned sum = 0xE0 + refusal.number, i;

    for (i = 0; i < 4; i++) {
        sum += ((refusal.place >> (8 * i)) & 255) + ((refusal.column >> (8 * i)) & 255);
    }
    sprintf(wanted, "E0%02X%08lX%08lX%02X\n", refusal.number, (unsigned long)refusal.place,
            (unsigned long)refusal.column, (256 - sum % 256) % 256);
    text_clear(&in);
    put_frames(&in, frames);
    run(in.bytes, in.length, &out);
    return out.length == strlen(wanted) && memcmp(out.bytes, wanted, out.length) == 0;
}

static struct bench bench; /* the bench that the examples use */

/* Example 1. */
static void example_1(void)
{
    struct periodic row = {0, NO_END, 24, 1, 12, 1, 0};
    struct periodic window = {5, 25, 10, 0, 1, 1, 0};
    struct periodic all = {5, 25, 1, 0, 1, 1, 0};

    check("example 1: period 24, first 1, run 12 is due at 1, 12, 25",
          due(&row, 1) && due(&row, 12) && due(&row, 25));
    check("example 1: and not at 0, 13, 24",
          !due(&row, 0) && !due(&row, 13) && !due(&row, 24));
    check("the period counts from instant 0 and not from begin",
          due(&window, 10) && due(&window, 20) && !due(&window, 5) && !due(&window, 15)
          && !due(&window, 25) && !due(&window, 0) && !due(&window, 30));
    check("begin and end are themselves in the window",
          due(&all, 5) && due(&all, 25) && !due(&all, 4) && !due(&all, 26));
}

/* Example 2. */
static void example_2(void)
{
    bench_frames(&bench, "100103 F0000000");
    bench.state.roles = 4;
    ask(&bench, 6, 5, 0);
    ask(&bench, 6, 4, 0);
    check("example 2: 6:enable 2 and 6:disable 2: disable wins",
          is(go(&bench), OK, 0) && bench.state.roles == 0);
    ask(&bench, 7, 5, 0);
    ask(&bench, 6, 4, 0);
    check("example 2: 7:enable 2 and 6:disable 2: enable wins",
          is(go(&bench), OK, 0) && bench.state.roles == 4);
}

/* Puts two triggers of one body event each into a bench of two roles without asking the reader. */
static void two_triggers(unsigned count, const unsigned *pairs)
{
    unsigned i;

    bench_frames(&bench, "100102 F0000000");
    for (i = 0; i < count; i++) {
        bench.trigger[i].event_count = 1;
        bench.trigger[i].events[0] = (uint8_t)pairs[2 * i];
        bench.trigger[i].head = (uint8_t)pairs[2 * i + 1];
    }
    bench.tables.trigger_count = count;
}

/* Example 3. */
static void example_3(void)
{
    static const unsigned loop[] = {1, 0};

    check("example 3: \"enable 0 gives disable 0\", delay 0: the reader says LOOP, place 0",
          is(read_frames("100101 30010001000000 F0000001"), LOOP, 0));
    two_triggers(1, loop);
    check("example 3: and so does the step", is(go(&bench), LOOP, 0));
    check("example 3: with delay 1 the reader accepts",
          is(read_frames("100101 30010001000001 F0000001"), OK, 0));
    two_triggers(1, loop);
    bench.trigger[0].delay = 1;
    check("example 3: and so does the step", is(go(&bench), OK, 0));
}

/* Example 4. */
static void example_4(void)
{
    static const unsigned loop[] = {1, 2, 3, 0};

    check("example 4: \"enable 0 gives disable 1\" and \"enable 1 gives disable 0\": LOOP, place 2",
          is(read_frames("100102 30010001020000 30010003000000 F0000002"), LOOP, 2));
    two_triggers(2, loop);
    check("example 4: and so does the step", is(go(&bench), LOOP, 2));
}

/* Example 5. */
static void example_5(void)
{
    bench_frames(&bench, "100102 30010001030000 30010003010000 F0000002");
    check("example 5: \"enable 0 gives enable 1\" and back: accepted", is(bench.read, OK, 0));
    check("example 5: no givens, empty solution",
          is(go(&bench), OK, 0) && events_are(&bench, 0, NULL) && bench.state.roles == 0);
}

/* Example 6. */
static void example_6(void)
{
    static const unsigned wanted[] = {1, 1, 3, 1, 2, 0, 9, 6};

    bench_frames(&bench, "100104 2000000000FFFFFFFF0001000000010101 F0010000");
    check("example 6: empty trigger table: accepted", is(bench.read, OK, 0));
    ask(&bench, 3, 1, 0);
    ask(&bench, 2, 0, 0);
    ask(&bench, 9, 6, 0);
    check("example 6: the solution is the givens",
          is(go(&bench), OK, 0) && events_are(&bench, 4, wanted));
}

/* Example 7: all pairs of sets of at most two priorities each, seen through every candidate set. */
static void example_7(void)
{
    unsigned p, q, fired = 0, single = 0, cases = 0;
    struct set givens, found;

    bench_frames(&bench, "100102 3002000100030500 F0000001");
    for (p = 0; p < 256; p++) {
        for (q = 0; q < 256; q++) {
            memset(&givens, 0, sizeof givens);
            givens.priorities[1] = (uint16_t)((1u << (p % 16)) | (1u << (p / 16)));
            givens.priorities[0] = (uint16_t)((1u << (q % 16)) | (1u << (q / 16)));
            cases++;
            single += count_solutions(&bench.tables, 0, &givens, &found);
            fired += found.priorities[3] != 0 ? 1u : 0u;
        }
    }
    check("example 7: body with enable 0 and disable 0: accepted", is(bench.read, OK, 0));
    check("example 7: it fires in no solution", single == cases && fired == 0);
}

/* The input of the day program that document 01 works out. */
const char worked_input[] =
    "100103EC\n2000000000FFFFFFFF0018000100010104C5\n30010001040600C4\n3001010402030502BE\n"
    "F00100020D\n4000000001050600B4\nF1000000040B\n";

/* Example 8. */
static void example_8(void)
{
    static const unsigned wanted[] = {4, 1, 6, 5, 6, 4};

    bench_bytes(&bench, (const uint8_t *)worked_input, (size_t)(strstr(worked_input, "400") - worked_input));
    check("example 8: the sheet of the input is accepted", is(bench.read, OK, 0));
    check("example 8: instant 0 has no events", is(go(&bench), OK, 0) && events_are(&bench, 0, NULL));
    ask(&bench, 6, 5, 0);
    check("example 8: at instant 1: 4:enable 0, 6:enable 2, 6:disable 2",
          is(go(&bench), OK, 0) && events_are(&bench, 3, wanted));
    check("example 8: 5:enable 1 waits for 3",
          waiting_events(&bench) == 1 && waits(&bench, 3, 5, 3));
}

/* Example 9. */
static void example_9(void)
{
    check("example 9: trigger delay 60 accepted",
          is(read_frames("100101 3001000101003C F0000001"), OK, 0));
    check("example 9: trigger delay 61 FIELD",
          is(read_frames("100101 3001000101003D F0000001"), FIELD, 2));
    check("example 9: role count 64 accepted", is(read_frames("100140 F0000000"), OK, 0));
    check("example 9: role count 65 FIELD", is(read_frames("100141 F0000000"), FIELD, 1));
    check("example 9: period 10,080 accepted",
          is(read_frames("100101 2000000000FFFFFFFF2760000000010100 F0010000"), OK, 0));
    check("example 9: period 10,081 FIELD",
          is(read_frames("100101 2000000000FFFFFFFF2761000000010100 F0010000"), FIELD, 2));
}

/* Example 10. */
static void example_10(void)
{
    check("example 10: line \"00\": KIND", is(read_of("00\n"), KIND, 1));
    check("example 10: line \"10\": CHECK", is(read_of("10\n"), CHECK, 1));
    check("example 10: line \"1\": FRAME", is(read_of("1\n"), FRAME, 1));
    check("example 10: lower case: FRAME", is(read_of("100103ec\n"), FRAME, 1));
    check("example 10: the same in a second line",
          is(read_of("100103EC\n00\n"), KIND, 2) && is(read_of("100103EC\n10\n"), CHECK, 2)
          && is(read_of("100103EC\n1\n"), FRAME, 2) && is(read_of("100103EC\nf000000010\n"), FRAME, 2));
}

/* Example 11. */
static void example_11(void)
{
    unsigned i;

    bench_frames(&bench, "100101 F0000000");
    bench.state.instant = 16777215;
    ask(&bench, 0, 1, 60);
    check("example 11: instant 16,777,215 steps",
          is(go(&bench), OK, 0) && bench.state.instant == 16777216);
    check("example 11: what waits for later instants is kept unmet", waits(&bench, 16777275, 0, 1));
    check("example 11: the next is LAST", is(go(&bench), LAST, 0) && bench.state.instant == 16777216);
    bench.state.instant = 5;
    for (i = 0; i < 32; i++) {
        ask(&bench, i % 16, i % 2, 0);
    }
    check("example 11: 32 requests step", is(go(&bench), OK, 0) && bench.state.instant == 6);
    for (i = 0; i < 33; i++) {
        ask(&bench, i % 16, i % 2, 0);
    }
    check("example 11: 33 are TOO MANY", is(go(&bench), TOO_MANY, 0) && bench.state.instant == 6);
}

/* The worked input and output, byte for byte. */
static void worked(void)
{
    check("the day program's input gives its output byte for byte",
          gives(day, worked_input,
                "5000000000000000000000000000B0\n"
                "5000000001000000000000000102AC\n"
                "5000000002000000000000000100AD\n"
                "5000000003000000000000000301A9\n"
                "5000000004000000000000000300A9\n"));
}

/* Wrong way: reading conditions after the minute's own events. */
static void wrong_conditions(void)
{
    static const unsigned first[] = {0, 1}, second[] = {0, 1, 0, 3};

    bench_frames(&bench, "100102 3001010101030000 F0000001");
    ask(&bench, 0, 1, 0);
    check("wrong way 1: \"enable 0, if enabled 0, gives enable 1\" stays still when 0 was not enabled before",
          is(go(&bench), OK, 0) && events_are(&bench, 1, first) && bench.state.roles == 1);
    ask(&bench, 0, 1, 0);
    check("wrong way 1: and fires the minute after",
          is(go(&bench), OK, 0) && events_are(&bench, 2, second) && bench.state.roles == 3);
    bench_frames(&bench, "100102 3001010100030000 F0000001");
    ask(&bench, 0, 1, 0);
    check("wrong way 1: \"if not enabled 0\" holds although 0 is enabled in the same minute",
          is(go(&bench), OK, 0) && events_are(&bench, 2, second) && bench.state.roles == 3);
}

/* Wrong way: letting triggers that feed each other in a ring start from nothing. */
static void wrong_ring(void)
{
    static const unsigned started[] = {0, 1, 0, 3, 0, 5, 8, 3};

    bench_frames(&bench, "100103 30010001030000 30010003050000 30010005010000 F0000003");
    check("wrong way 2: a ring of three does not start from nothing",
          is(go(&bench), OK, 0) && events_are(&bench, 0, NULL));
    ask(&bench, 8, 3, 0);
    check("wrong way 2: a request starts it and it closes",
          is(go(&bench), OK, 0) && events_are(&bench, 4, started) && bench.state.roles == 7);
    check("wrong way 2: it does not go on by itself the minute after",
          is(go(&bench), OK, 0) && events_are(&bench, 0, NULL) && bench.state.roles == 7);
}

/* Wrong way: blocking tested against what had been found so far. */
static void wrong_blocking(void)
{
    static const unsigned wanted[] = {0, 1, 0, 3, 0, 2};

    bench_frames(&bench, "100103 30010003050000 30010001020000 30010001030000 F0000003");
    ask(&bench, 0, 1, 0);
    check("wrong way 3: \"enable 1 gives enable 2\" does not fire, since a later head disables 1",
          is(bench.read, OK, 0) && is(go(&bench), OK, 0) && events_are(&bench, 3, wanted)
          && bench.state.roles == 1);
    bench_frames(&bench, "100103 30010001030000 30010003050000 30010001020000 F0000003");
    ask(&bench, 0, 1, 0);
    check("wrong way 3: in another order of the rows too",
          is(go(&bench), OK, 0) && events_are(&bench, 3, wanted) && bench.state.roles == 1);
}

/* Wrong way: drawing edges for delayed triggers. */
static void wrong_edges(void)
{
    check("wrong way 4: a delayed trigger draws no edge in a cycle of two",
          is(read_frames("100102 30010001020001 30010003000000 F0000002"), OK, 0));
    check("wrong way 4: nor when its head is a node by another trigger",
          is(read_frames("100103 30010001020001 30010003000000 30010005020000 F0000003"), OK, 0));
    check("wrong way 4: a head of a delayed trigger only is no node",
          is(read_frames("100102 30010001000001 30010001020000 F0000002"), OK, 0));
    check("wrong way 4: a delayed trigger beside an undelayed one takes no edge away",
          is(read_frames("100101 30010001000001 30010001000000 F0000002"), LOOP, 0));
}

/* Wrong way: dropping a waiting event when its role changes. */
static void wrong_waiting(void)
{
    static const unsigned wanted[] = {3, 3};

    bench_frames(&bench, "100102 30010001030302 F0000001");
    ask(&bench, 0, 1, 0);
    check("wrong way 5: a delayed head waits", is(go(&bench), OK, 0) && waits(&bench, 2, 3, 3));
    ask(&bench, 15, 2, 0);
    ask(&bench, 15, 0, 0);
    check("wrong way 5: it goes on waiting when its role and its cause are disabled",
          is(go(&bench), OK, 0) && waits(&bench, 2, 3, 3) && bench.state.roles == 0);
    check("wrong way 5: and is met",
          is(go(&bench), OK, 0) && events_are(&bench, 1, wanted) && bench.state.roles == 2
          && waiting_events(&bench) == 0);
}

/* The paper's example 3.3, H = 6 and VH = 7. */
static void paper_3_3(void)
{
    struct set set, open;

    memset(&set, 0, sizeof set);
    add(&set, 6, 1);
    add(&set, 6, 0);
    add(&set, 7, 3);
    add(&set, 6, 2);
    open = nonblocked(&set);
    check("004, example 3.3: nonblocked are H:disable R0 and VH:enable R1",
          open.priorities[0] == 1u << 6 && open.priorities[3] == 1u << 7
          && open.priorities[1] == 0 && open.priorities[2] == 0 && nonblocked_events(&set) == 2);
}

/* The sheet of the paper's examples 3.4 and 3.5, the lowest priority everywhere. */
static const char paper_sheet[] =
    "100104 30010001030000 30010001040000 30010003050000 30010005070000 F0000004";

/* The paper's example 3.4: Caused for a set that is no solution. */
static void paper_3_4(void)
{
    struct set none, ev0, ev1, found;

    bench_frames(&bench, paper_sheet);
    memset(&none, 0, sizeof none);
    ev0 = none;
    add(&ev0, 0, 1);
    found = caused(&bench.tables, 0, &none, &ev0);
    check("004, example 3.4: Caused(0) is empty", same_set(&found, &none));
    ev1 = ev0;
    add(&ev1, 0, 3);
    add(&ev1, 0, 5);
    add(&ev1, 0, 4);
    add(&ev1, 0, 7);
    found = caused(&bench.tables, 0, &ev0, &ev1);
    ev1.priorities[7] = 0;
    check("004, example 3.4: Caused(1) is EV(1) without enable R3", same_set(&found, &ev1));
    found = caused(&bench.tables, 0, &none, &none);
    check("004, example 3.4: Caused(t) is empty after 1", same_set(&found, &none));
}

/* The paper's example 3.5: the execution model. */
static void paper_3_5(void)
{
    static const unsigned wanted[] = {0, 1, 0, 3, 0, 5, 0, 4};

    bench_frames(&bench, paper_sheet);
    check("004, example 3.5: the sheet is accepted", is(bench.read, OK, 0));
    ask(&bench, 0, 1, 1);
    check("004, example 3.5: EV(0) is empty, ST(1) too",
          is(go(&bench), OK, 0) && events_are(&bench, 0, NULL) && bench.state.roles == 0);
    check("004, example 3.5: EV(1) is as told, ST(2) is R0 and R1",
          is(go(&bench), OK, 0) && events_are(&bench, 4, wanted) && bench.state.roles == 3);
    check("004, example 3.5: EV(2) is empty, ST(3) the same",
          is(go(&bench), OK, 0) && events_are(&bench, 0, NULL) && bench.state.roles == 3);
}

/* The paper's example 3.6: no solution among all candidate sets. */
static void paper_3_6(void)
{
    static const unsigned loop[] = {1, 0};
    struct set givens, found;

    two_triggers(1, loop);
    memset(&givens, 0, sizeof givens);
    add(&givens, 0, 1);
    check("004, example 3.6: \"enable R gives disable R\" has no solution",
          count_solutions(&bench.tables, 0, &givens, &found) == 0);
    check("004, example 3.6: and is refused, LOOP", is(go(&bench), LOOP, 0));
}

/* The paper's example 3.7: two solutions among all candidate sets. */
static void paper_3_7(void)
{
    static const unsigned loop[] = {1, 2, 3, 0};
    struct set givens, found;

    two_triggers(2, loop);
    memset(&givens, 0, sizeof givens);
    add(&givens, 0, 1);
    add(&givens, 0, 3);
    check("004, example 3.7: \"enable R gives disable S\" and the converse have two solutions",
          count_solutions(&bench.tables, 0, &givens, &found) == 2);
    check("004, example 3.7: and are refused, LOOP", is(go(&bench), LOOP, 2));
}

/* Sheets, as frames, with the answers that the words of document 01 give. */
static const struct {
    const char *name;
    const char *frames;
    unsigned number;
    uint32_t place;
} sheets[] = {
    {"an empty sheet is KIND at line 1", "", KIND, 1},
    {"a sheet of a header only is KIND at line 2", "100101", KIND, 2},
    {"a first line that is no header is KIND at line 1", "F0000000", KIND, 1},
    {"a second header is KIND", "100101 100101 F0000000", KIND, 2},
    {"version 02 is FIELD", "100201 F0000000", FIELD, 1},
    {"role count 0 is FIELD", "100100 F0000000", FIELD, 1},
    {"a header of wrong byte count is KIND", "10010100 F0000000", KIND, 1},
    {"an end of wrong byte count is KIND", "100101 F00000", KIND, 2},
    {"a tape frame in a sheet is KIND", "100101 4000000000010000 F0000000", KIND, 2},
    {"end counts over every limit are COUNT", "100101 F0FFFFFF", COUNT, 2},
    {"a second end is KIND", "100101 F0000000 F0000000", KIND, 3},
    {"KIND after the end comes before LOOP", "100101 30010001000000 F0000001 F0000001", KIND, 4},
    {"COUNT comes before LOOP", "100101 30010001000000 F0000002", COUNT, 3},
    {"a trigger with 5 events of the right byte count is FIELD", "100101 3005000000000000010000 F0000001",
     FIELD, 2},
    {"a trigger with 5 events of the wrong byte count is KIND", "100101 300500000000000000010000 F0000001",
     KIND, 2},
    {"a trigger with no event of the right byte count is FIELD", "100101 300000010000 F0000001", FIELD, 2},
    {"a trigger frame without counts is KIND", "100101 30 F0000001", KIND, 2},
    {"end equal to begin is accepted", "100101 2000000005000000050001000000010000 F0010000", OK, 0},
    {"end below begin is FIELD", "100101 2000000005000000040001000000010000 F0010000", FIELD, 2},
    {"end 16,777,216 is FIELD", "100101 2000000005010000000001000000010000 F0010000", FIELD, 2},
    {"end FFFFFFFE is FIELD", "100101 2000000005FFFFFFFE0001000000010000 F0010000", FIELD, 2},
    {"first equal to period is FIELD", "100101 2000000000FFFFFFFF0002000200010000 F0010000", FIELD, 2},
    {"run over period is FIELD", "100101 2000000000FFFFFFFF0002000000030000 F0010000", FIELD, 2},
    {"an event of twice the role count is FIELD", "100101 30010002010000 F0000001", FIELD, 2},
    {"a condition of twice the role count is FIELD", "100101 3001010102010000 F0000001", FIELD, 2},
    {"priority 16 is FIELD", "100101 30010001011000 F0000001", FIELD, 2},
    {"the first pair in order of from and then to is the place",
     "100103 30010005040000 30010001020000 30010003000000 F0000003", LOOP, 2},
    {"a - edge that lies on no cycle is accepted", "100103 30010001020000 30010003050000 F0000002", OK, 0},
    {"a + ring is accepted", "100102 30010001030000 30010003010000 F0000002", OK, 0},
    {"a + ring with a - edge between its events is LOOP",
     "100103 30010001030000 30010003010000 30010000030000 F0000003", LOOP, 131}
};

/* The sheets of the table above. */
static void table_of_sheets(void)
{
    unsigned i;

    for (i = 0; i < sizeof sheets / sizeof sheets[0]; i++) {
        check(sheets[i].name, is(read_frames(sheets[i].frames), sheets[i].number, sheets[i].place));
    }
}

/* Days, as frames, that are refused. */
static const struct {
    const char *name;
    const char *frames;
    unsigned number;
    uint32_t place;
    uint32_t column;
} days[] = {
    {"day: an empty input is KIND at line 1", "", KIND, 1, 0},
    {"day: an empty tape is KIND at the line after the sheet", "100101 F0000000", KIND, 3, 0},
    {"day: a tape without F1 is KIND at the line after the last",
     "100101 F0000000 4000000000010000", KIND, 4, 0},
    {"day: a line after F1 is KIND", "100101 F0000000 F100000000 F100000000", KIND, 4, 0},
    {"day: a sheet frame in the tape is KIND", "100101 F0000000 F0000000 F100000000", KIND, 3, 0},
    {"day: the sheet is tested before the tape, LOOP included",
     "100101 30010001000000 F0000001 FF", LOOP, 0, 0},
    {"day: an instant below the one before is FIELD",
     "100101 F0000000 4000000002010000 4000000001010000 F100000005", FIELD, 4, 3},
    {"day: a lower instant comes before a wrong request",
     "100101 F0000000 4000000002010000 4000000001021000 F100000005", FIELD, 4, 3},
    {"day: an event of twice the role count is REQUEST at its line",
     "100101 F0000000 4000000000010000 4000000000020000 F100000005", REQUEST, 4, 0},
    {"day: last instant 10,081 is FIELD", "100101 F0000000 F100002761", FIELD, 3, 3},
    {"day: last below the last request's instant is FIELD",
     "100101 F0000000 4000000002010000 F100000001", FIELD, 4, 3},
    {"day: a request after 10,080 is FIELD at F1",
     "100101 F0000000 4000002761010000 F100002760", FIELD, 4, 3},
    {"day: without a line beginning F0 all is sheet", "100101 F100000000", KIND, 2, 0}
};

/* The days of the table above. */
static void table_of_days(void)
{
    unsigned i;

    for (i = 0; i < sizeof days / sizeof days[0]; i++) {
        check(days[i].name,
              refuses(day, days[i].frames,
                      answer_at(days[i].number, days[i].place, days[i].column)));
    }
}

/* A tape with 33 requests in a row of one instant, and one with 32. */
static void tape_of_many(void)
{
    static struct text in, out;
    unsigned count, i;

    for (count = 32; count <= 33; count++) {
        text_clear(&in);
        put_frames(&in, "100101 F0000000");
        for (i = 0; i < count; i++) {
            put_frames(&in, "4000000000010000");
        }
        put_frames(&in, "F100000000");
        day(in.bytes, in.length, &out);
        check(count == 32 ? "day: 32 requests of one instant are accepted"
                          : "day: the 33rd request of one instant is TOO MANY at its line",
              count == 32 ? out.length == 31 && out.bytes[0] == '5'
                          : out.length == 23
                            && memcmp(out.bytes, "E0060000002300000000F7\n", 23) == 0);
    }
}

/* Roles at or above the role count that stand in a state or wait follow the same rules. */
static void roles_above(void)
{
    static const unsigned wanted[] = {2, 127, 5, 0};

    bench_frames(&bench, "100101 F0000000");
    bench.state.roles = UINT64_C(3) << 62;
    bench.waiting[126] = 1;
    check("a role above the role count stands and is disabled by what waits",
          is(go(&bench), OK, 0) && bench.state.roles == UINT64_C(1) << 62);
    bench.waiting[EVENTS + 127] = 1u << 2;
    ask(&bench, 5, 0, 0);
    check("and is enabled by what waits",
          is(go(&bench), OK, 0) && bench.state.roles == UINT64_C(3) << 62 && events_are(&bench, 2, wanted));
}

/* The order of the step's tests, each refusal added before the ones that were there. */
static void step_order(void)
{
    static const unsigned loop[] = {1, 0};

    two_triggers(1, loop);
    bench.trigger[0].delay = 1;
    ask(&bench, 16, 1, 0);
    check("step: priority 16 is REQUEST 0", is(go(&bench), REQUEST, 0));
    bench.trigger[0].delay = 0;
    ask(&bench, 16, 1, 0);
    check("step: LOOP before REQUEST", is(go(&bench), LOOP, 0));
    bench.tables.periodic_count = 1;
    check("step: FIELD before LOOP, a periodic row", is(go(&bench), FIELD, 0));
    bench.periodic[0].period = 1;
    bench.periodic[0].run = 1;
    bench.trigger[0].delay = 61;
    check("step: a trigger's place counts on from the periodic count", is(go(&bench), FIELD, 1));
    bench.tables.trigger_count = 257;
    check("step: TOO MANY before FIELD", is(go(&bench), TOO_MANY, 0));
    bench.state.instant = 16777216;
    check("step: LAST before TOO MANY", is(go(&bench), LAST, 0));
    bench.state.waiting_length = 7807;
    check("step: LENGTH before LAST", is(go(&bench), LENGTH, 0));
}

/* The command examples: one line for each, then the counts. */
int command_examples(void)
{
    example_1();
    example_2();
    example_3();
    example_4();
    example_5();
    example_6();
    example_7();
    example_8();
    example_9();
    example_10();
    example_11();
    worked();
    wrong_conditions();
    wrong_ring();
    wrong_blocking();
    wrong_edges();
    wrong_waiting();
    paper_3_3();
    paper_3_4();
    paper_3_5();
    paper_3_6();
    paper_3_7();
    table_of_sheets();
    table_of_days();
    tape_of_many();
    roles_above();
    step_order();
    writer_examples();
    column_examples();
    line_examples();
    printf("%u passed, %u failed\n", passed, failed);
    return failed == 0 ? 0 : 1;
}
