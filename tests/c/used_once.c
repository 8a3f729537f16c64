/* Used ids stay used: docs/RULES.md 11.11, in random histories.
 *
 * A history begins with a sound log and the state that its recovery gives. Then, in any order: the ceiling is raised;
 * ids are taken, dropped, pushed, looked up and scanned for; the log is recovered at its length, or cut at any byte and
 * recovered, each time with the ceiling that was answered last, or with one above it. What was handed out, dropped and
 * pushed is written down here. No id may be handed out twice, or after it was pushed or found; none may be found that
 * was dropped, or that no push counted; and what is found has the data of its push.
 *
 * Then the rule's three conditions are broken, one at a time, as docs/RULES.md 12.2 tells. The run fails too if that
 * does not show in what is written down.
 *
 * used_once [SEED [HISTORIES]] */
#include "awirbesh.h"
#include "chance.h"

#include <stdio.h>
#include <stdlib.h>
#include <string.h>

enum { PAGE = 1024, STORE = 24 * PAGE, TURNS = 120, BATCH = 4, LONGEST = 2600, PATTERN = 1 << 16 };

/* ---- what happened ---- */

/* Whether callers keep to the rule's conditions, or which of them they break. */
enum { KEPT, OLDER_CEILING, NOT_HANDED_OUT, PUSHED_TWICE, DISCIPLINES };
static const char *const disciplines[DISCIPLINES] = {
    "the conditions kept",
    "recovered with an older ceiling",
    "ids pushed that were not handed out",
    "ids pushed twice",
};
static int discipline;

enum { HANDED_AGAIN, FOUND_UNPUSHED, OTHER_DATA, BREACHES };
static const char *const breaches[BREACHES] = {
    "a used id was handed out",
    "an id was found that was dropped or never pushed",
    "an id was found with data of another push",
};
/* What must come of each broken condition. */
static const int breaks[DISCIPLINES][BREACHES] = {{0, 0, 0}, {1, 1, 0}, {1, 1, 0}, {0, 0, 1}};
static uint64_t broken[DISCIPLINES][BREACHES];

/* What must come up where the conditions are kept. */
enum { TAKEN, TAKEN_AFTER_CUT, REFUSED_9, REFUSED_30, RAISED, REFUSED_31 };
enum { PUSHED = REFUSED_31 + 1, PUSHED_AFTER_RESTART, REFUSED_2, REFUSED_4, FOUND, STEPPED, DROPPED_ABSENT };
enum { CUT_OFF_ABSENT = DROPPED_ABSENT + 1, RECOVERED, PASSED_OVER, CUT, EVENTS };
static const char *const events[EVENTS] = {
    "ids taken",
    "ids taken after a cut that took entries",
    "takes refused with 9",
    "takes refused with 30",
    "raisings",
    "raisings refused with 31",
    "entries pushed",
    "entries pushed with an id from before a recovery",
    "pushes refused with 2",
    "pushes refused with 4",
    "ids found",
    "entries handed over by a step",
    "dropped ids absent",
    "ids absent whose entry was cut off",
    "recoveries",
    "recoveries that passed over ids",
    "cuts that took entries",
};
static uint64_t happened[EVENTS];

static void happens(int event)
{
    happened[event] += discipline == KEPT;
}

static void stop(const char *why)
{
    printf("%s: %s\n", disciplines[discipline], why);
    exit(1);
}

/* The refusals that a call may give here, and what each counts as. */
static void answers(uint64_t number, uint64_t one, int event, uint64_t other, int other_event)
{
    if (number != 0 && number != one && number != other)
        stop("a refusal that none of these calls may give");
    if (number)
        happens(number == one ? event : other_event);
}

/* ---- what the callers know ---- */

typedef struct {
    uint64_t id;
    int handed, dropped, pushed, found;
    int held;  /* handed out, and since then neither dropped nor pushed */
    int early; /* handed out before the last recovery */
    uint64_t from, length; /* the data of its first push, in the pattern */
} known;

static known ids[TURNS * BATCH + 64];
static size_t known_ids;
static uint8_t pattern[PATTERN];

static known *of_id(uint64_t id)
{
    for (size_t i = 0; i < known_ids; i++)
        if (ids[i].id == id)
            return &ids[i];
    return 0;
}

static known *know(uint64_t id)
{
    known *k = of_id(id);
    if (k)
        return k;
    if (known_ids == sizeof ids / sizeof *ids)
        stop("more ids than there is room for");
    ids[known_ids] = (known){.id = id};
    return &ids[known_ids++];
}

static void was_handed_out(uint64_t id)
{
    known *k = know(id);
    if (k->handed || k->pushed || k->found)
        broken[discipline][HANDED_AGAIN]++;
    k->handed = k->held = 1;
    k->early = 0;
}

static void was_pushed(uint64_t id, uint64_t from, uint64_t length)
{
    known *k = know(id);
    if (k->early)
        happens(PUSHED_AFTER_RESTART);
    if (!k->pushed) {
        k->from = from;
        k->length = length;
    }
    k->pushed = 1;
    k->held = 0;
    happens(PUSHED);
}

static void was_found(uint64_t id, const uint8_t *data, uint64_t length)
{
    known *k = know(id);
    if (!k->pushed || k->dropped)
        broken[discipline][FOUND_UNPUSHED]++;
    else if (length != k->length || memcmp(data, pattern + k->from, length))
        broken[discipline][OTHER_DATA]++;
    k->found = 1;
}

static void was_absent(uint64_t id)
{
    const known *k = of_id(id);
    if (k && k->dropped)
        happens(DROPPED_ABSENT);
    if (k && k->pushed)
        happens(CUT_OFF_ABSENT);
}

/* ---- one turn each ---- */

static uint8_t store[STORE], out[LONGEST];
static awirbesh_state state;
static uint64_t answered, older; /* the ceiling answered last, and the one before */
static int cut_before;

static void take_some(void)
{
    for (uint64_t n = 1 + below(BATCH); n > 0; n--) {
        awirbesh_taken t = awirbesh_take(state);
        state = t.state;
        answers(t.number, AWIRBESH_IDS_USED_UP, REFUSED_9, AWIRBESH_CEILING_REACHED, REFUSED_30);
        if (t.number)
            return;
        was_handed_out(t.id);
        happens(TAKEN);
        if (cut_before)
            happens(TAKEN_AFTER_CUT);
    }
}

static void raise_ceiling(void)
{
    static const uint64_t edges[] = {0, (uint64_t)1 << 32, ((uint64_t)1 << 32) + 1, UINT64_MAX};
    uint64_t step = one_in(12) ? edges[below(4)] : 1 + below(6);
    awirbesh_raised r = awirbesh_raise(state, step);
    state = r.state;
    answers(r.number, AWIRBESH_BAD_RAISE, REFUSED_31, AWIRBESH_BAD_RAISE, REFUSED_31);
    if (r.number)
        return;
    happens(RAISED);
    older = answered;
    answered = state.ceiling;
}

static void drop_one(void)
{
    if (known_ids == 0)
        return;
    known *k = &ids[below(known_ids)];
    k->dropped |= k->held;
    k->held = 0;
}

static int may_push(const known *k)
{
    return k->held || (discipline == PUSHED_TWICE && k->handed && k->pushed);
}

/* An id to push, mostly one above another; 0 if there is none. */
static uint64_t id_to_push(uint64_t above)
{
    if (discipline == NOT_HANDED_OUT && one_in(4) && state.next < UINT64_MAX - BATCH)
        return state.next + below(BATCH);
    for (size_t i = 0; i < known_ids; i++)
        if (may_push(&ids[i]) && (ids[i].id > above || one_in(50)) && !one_in(3))
            return ids[i].id;
    return 0;
}

static void push_some(void)
{
    uint64_t batch[BATCH], ends[BATCH], from = below(PATTERN - BATCH * LONGEST), end = 0, last = state.last;
    size_t n = 0, wanted = 1 + below(BATCH);
    while (n < wanted) {
        batch[n] = id_to_push(last);
        if (batch[n] == 0)
            break;
        last = batch[n];
        ends[n++] = end += one_in(3) ? below(LONGEST) : below(40);
    }
    awirbesh_pushed p = awirbesh_push(store, STORE, state, batch, n, ends, n, pattern + from, end);
    state = p.state;
    answers(p.number, AWIRBESH_OUT_OF_ORDER, REFUSED_2, AWIRBESH_NO_ROOM, REFUSED_4);
    for (size_t i = 0; i < p.written; i++) {
        uint64_t begin = i ? ends[i - 1] : 0;
        was_pushed(batch[i], from + begin, ends[i] - begin);
    }
}

static void look_up_some(void)
{
    for (int n = 0; n < 4; n++) {
        uint64_t id = known_ids && !one_in(8) ? ids[below(known_ids)].id : state.next - 3 + below(6);
        awirbesh_look found = awirbesh_find(store, STORE, state, id);
        awirbesh_look l = awirbesh_lookup(store, STORE, state, id, out, sizeof out);
        if (l.number || memcmp(&l, &found, sizeof l))
            stop("a lookup is refused, or finds what a find does not");
        if (!l.found) {
            was_absent(id);
            continue;
        }
        was_found(id, out, l.length);
        happens(FOUND);
    }
}

static void scan_some(void)
{
    awirbesh_range range = {{below(3), state.last - below(8)}, {below(3), state.last + below(3)}};
    awirbesh_started s = awirbesh_scan(store, STORE, state, range);
    awirbesh_stepped e = {.number = s.number, .kind = AWIRBESH_ENTRY, .cursor = s.cursor};
    while (e.number == 0 && e.kind == AWIRBESH_ENTRY) {
        e = awirbesh_step(store, STORE, state, range, e.cursor, out, sizeof out);
        if (e.number == 0 && e.kind == AWIRBESH_ENTRY) {
            was_found(e.id, out, e.length);
            happens(STEPPED);
        }
    }
    if (e.number)
        stop("a scan is refused");
}

/* The ceiling that a recovery is given. */
static uint64_t stored(void)
{
    if (discipline == OLDER_CEILING)
        return one_in(2) ? older : 0;
    return one_in(6) && answered < UINT64_MAX - 5 ? answered + below(5) : answered;
}

static void recover(uint64_t length)
{
    awirbesh_recovered r = awirbesh_recover(store, STORE, length, stored());
    if (r.number)
        stop("a recovery is refused");
    state = r.state;
    older = answered = state.ceiling;
    for (size_t i = 0; i < known_ids; i++)
        ids[i].early = ids[i].handed;
    happens(RECOVERED);
    if (state.next > state.last + 1)
        happens(PASSED_OVER);
}

/* Beyond the cut the store keeps what it has, or holds zeros, ones or anything. */
static void cut(void)
{
    uint64_t most = state.length < 4000 || one_in(3) ? state.length : 4000, at = state.length - below(most + 1);
    uint64_t last = state.last, kind = below(4);
    for (uint64_t i = at; kind > 0 && i < STORE; i++)
        store[i] = (uint8_t)(kind < 3 ? kind - 1 : chance());
    recover(at);
    if (state.last < last) {
        cut_before = 1;
        happens(CUT);
    }
}

/* ---- histories ---- */

/* A low id, one near the last of all, or any. */
static uint64_t first_id(void)
{
    if (one_in(2))
        return 1 + below(9);
    return one_in(2) ? UINT64_MAX - 1 - below(150) : 1 + (chance() >> (1 + below(60)));
}

/* An empty log or one of a few entries, and the state that its recovery gives with any ceiling. */
static void begin(void)
{
    uint64_t first = first_id();
    known_ids = 0;
    cut_before = 0;
    memset(store, (int)below(3), STORE);
    state = awirbesh_fresh();
    for (uint64_t n = one_in(3) ? 0 : below(5); n > 0; n--) {
        uint64_t id = first > state.last ? first : state.last + 1 + below(3), from = below(PATTERN - LONGEST);
        const uint64_t length = below(one_in(3) ? LONGEST : 40);
        if (id >= UINT64_MAX - 3)
            break;
        awirbesh_pushed p = awirbesh_push(store, STORE, state, &id, 1, &length, 1, pattern + from, length);
        if (p.number)
            stop("a log to begin with is refused");
        state = p.state;
        was_pushed(id, from, length);
    }
    answered = older = one_in(2) ? 0 : state.last + below(6);
    recover(state.length);
}

static void history(void)
{
    begin();
    for (int turn = 0; turn < TURNS; turn++) {
        switch (below(16)) {
        case 0:
        case 1:
        case 2:
            raise_ceiling();
            break;
        case 3:
        case 4:
        case 5:
            take_some();
            break;
        case 6:
            drop_one();
            break;
        case 7:
        case 8:
        case 9:
            push_some();
            break;
        case 10:
        case 11:
            look_up_some();
            break;
        case 12:
        case 13:
            scan_some();
            break;
        case 14:
            recover(state.length);
            break;
        default:
            if (one_in(3))
                cut();
        }
    }
}

/* What came up, and what did not but must. */
static int report(void)
{
    int failed = 0;
    for (int i = 0; i < EVENTS; i++) {
        printf("%10llu %s%s\n", (unsigned long long)happened[i], events[i], happened[i] ? "" : " (never seen)");
        failed |= happened[i] == 0;
    }
    for (int d = 0; d < DISCIPLINES; d++)
        for (int b = 0; b < BREACHES; b++) {
            int wrong = d == KEPT ? broken[d][b] > 0 : breaks[d][b] && broken[d][b] == 0;
            if (broken[d][b] || wrong)
                printf("%10llu %s: %s%s\n", (unsigned long long)broken[d][b], disciplines[d], breaches[b],
                       wrong ? " (wrong)" : "");
            failed |= wrong;
        }
    return failed;
}

int main(int argc, char **argv)
{
    uint64_t seed = argc > 1 ? strtoull(argv[1], 0, 10) : 1, histories = argc > 2 ? strtoull(argv[2], 0, 10) : 3000;
    chance_state = seed;
    for (size_t i = 0; i < PATTERN; i++)
        pattern[i] = (uint8_t)chance();
    for (discipline = 0; discipline < DISCIPLINES; discipline++)
        for (uint64_t n = 0; n < histories; n++)
            history();
    if (report())
        return 1;
    printf("%llu histories, seed %llu: used ids stay used, and each condition is needed\n",
           (unsigned long long)histories, (unsigned long long)seed);
    return 0;
}
