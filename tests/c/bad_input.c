/* Bad input at scale: random and damaged logs, made-up states, cursors, ranges and batches through the archive.
 *
 * Every answer is held to the model of the rules, and so is every byte that was lent, changed or not. Each
 * buffer lies between two pages that cannot be touched, flush with one of them, so that a read or a write one
 * byte outside stops the program; what is left of the room on the other side holds a pattern that is compared.
 *
 * bad_input SEED CALLS: prints how often each function gave each answer, and fails on a wrong answer, on a
 * changed byte, and where some answer that the rules have, some kind of torn log, or a stored ceiling above, at or
 * below the last id + 1, did not come up at all.
 */
#include "awirbesh.h"
#include "chance.h"
#include "model.h"

#include <stdio.h>
#include <stdlib.h>
#include <string.h>
#include <sys/mman.h>
#include <unistd.h>

enum { PAGE = 1024, LARGE_DATA = 16777209 };

/* ---- chance ---- */

/* A number that a careless caller could hand in. */
static uint64_t any_number(void)
{
    static const uint64_t edges[] = {0, 1, 2, 1023, 1024, 1025, 4096, 1u << 31, UINT32_MAX, 1ull << 32, 1ull << 63};
    switch (below(4)) {
    case 0:
        return edges[below(sizeof edges / sizeof *edges)];
    case 1:
        return UINT64_MAX - below(3);
    case 2:
        return below(100);
    default:
        return chance() >> below(64);
    }
}

/* A number about another one, on either side of it, or any. Past the ends of all numbers it wraps. */
static uint64_t near(uint64_t number)
{
    switch (below(4)) {
    case 0:
        return any_number();
    case 1:
        return number + below(1000);
    default:
        return number + below(3) - 1;
    }
}

/* ---- guarded buffers ---- */

typedef struct {
    uint8_t *room;  /* between two untouchable pages */
    size_t size;    /* of the room */
    uint8_t *bytes; /* lent: flush with the room's front or end */
    size_t len;
    uint8_t *copy; /* the lent bytes as they were, for the model */
} lent;

static void stop(const char *why)
{
    fprintf(stderr, "bad input: %s\n", why);
    abort();
}

static lent room_of(size_t size)
{
    size_t edge = (size_t)sysconf(_SC_PAGESIZE);
    size = (size + edge - 1) / edge * edge;
    uint8_t *all = mmap(0, size + 2 * edge, PROT_NONE, MAP_PRIVATE | MAP_ANONYMOUS, -1, 0);
    if (all == MAP_FAILED || mprotect(all + edge, size, PROT_READ | PROT_WRITE))
        stop("no memory");
    lent l = {all + edge, size, all + edge, 0, malloc(size)};
    if (!l.copy)
        stop("no memory");
    return l;
}

enum { PATTERN = 0xC5, WATCHED = 256 };

/* The part of the room beside the lent bytes that is watched: next to them, on the side that has no guard page. */
static uint8_t *watched(const lent *l, size_t *count)
{
    size_t spare = l->size - l->len;
    *count = spare < WATCHED ? spare : WATCHED;
    return l->bytes == l->room ? l->bytes + l->len : l->bytes - *count;
}

/* Lends `len` bytes at the room's front or end. */
static void lend(lent *l, size_t len, int at_end)
{
    size_t count;
    l->len = len;
    l->bytes = at_end ? l->room + (l->size - len) : l->room;
    uint8_t *side = watched(l, &count);
    memset(side, PATTERN, count);
}

static void remember(lent *l)
{
    memcpy(l->copy, l->bytes, l->len);
}

/* Bytes from `least` on that differ from place to place; from 1 on, a zero in a pushed page is the push's own. */
static void fill(lent *l, unsigned least)
{
    uint64_t first = below(256);
    for (size_t i = 0; i < l->len; i++)
        l->bytes[i] = (uint8_t)(least + (first + i * 7) % (256 - least));
}

/* The lent bytes are what `copy` now says (the model may have changed it), and those beside them are as before. */
static void hold(const lent *l, const char *what)
{
    size_t count;
    const uint8_t *side = watched(l, &count);
    if (memcmp(l->bytes, l->copy, l->len))
        stop(what);
    for (size_t i = 0; i < count; i++)
        if (side[i] != PATTERN)
            stop("a byte outside the lent ones was changed");
}

/* Lends what follows the first bytes of a buffer, wherever that now lies. */
static void drop_front(lent *l, size_t count)
{
    lend(l, l->len - count, one_in(2));
    memcpy(l->bytes, l->copy + count, l->len);
    remember(l);
}

/* Lends a buffer with more bytes after those that it has. */
static void lengthen(lent *l, size_t more)
{
    size_t before = l->len;
    lend(l, before + more, one_in(2));
    fill(l, 1);
    memcpy(l->bytes, l->copy, before);
    remember(l);
}

static lent store, out, ids, ends, data, words;
static uint8_t *large;

/* ---- logs ---- */

static uint64_t some_payload(void)
{
    static const uint64_t edges[] = {8, 9, 1019, 1020, 1021, 1022, 2042, 2043, 2044, 3000, 3066, 3067, 5000};
    return one_in(2) ? edges[below(sizeof edges / sizeof *edges)] : 8 + below(2500);
}

/* A sound log in the store, from the model's push, with idle pages and ids dense, gapped or far apart. */
static awirbesh_state sound_log(void)
{
    static uint8_t bytes[8192];
    awirbesh_state state = {0, 0, 1, 1};
    uint64_t gap = one_in(4) ? chance() >> (1 + below(60)) : 1 + below(4);
    for (size_t i = 0; i < sizeof bytes; i += 8) {
        uint64_t r = chance();
        memcpy(bytes + i, &r, 8);
    }
    for (uint64_t n = below(12); n > 0; n--) {
        uint64_t id = state.last + 1 + below(gap ? gap : 1), end = some_payload() - 8;
        if (id <= state.last)
            break;
        awirbesh_pushed p = model_push(store.bytes, store.len, state, &id, 1, &end, 1, bytes, sizeof bytes);
        if (p.number)
            break;
        state = p.state;
        while (state.length < store.len && one_in(6)) {
            if (store.len - state.length < PAGE)
                break;
            store.bytes[state.length] = 0;
            state.length += PAGE;
        }
    }
    state.next = state.last + 1 + below(one_in(3) ? 1000 : 3);
    return state;
}

/* Some bytes go wrong, mostly those that a reader decides by. */
static void damage(uint64_t length)
{
    if (length < PAGE)
        return;
    for (uint64_t n = 1 + below(3); n > 0; n--) {
        uint64_t page = below(length / PAGE) * PAGE;
        switch (below(6)) {
        case 0:
            store.bytes[page] = one_in(2) ? (uint8_t)below(2) : (uint8_t)chance();
            break;
        case 1: /* the payload's length */
            store.bytes[page + 1 + below(3)] = (uint8_t)(one_in(2) ? below(8) : chance());
            break;
        case 2: /* the id */
            store.bytes[page + 4 + below(8)] = (uint8_t)chance();
            break;
        case 3: /* a short payload */
            memset(store.bytes + page + 1, 0, 2);
            store.bytes[page + 3] = (uint8_t)below(9);
            break;
        case 4: /* a page twice, so an id that does not ascend */
            memmove(store.bytes + page, store.bytes + below(length / PAGE) * PAGE, PAGE);
            break;
        default:
            store.bytes[below(length)] = (uint8_t)chance();
        }
    }
}

/* Entries of one page each whose ids are in no order: which page is found depends on every guess on the way. */
static awirbesh_state disordered_log(void)
{
    awirbesh_state state = {store.len / PAGE * PAGE, chance(), 0, 0};
    uint64_t shift = below(40);
    for (size_t at = 0; at < state.length; at += PAGE) {
        uint64_t id = chance() >> shift;
        memcpy(store.bytes + at, "\1\0\0\10", 4);
        if (one_in(8))
            store.bytes[at] = 0;
        for (int i = 0; i < 8; i++)
            store.bytes[at + 4 + (size_t)i] = (uint8_t)(id >> (56 - 8 * i));
    }
    state.next = one_in(4) ? UINT64_MAX >> shift : chance() >> shift;
    if (state.length && one_in(2)) /* a multiple of the pages: see some_id */
        state.next -= state.next % (state.length / PAGE);
    return state;
}

/* A start on a page, of an entry whose pages just reach `left`, or go past it. */
static void put_start(uint64_t page, uint64_t left, int past)
{
    uint64_t most = 1020 + 1023 * (left - page - 1), payload = most - (one_in(2) ? 0 : below(1000));
    if (past)
        payload = most + 1 + (one_in(2) ? 0 : below(one_in(2) ? 2000 : 1 << 20));
    store.bytes[page * PAGE] = 1;
    for (uint64_t i = 0; i < 3; i++)
        store.bytes[page * PAGE + 1 + i] = (uint8_t)(payload >> (16 - 8 * i));
}

/* Cut starts at a log's end, each cut by what is left once those after it are dropped, and then whatever comes. */
static awirbesh_state torn_log(awirbesh_state state)
{
    uint64_t left = (one_in(3) ? store.len : state.length) / PAGE, drops = one_in(12) ? 64 : 1 + below(4);
    state.length = left * PAGE;
    for (; drops > 0 && left > 0; drops--) {
        uint64_t page = left - 1 - below(one_in(2) || left < 5 ? 1 : 5);
        put_start(page, left, 1);
        for (uint64_t later = page + 1; later < left; later++)
            store.bytes[later * PAGE] = 0;
        left = page;
    }
    if (left == 0)
        return state;
    switch (below(10)) {
    case 0: /* no start is left */
        for (uint64_t page = 0; page < left; page++)
            store.bytes[page * PAGE] = 0;
        break;
    case 1: /* a start on the last page left: whole, or cut, or short, or of the last id */
        put_start(left - 1, left, one_in(4));
        if (one_in(4)) {
            memset(store.bytes + (left - 1) * PAGE + 1, 0, 2);
            store.bytes[(left - 1) * PAGE + 3] = (uint8_t)below(9);
        }
        if (one_in(2))
            memset(store.bytes + (left - 1) * PAGE + 4, 0xFF, 8);
        break;
    case 2: { /* one further down that just reaches the end of what is left, or is cut */
        uint64_t page = below(left);
        put_start(page, left, one_in(3));
        for (page++; page < left; page++)
            store.bytes[page * PAGE] = 0;
        break;
    }
    case 3:
    case 4:
        damage(left * PAGE);
    }
    return state;
}

/* Fills the store and says what state the caller claims it has. */
static awirbesh_state some_log(void)
{
    size_t pages = one_in(8) ? 60 : 24;
    lend(&store, below(10) ? below(pages) * PAGE + (one_in(3) ? below(PAGE) : 0) : below(3), one_in(2));
    fill(&store, 1);
    awirbesh_state state = sound_log();
    switch (below(10)) {
    case 0:
    case 1:
        break;
    case 2:
    case 3:
        state = disordered_log();
        break;
    case 4:
    case 5:
        state = torn_log(state);
        break;
    case 6: /* bytes of no log, with marks that are often marks */
        for (size_t i = 0; i < store.len; i += PAGE) {
            for (size_t j = i; j < store.len && j < i + 12; j++)
                store.bytes[j] = (uint8_t)chance();
            if (!one_in(4))
                store.bytes[i] = (uint8_t)below(2);
            if (i + 2 < store.len)
                store.bytes[i + 1] = store.bytes[i + 2] = 0;
        }
        state.length = store.len / PAGE * PAGE;
        break;
    default:
        damage(state.length);
    }
    if (one_in(8)) /* the last id of all */
        if (state.length >= PAGE)
            memset(store.bytes + below(state.length / PAGE) * PAGE + 4, 0xFF, 8);
    if (one_in(6))
        state.length = one_in(2) ? any_number() : below(store.len + PAGE);
    if (one_in(6))
        state.last = any_number();
    if (one_in(6))
        state.next = any_number();
    state.ceiling = near(state.next);
    return state;
}

static awirbesh_range some_range(awirbesh_state state)
{
    awirbesh_range r;
    awirbesh_end *both[2] = {&r.lower, &r.upper};
    for (int i = 0; i < 2; i++) {
        both[i]->kind = one_in(10) ? any_number() : below(3);
        both[i]->id = one_in(4) ? any_number() : below(state.last ? state.last : 1) + below(3);
    }
    return r;
}

static uint64_t some_id(awirbesh_state state)
{
    uint64_t page = state.length / PAGE;
    if (page && state.length <= store.len && one_in(2)) { /* one that a page's head names */
        uint64_t id = 0, at = below(page) * PAGE;
        for (int i = 0; i < 8; i++)
            id = id * 256 + store.bytes[at + 4 + (uint64_t)i];
        return id;
    }
    if (page && page < 64 && one_in(3)) /* where the guess goes from one page to the next, and the shift's rounding shows */
        return state.next / page * below(page) + below(2);
    return one_in(5) ? any_number() : below(state.next ? state.next : 1);
}

/* ---- the calls, each held to the model ---- */

/* Of the recoveries that gave a state, in ABOVE, EQUAL and UNDER the stored ceiling was above, at and below the last id
 * + 1. TORN are those that met a cut start first; of these, if they gave a state, TWICE dropped more than one start,
 * PARTLY an excess too, EMPTIED everything. CUT are those of a sound log that was cut at any byte and lost pages. */
enum { TAKE, RAISE, CHECK, RECOVER, ABOVE, EQUAL, UNDER, TORN, TWICE, PARTLY, EMPTIED, CUT };
enum { FIND = CUT + 1, LOOKUP, ABSENT, SCAN, STEP, ENDED, PUSH, AGAIN, NOTE, KINDS };
static const char *const names[KINDS] = {
    "take",     "raise",     "check", "recover", "  above",  "  equal", "  under", "  torn", "  twice",
    "  partly", "  emptied", "  cut", "find",    "lookup",   "  absent", "scan",   "step",   "  end",
    "push",     "  again",   "note",
};
enum { NUMBERS = 32 };
/* The refusals that the rules let each give, as bits. */
static const uint32_t possible[KINDS] = {
    1u | 1u << 9 | 1u << 30,
    1u | 1u << 31,
    1u | 1u << 1 | 1u << 5 | 1u << 6 | 1u << 7 | 1u << 8 | 1u << 14 | 1u << 15,
    1u | 1u << 1 | 1u << 5 | 1u << 6 | 1u << 8 | 1u << 9,
    1u,
    1u,
    1u,
    1u | 1u << 5 | 1u << 6 | 1u << 8 | 1u << 9,
    1u,
    1u,
    1u,
    1u,
    1u | 1u << 1 | 1u << 5 | 1u << 6 | 1u << 7,
    1u | 1u << 1 | 1u << 5 | 1u << 6 | 1u << 7 | 1u << 10,
    1u,
    1u | 1u << 1 | 1u << 5 | 1u << 6 | 1u << 7,
    1u | 1u << 1 | 1u << 5 | 1u << 6 | 1u << 7 | 1u << 10,
    1u,
    1u | 1u << 1 | 1u << 2 | 1u << 3 | 1u << 4 | 1u << 13 | 1u << 16,
    1u | 1u << 2 | 1u << 4,
    1u | 1u << 11 | 1u << 12,
};
static uint64_t counts[KINDS][NUMBERS], calls;

#define MUST_EQUAL(what, got, expected)                   \
    do {                                                  \
        if (memcmp(&(got), &(expected), sizeof(got)) != 0) \
            stop(what);                                   \
    } while (0)

static void count_case(int kind, uint64_t number)
{
    if (number >= NUMBERS || !(possible[kind] >> number & 1))
        stop("an answer that the rules do not have");
    counts[kind][number]++;
}

static void count(int kind, uint64_t number)
{
    count_case(kind, number);
    calls++;
}

static void try_take(awirbesh_state state)
{
    awirbesh_taken got = awirbesh_take(state), expected = model_take(state);
    MUST_EQUAL("take", got, expected);
    count(TAKE, got.number);
}

/* A step about the least, the longest, or what a ceiling has left to the end of all numbers. */
static uint64_t some_step(uint64_t ceiling)
{
    const uint64_t edges[] = {1, (uint64_t)1 << 32, UINT64_MAX - ceiling};
    return one_in(4) ? any_number() : edges[below(3)] + below(3) - 1;
}

/* Half of the ceilings lie so high that the sum with a step that is allowed may pass the end of all numbers. */
static void try_raise(awirbesh_state state)
{
    if (one_in(2))
        state.ceiling = UINT64_MAX - (one_in(2) ? below(4) : ((uint64_t)1 << 32) + below(5) - 2);
    uint64_t step = some_step(state.ceiling);
    awirbesh_raised got = awirbesh_raise(state, step), expected = model_raise(state, step);
    MUST_EQUAL("raise", got, expected);
    count(RAISE, got.number);
}

static void try_check(awirbesh_state state)
{
    awirbesh_checked got = awirbesh_check(store.bytes, store.len, state.length);
    awirbesh_checked expected = model_check(store.copy, store.len, state.length);
    MUST_EQUAL("check", got, expected);
    count(CHECK, got.number);
}

/* Whether the last start before the length is cut: a step from it is refused with 7. */
static int ends_cut(uint64_t length)
{
    const awirbesh_range all = {{AWIRBESH_OPEN, 0}, {AWIRBESH_OPEN, 0}};
    awirbesh_state state = {length / PAGE * PAGE, 0, 0, 0};
    uint64_t at = state.length;
    while (at > 0 && store.copy[at - PAGE] == 0)
        at -= PAGE;
    return at > 0 && model_step(store.copy, store.len, state, all, at - PAGE, out.copy, 0).number == 7;
}

/* Starts among the pages that a recovery dropped. Each was cut. */
static int starts_dropped(awirbesh_recovered r)
{
    int starts = 0;
    for (uint64_t page = 0; page < r.dropped; page++)
        starts += store.copy[r.state.length + page * PAGE] == 1;
    return starts;
}

static awirbesh_recovered try_recover(uint64_t length)
{
    uint64_t least = model_recover(store.copy, store.len, length, 0).state.next, stored = near(least);
    awirbesh_recovered got = awirbesh_recover(store.bytes, store.len, length, stored);
    awirbesh_recovered expected = model_recover(store.copy, store.len, length, stored);
    MUST_EQUAL("recover", got, expected);
    count(RECOVER, got.number);
    if (got.number == 0)
        count_case(stored > least ? ABOVE : stored == least ? EQUAL : UNDER, 0);
    if (got.number != AWIRBESH_BAD_STATE && ends_cut(length)) {
        count_case(TORN, got.number);
        if (got.number == 0 && starts_dropped(got) > 1)
            count_case(TWICE, 0);
        if (got.number == 0 && got.excess)
            count_case(PARTLY, 0);
        if (got.number == 0 && got.state.length == 0)
            count_case(EMPTIED, 0);
    }
    return got;
}

/* A cut of the log at any byte. Of a sound log a sound one is left, and what is gone adds up to the cut. */
static void try_cut(awirbesh_state state)
{
    uint64_t length = state.length < store.len ? state.length : store.len, cut = below(length + 1);
    awirbesh_recovered r = try_recover(cut);
    if (model_check(store.copy, store.len, state.length).number)
        return;
    if (r.number == AWIRBESH_IDS_USED_UP)
        return;
    if (r.number || r.state.length + PAGE * r.dropped + r.excess != cut || r.excess >= PAGE)
        stop("what a cut took does not add up");
    if (awirbesh_check(store.bytes, store.len, r.state.length).number)
        stop("a cut left a log that is not sound");
    if (r.dropped)
        count_case(CUT, 0);
}

static void lend_out(void)
{
    lend(&out, one_in(3) ? below(20) : below(6000), one_in(2));
    memset(out.bytes, (int)below(256), out.len);
    remember(&out);
}

static void try_lookup(awirbesh_state state)
{
    uint64_t id = some_id(state);
    awirbesh_look found = awirbesh_find(store.bytes, store.len, state, id);
    awirbesh_look place = model_find(store.copy, store.len, state, id);
    MUST_EQUAL("find", found, place);
    count(FIND, found.number);
    lend_out();
    awirbesh_look got = awirbesh_lookup(store.bytes, store.len, state, id, out.bytes, out.len);
    awirbesh_look expected = model_lookup(store.copy, store.len, state, id, out.copy, out.len);
    MUST_EQUAL("lookup", got, expected);
    hold(&out, "lookup's output");
    count(got.number || got.found ? LOOKUP : ABSENT, got.number);
}

static void try_step(awirbesh_state state, awirbesh_range range, uint64_t *cursor)
{
    lend_out();
    awirbesh_stepped got = awirbesh_step(store.bytes, store.len, state, range, *cursor, out.bytes, out.len);
    awirbesh_stepped expected = model_step(store.copy, store.len, state, range, *cursor, out.copy, out.len);
    MUST_EQUAL("step", got, expected);
    hold(&out, "step's output");
    count(got.number || got.kind ? STEP : ENDED, got.number);
    *cursor = got.cursor;
}

static void try_scan(awirbesh_state state)
{
    awirbesh_range range = some_range(state);
    awirbesh_started got = awirbesh_scan(store.bytes, store.len, state, range);
    awirbesh_started expected = model_scan(store.copy, store.len, state, range);
    MUST_EQUAL("scan", got, expected);
    count(SCAN, got.number);
    uint64_t cursor = one_in(4) ? (one_in(2) ? any_number() : below(30) * PAGE) : got.cursor;
    for (int i = 0; i < 3; i++)
        try_step(state, range, &cursor);
}

static void make_batch(awirbesh_state state)
{
    size_t n = below(6), m = one_in(10) ? below(6) : n;
    uint64_t id = one_in(3) ? any_number() : state.last, end = 0;
    lend(&ids, n * 8, one_in(2));
    lend(&ends, m * 8, one_in(2));
    lend(&data, below(9000), one_in(2));
    fill(&data, one_in(4) ? 0 : 1);
    for (size_t i = 0; i < n; i++) {
        id = one_in(12) ? id : id + 1 + below(3);
        memcpy(ids.bytes + 8 * i, &id, 8);
    }
    for (size_t i = 0; i < m; i++) {
        uint64_t room = data.len > end ? data.len - end : 0, more = some_payload() - 8;
        end = one_in(25) ? any_number() : end + (more < room ? more : below(room + 1));
        memcpy(ends.bytes + 8 * i, &end, 8);
    }
    remember(&ids);
    remember(&ends);
    remember(&data);
}

static awirbesh_pushed push(int kind, awirbesh_state state, const uint64_t *batch, size_t n, const uint64_t *limits,
                            size_t m, const uint8_t *bytes, size_t len)
{
    awirbesh_pushed got = awirbesh_push(store.bytes, store.len, state, batch, n, limits, m, bytes, len);
    awirbesh_pushed expected = model_push(store.copy, store.len, state, batch, n, limits, m, bytes, len);
    MUST_EQUAL("push", got, expected);
    hold(&store, "push's bytes");
    count(kind, got.number);
    return got;
}

static awirbesh_pushed push_batch(int kind, awirbesh_state state)
{
    awirbesh_pushed got = push(kind, state, (const uint64_t *)ids.bytes, ids.len / 8, (const uint64_t *)ends.bytes,
                               ends.len / 8, data.bytes, data.len);
    hold(&ids, "push's ids");
    hold(&ends, "push's ends");
    hold(&data, "push's data");
    return got;
}

/* Each end falls by as much. */
static void lower_ends(uint64_t by)
{
    for (size_t at = 0; at < ends.len; at += 8) {
        uint64_t end;
        memcpy(&end, ends.bytes + at, 8);
        end -= by;
        memcpy(ends.bytes + at, &end, 8);
    }
    remember(&ends);
}

/* The batch from the refused entry on, with its data. */
static void drop_written(uint64_t written)
{
    uint64_t end = 0;
    if (written)
        memcpy(&end, ends.bytes + 8 * (written - 1), 8);
    drop_front(&ids, 8 * written);
    drop_front(&ends, 8 * written);
    drop_front(&data, end);
    lower_ends(end);
}

/* The first entry with less data; those after it keep their lengths. */
static void shorten_first(void)
{
    uint64_t length;
    memcpy(&length, ends.bytes, 8);
    lower_ends(one_in(2) ? length : below(length + 1));
}

/* What was refused for room comes again with the same ids: with less data, with more room, or just so. */
static void try_push(awirbesh_state state)
{
    make_batch(state);
    awirbesh_pushed p = push_batch(PUSH, state);
    for (int i = 0; i < 3 && p.number == 4; i++) {
        drop_written(p.written);
        switch (below(3)) {
        case 0:
            shorten_first();
            break;
        case 1:
            lengthen(&store, below(store.size - store.len + 1));
            break;
        }
        p = push_batch(AGAIN, p.state);
    }
}

/* Data about the limits of 3 and 16, for which there is never room; what 3 or 4 refused comes again with less. */
static void try_large_push(awirbesh_state state)
{
    uint64_t batch[2], limits[2], less = some_payload() - 8;
    batch[0] = state.last + below(3);
    batch[1] = batch[0] + 1;
    limits[0] = one_in(2) ? 0 : LARGE_DATA - below(3);
    limits[1] = LARGE_DATA - below(3);
    if (limits[1] < limits[0])
        limits[1] = limits[0];
    awirbesh_pushed p = push(PUSH, state, batch, 2, limits, 2, large, LARGE_DATA);
    if (p.number == 3 || p.number == 4)
        push(AGAIN, p.state, batch + p.written, 1, &less, 1, large, LARGE_DATA);
}

/* The ids from the first start on that were noted, and what the rules make of them: a second model, without words. */
enum { NOTED = 20000 };
static uint8_t noted[NOTED];

static awirbesh_noted note_by_ids(uint64_t first, awirbesh_sequence s, uint64_t id)
{
    awirbesh_noted r = {0, s};
    if (id < s.start)
        r.number = 11;
    else if (id - s.start >= 4096 || id == UINT64_MAX)
        r.number = 12;
    if (r.number)
        return r;
    noted[id - first] = 1;
    if (id >= s.after)
        r.sequence.after = id + 1;
    while (r.sequence.start < r.sequence.after) {
        uint64_t left = r.sequence.after - r.sequence.start, turn = left < 64 ? left : 64;
        for (uint64_t i = 0; i < turn; i++)
            if (!noted[r.sequence.start - first + i])
                return r;
        r.sequence.start += turn;
    }
    return r;
}

/* Notes in a sequence from its first start, over words that hold anything. */
static void try_notes(void)
{
    uint64_t first = one_in(4) ? UINT64_MAX - below(5000) : any_number(), n = 40 + below(300);
    uint64_t spread = one_in(2) ? 70 : 5000;
    if (first > UINT64_MAX - NOTED && first < UINT64_MAX - 5000)
        first = 0;
    lend(&words, 64 * 8, one_in(2));
    memset(words.bytes, (int)below(256), words.len);
    memset(noted, 0, sizeof noted);
    awirbesh_sequence s = awirbesh_sequence_new(first);
    if (s.start != first || s.after != first)
        stop("sequence_new");
    for (uint64_t i = 0; i < n; i++) {
        uint64_t id = one_in(20) ? any_number() : s.start - (one_in(30) ? 1 : 0) + below(spread);
        if (one_in(3))
            id = s.start;
        if (id >= s.start && id - s.start < 4096 && id - first >= NOTED)
            break;
        remember(&words);
        awirbesh_noted by_ids = note_by_ids(first, s, id);
        awirbesh_noted expected = model_note((uint64_t *)words.copy, s, id);
        awirbesh_noted got = awirbesh_sequence_note((uint64_t *)words.bytes, s, id);
        MUST_EQUAL("note", got, expected);
        MUST_EQUAL("note by ids", got, by_ids);
        hold(&words, "note's words");
        s = got.sequence;
        if (awirbesh_sequence_complete(s) != (s.after <= s.start))
            stop("complete");
        count(NOTE, got.number);
    }
}

/* Words and numbers that no call ever made. */
static void try_made_up_notes(void)
{
    awirbesh_sequence s = {any_number(), any_number()};
    if (one_in(2))
        s.after = s.start + below(5000);
    uint64_t id = one_in(2) ? s.start + below(5000) : any_number(), holes = one_in(2) ? 2 : 20;
    lend(&words, 64 * 8, one_in(2));
    for (size_t i = 0; i < words.len; i += 8) {
        uint64_t word = one_in(holes) ? chance() : UINT64_MAX;
        memcpy(words.bytes + i, &word, 8);
    }
    remember(&words);
    awirbesh_noted expected = model_note((uint64_t *)words.copy, s, id);
    awirbesh_noted got = awirbesh_sequence_note((uint64_t *)words.bytes, s, id);
    MUST_EQUAL("made-up note", got, expected);
    hold(&words, "a made-up note's words");
    count(NOTE, got.number);
    if (awirbesh_sequence_complete(s) != (s.after <= s.start))
        stop("made-up complete");
}

/* One log and some calls on it. */
static void round_of_calls(void)
{
    awirbesh_state state = some_log();
    remember(&store);
    try_take(state);
    try_raise(state);
    try_check(state);
    try_recover(state.length);
    try_cut(state);
    for (int i = 0; i < 4; i++)
        try_lookup(state);
    for (int i = 0; i < 2; i++)
        try_scan(state);
    hold(&store, "a call that only reads changed the store");
    try_push(state);
    if (one_in(50))
        try_large_push(state);
    try_made_up_notes();
}

static int report(void)
{
    int missing = 0;
    for (int k = 0; k < KINDS; k++) {
        printf("%-9s", names[k]);
        for (int r = 0; r < NUMBERS; r++) {
            if (!(possible[k] >> r & 1))
                continue;
            printf("  %d: %llu", r, (unsigned long long)counts[k][r]);
            if (counts[k][r] == 0) {
                printf(" (never seen)");
                missing = 1;
            }
        }
        printf("\n");
    }
    printf("%llu calls, every answer and every byte as the rules say\n", (unsigned long long)calls);
    return missing;
}

int main(int argc, char **argv)
{
    chance_state = argc > 1 ? strtoull(argv[1], 0, 10) : 1;
    uint64_t wanted = argc > 2 ? strtoull(argv[2], 0, 10) : 200000;
    printf("seed %llu\n", (unsigned long long)chance_state);
    store = room_of(64 * PAGE);
    out = room_of(8192);
    ids = room_of(4096);
    ends = room_of(4096);
    data = room_of(12288);
    words = room_of(4096);
    large = calloc(LARGE_DATA, 1);
    if (!large)
        stop("no memory");
    while (calls < wanted) {
        round_of_calls();
        if (one_in(40))
            try_notes();
    }
    free(large);
    return report();
}
