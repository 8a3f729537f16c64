/* Calls each function of awirbesh.h and holds its whole answer to the worked cases of docs/RULES.md 13; takes ids and
 * raises ceilings at their edges, docs/RULES.md 5; restarts with the ceiling that was stored and with others,
 * docs/RULES.md 11.11 and 12.2; pushes secrets, of which nothing may stay in the filling, docs/RULES.md 1.8; pushes
 * entries that were refused again, with the ids that they keep, docs/RULES.md 4.3; and recovers logs whose end is cut,
 * docs/RULES.md 6. */
#include "awirbesh.h"

#include <stdio.h>
#include <stdlib.h>
#include <string.h>
#include <sys/mman.h>

static int failed;

static void same(const char *what, uint64_t got, uint64_t expected)
{
    if (got != expected) {
        printf("%s: %llu, expected %llu\n", what, (unsigned long long)got, (unsigned long long)expected);
        failed = 1;
    }
}

static void same_state(const char *what, awirbesh_state s, uint64_t length, uint64_t last, uint64_t next,
                       uint64_t ceiling)
{
    same(what, s.length, length);
    same(what, s.last, last);
    same(what, s.next, next);
    same(what, s.ceiling, ceiling);
}

static void same_bytes(const char *what, const uint8_t *got, const uint8_t *expected, size_t length)
{
    size_t i = 0;
    while (i < length && got[i] == expected[i])
        i++;
    if (i < length) {
        printf("%s, byte %zu: %d, expected %d\n", what, i, got[i], expected[i]);
        failed = 1;
    }
}

static const awirbesh_range ALL = {{AWIRBESH_OPEN, 0}, {AWIRBESH_OPEN, 0}};

/* ---- ids: taking, raising, and a restart ---- */

typedef struct {
    const char *what;
    awirbesh_state before;
    awirbesh_taken expected;
} take;

/* Numbers that a take does not look at are made up. */
static const take takes[] = {
    {"13.10, the first", {0, 0, 1, 3}, {0, 1, {0, 0, 2, 3}}},
    {"13.10, the second", {0, 0, 2, 3}, {0, 2, {0, 0, 3, 3}}},
    {"13.10, the third", {0, 0, 3, 3}, {30, 0, {0, 0, 3, 3}}},
    {"the fresh state", {0, 0, 1, 1}, {30, 0, {0, 0, 1, 1}}},
    {"id 0", {7, 9, 0, 1}, {0, 0, {7, 9, 1, 1}}},
    {"no ceiling", {7, 9, 0, 0}, {30, 0, {7, 9, 0, 0}}},
    {"a ceiling of 0", {7, 9, 5, 0}, {30, 0, {7, 9, 5, 0}}},
    {"the last below the ceiling", {UINT64_MAX, UINT64_MAX, 99, 100}, {0, 99, {UINT64_MAX, UINT64_MAX, 100, 100}}},
    {"the ceiling", {1, 2, 100, 100}, {30, 0, {1, 2, 100, 100}}},
    {"above the ceiling", {1, 2, 101, 100}, {30, 0, {1, 2, 101, 100}}},
    {"far below the ceiling", {1, 2, 3, UINT64_MAX}, {0, 3, {1, 2, 4, UINT64_MAX}}},
    {"far above the ceiling", {1, 2, UINT64_MAX - 1, 1}, {30, 0, {1, 2, UINT64_MAX - 1, 1}}},
    {"the last id but one", {1, 2, UINT64_MAX - 1, UINT64_MAX}, {0, UINT64_MAX - 1, {1, 2, UINT64_MAX, UINT64_MAX}}},
    {"it, at the ceiling", {1, 2, UINT64_MAX - 1, UINT64_MAX - 1}, {30, 0, {1, 2, UINT64_MAX - 1, UINT64_MAX - 1}}},
    /* 9 comes before 30 */
    {"the last id", {0, 5, UINT64_MAX, UINT64_MAX}, {9, 0, {0, 5, UINT64_MAX, UINT64_MAX}}},
    {"the last id above the ceiling", {0, 5, UINT64_MAX, UINT64_MAX - 1}, {9, 0, {0, 5, UINT64_MAX, UINT64_MAX - 1}}},
    {"the last id, ceiling 1", {0, 5, UINT64_MAX, 1}, {9, 0, {0, 5, UINT64_MAX, 1}}},
    {"the last id, ceiling 0", {0, 5, UINT64_MAX, 0}, {9, 0, {0, 5, UINT64_MAX, 0}}},
};

static void ids_are_taken(void)
{
    same_state("fresh", awirbesh_fresh(), 0, 0, 1, 1);
    for (size_t i = 0; i < sizeof takes / sizeof *takes; i++) {
        const take *t = &takes[i];
        awirbesh_state after = t->expected.state;
        awirbesh_taken got = awirbesh_take(t->before);
        same(t->what, got.number, t->expected.number);
        same(t->what, got.id, t->expected.id);
        same_state(t->what, got.state, after.length, after.last, after.next, after.ceiling);
    }
}

#define LONGEST_STEP ((uint64_t)1 << 32)

/* Those of rule 13.10. */
static const struct {
    awirbesh_state before;
    uint64_t step;
    awirbesh_raised expected;
} raisings[] = {
    {{0, 0, 1, 1}, 2, {0, {0, 0, 1, 3}}},
    {{1024, 1, 3, 3}, 1, {0, {1024, 1, 3, 4}}},
    {{0, 0, 1, 1}, 0, {31, {0, 0, 1, 1}}},
    {{0, 0, 1, 1}, LONGEST_STEP + 1, {31, {0, 0, 1, 1}}},
    {{0, 0, 1, UINT64_MAX - 1}, 1, {0, {0, 0, 1, UINT64_MAX}}},
    {{0, 0, 1, UINT64_MAX - 1}, 2, {31, {0, 0, 1, UINT64_MAX - 1}}},
};

static void worked_raisings(void)
{
    for (size_t i = 0; i < sizeof raisings / sizeof *raisings; i++) {
        awirbesh_state after = raisings[i].expected.state;
        awirbesh_raised got = awirbesh_raise(raisings[i].before, raisings[i].step);
        same("13.10, a raise", got.number, raisings[i].expected.number);
        same_state("13.10, a raise", got.state, after.length, after.last, after.next, after.ceiling);
    }
}

/* Each step by each ceiling, the other numbers being made up: refused by the sum or by the step itself, or added. */
static void ceilings_are_raised(void)
{
    static const struct {
        uint64_t step;
        int allowed;
    } steps[] = {
        {0, 0},
        {1, 1},
        {2, 1},
        {1024, 1},
        {LONGEST_STEP - 1, 1},
        {LONGEST_STEP, 1},
        {LONGEST_STEP + 1, 0},
        {2 * LONGEST_STEP, 0},
        {(uint64_t)1 << 63, 0},
        {UINT64_MAX - 1, 0},
        {UINT64_MAX, 0},
    };
    for (size_t i = 0; i < sizeof steps / sizeof *steps; i++) {
        uint64_t step = steps[i].step;
        /* the last four are those at which the sum is 2^64-3, 2^64-2, 2^64-1 and 2^64 */
        const uint64_t ceilings[] = {0, 1, 6, LONGEST_STEP, UINT64_MAX - 2 - step, UINT64_MAX - 1 - step,
                                     UINT64_MAX - step, UINT64_MAX - step + 1};
        for (size_t j = 0; j < sizeof ceilings / sizeof *ceilings; j++) {
            uint64_t ceiling = ceilings[j], sum = ceiling + step;
            int raised = steps[i].allowed && sum > ceiling;
            /* next is at the ceiling, above it or below it; length and last are of no log */
            const uint64_t nexts[] = {ceiling, ceiling + 1, ceiling - 1, 0, UINT64_MAX};
            for (size_t k = 0; k < sizeof nexts / sizeof *nexts; k++) {
                awirbesh_state before = {UINT64_MAX - k, 3 * j, nexts[k], ceiling};
                awirbesh_raised got = awirbesh_raise(before, step);
                same("raise", got.number, raised ? AWIRBESH_OK : AWIRBESH_BAD_RAISE);
                same_state("raise", got.state, UINT64_MAX - k, 3 * j, nexts[k], raised ? sum : ceiling);
            }
        }
    }
}

static awirbesh_state raise_by(const char *what, awirbesh_state state, uint64_t step)
{
    awirbesh_raised r = awirbesh_raise(state, step);
    same(what, r.number, AWIRBESH_OK);
    same_state(what, r.state, state.length, state.last, state.next, state.ceiling + step);
    return r.state;
}

static awirbesh_state take_id(const char *what, awirbesh_state state, uint64_t id)
{
    awirbesh_taken t = awirbesh_take(state);
    same(what, t.number, AWIRBESH_OK);
    same(what, t.id, id);
    same_state(what, t.state, state.length, state.last, id + 1, state.ceiling);
    return t.state;
}

/* Pushes one entry whose data is a word. */
static awirbesh_state push_word(const char *what, uint8_t *store, awirbesh_state state, uint64_t id, const char *word)
{
    const uint64_t end = strlen(word);
    awirbesh_pushed p = awirbesh_push(store, 4096, state, &id, 1, &end, 1, (const uint8_t *)word, end);
    same(what, p.number, AWIRBESH_OK);
    same(what, p.written, 1);
    same_state(what, p.state, state.length + 1024, id, state.next, state.ceiling);
    return p.state;
}

static awirbesh_state restart(const char *what, const uint8_t *store, uint64_t length, uint64_t stored)
{
    awirbesh_recovered r = awirbesh_recover(store, 4096, length, stored);
    same(what, r.number, AWIRBESH_OK);
    same(what, r.state.ceiling, r.state.next);
    return r.state;
}

/* The word that a lookup of an id hands over; none if it is absent. */
static void is_word(const char *what, const uint8_t *store, awirbesh_state state, uint64_t id, const char *word)
{
    uint8_t out[16] = {0};
    awirbesh_look l = awirbesh_lookup(store, 4096, state, id, out, sizeof out);
    same(what, l.number, AWIRBESH_OK);
    same(what, l.found, word != 0);
    same(what, l.length, word ? strlen(word) : 0);
    same(what, (uint64_t)memcmp(out, word ? word : "", l.length), 0);
}

/* Ids 1 and 2 are handed out under the ceiling 3, which is stored. 1 is pushed, and 2 is dropped. */
static awirbesh_state one_pushed_one_dropped(uint8_t *store)
{
    awirbesh_state state = raise_by("raised by 2", awirbesh_fresh(), 2);
    state = take_id("the first id", state, 1);
    state = take_id("the second id", state, 2);
    awirbesh_taken t = awirbesh_take(state);
    same("no third id", t.number, AWIRBESH_CEILING_REACHED);
    same("no third id", t.id, 0);
    same_state("no third id", t.state, 0, 0, 3, 3);
    return push_word("the first id", store, t.state, 1, "hello");
}

/* Rule 13.10: after a restart with the ceiling that was stored the next id is new, and 2 is absent for good. */
static void a_dropped_id_stays_dropped(void)
{
    static uint8_t store[4096];
    awirbesh_state before = one_pushed_one_dropped(store);
    awirbesh_state state = restart("restart", store, before.length, before.ceiling);
    same_state("restart", state, 1024, 1, 3, 3);
    same_state("restart again", restart("restart again", store, 1024, state.ceiling), 1024, 1, 3, 3);
    same("an id before the ceiling is raised", awirbesh_take(state).number, AWIRBESH_CEILING_REACHED);
    state = take_id("a new id", raise_by("raised by 1", state, 1), 3);
    is_word("a dropped id", store, state, 2, 0);
    same("a dropped id, position", awirbesh_find(store, 4096, state, 2).position, 1024);
    state = push_word("a new id", store, state, 3, "real");
    is_word("a pushed id", store, state, 1, "hello");
    is_word("a dropped id, later", store, state, 2, 0);
    is_word("a new id", store, state, 3, "real");
}

/* Rule 12.2: a restart with 0, or with the ceiling from before the raise, hands the dropped id out again; pushed by
 * whoever has it now, it is found by whoever dropped it. */
static void with_an_older_ceiling(void)
{
    static uint8_t store[4096];
    const uint64_t older[] = {0, 1, 2};
    for (size_t i = 0; i < sizeof older / sizeof *older; i++) {
        awirbesh_state state = restart("older ceiling", store, one_pushed_one_dropped(store).length, older[i]);
        same_state("older ceiling", state, 1024, 1, 2, 2);
        is_word("before it comes again", store, state, 2, 0);
        state = take_id("a used id", raise_by("older ceiling", state, 1), 2);
        is_word("a dropped id", store, push_word("a used id", store, state, 2, "real"), 2, "real");
    }
}

/* Rule 12.2: id 2 is pushed before it is handed out, so that it is found as soon as it is. */
static void with_an_id_that_was_not_handed_out(void)
{
    static uint8_t store[4096];
    awirbesh_state state = take_id("the first id", raise_by("raised", awirbesh_fresh(), 4), 1);
    state = push_word("not handed out", store, state, 2, "early");
    is_word("not handed out yet", store, state, 2, 0);
    state = take_id("it is handed out", state, 2);
    is_word("it is handed out", store, state, 2, "early");
}

/* Rule 12.2: a crash cuts the entry of id 1 off, and after the restart it is pushed with other data. */
static void with_an_id_pushed_twice_across_a_cut(void)
{
    static uint8_t store[4096];
    awirbesh_state state = one_pushed_one_dropped(store);
    is_word("pushed once", store, state, 1, "hello");
    state = restart("cut", store, 1000, state.ceiling);
    same_state("cut", state, 0, 0, 3, 3);
    is_word("cut off", store, state, 1, 0);
    state = push_word("pushed twice", store, state, 1, "other");
    is_word("pushed twice", store, state, 1, "other");
}

static void used_ids_stay_used(void)
{
    a_dropped_id_stays_dropped();
    with_an_older_ceiling();
    with_an_id_that_was_not_handed_out();
    with_an_id_pushed_twice_across_a_cut();
}

/* (1, "hello") then (2, none), byte by byte. */
static void two_entries(void)
{
    static uint8_t store[4096], expected[4096], out[16];
    const uint64_t ids[2] = {1, 2}, ends[2] = {5, 5};
    memset(store, 0xAA, sizeof store);
    memset(expected, 0, 2048);
    memset(expected + 2048, 0xAA, 2048);
    memcpy(expected, "\1\0\0\15\0\0\0\0\0\0\0\1hello", 17);
    memcpy(expected + 1024, "\1\0\0\10\0\0\0\0\0\0\0\2", 12);
    awirbesh_pushed p = awirbesh_push(store, sizeof store, awirbesh_fresh(), ids, 2, ends, 2,
                                      (const uint8_t *)"hello", 5);
    same("push number", p.number, AWIRBESH_OK);
    same("push written", p.written, 2);
    same_state("push", p.state, 2048, 2, 1, 1);
    same_bytes("push", store, expected, sizeof store);

    awirbesh_look l = awirbesh_lookup(store, sizeof store, p.state, 1, out, sizeof out);
    same("not below next, found", l.found, 0);
    same("not below next, position", l.position, 2048);

    awirbesh_state state = p.state;
    state.next = 3;
    memset(out, '.', sizeof out);
    l = awirbesh_lookup(store, sizeof store, state, 1, out, sizeof out);
    same("lookup number", l.number, AWIRBESH_OK);
    same("lookup found", l.found, 1);
    same("lookup position", l.position, 0);
    same("lookup length", l.length, 5);
    same("lookup out", (uint64_t)memcmp(out, "hello...........", 16), 0);
    l = awirbesh_lookup(store, sizeof store, state, 1, out, 4);
    same("small buffer", l.number, AWIRBESH_BUFFER_SMALL);
    same("small buffer, needed", l.value, 5);
    same("small buffer, position", l.position, 0);
    l = awirbesh_find(store, sizeof store, state, 2);
    same("find number", l.number, AWIRBESH_OK);
    same("find value", l.value, 0);
    same("find found", l.found, 1);
    same("find position", l.position, 1024);
    same("find length", l.length, 0);
    same("find of 0", awirbesh_find(store, sizeof store, state, 0).found, 0);

    same("check", awirbesh_check(store, sizeof store, 2048).number, AWIRBESH_OK);
    awirbesh_checked c = awirbesh_check(store, sizeof store, 2050);
    same("check of an excess", c.number, AWIRBESH_CUT_ENTRY);
    same("check of an excess, page", c.value, 2);

    awirbesh_recovered r = awirbesh_recover(store, sizeof store, 1030, 0);
    same("recover number", r.number, AWIRBESH_OK);
    same("recover value", r.value, 0);
    same("recover excess", r.excess, 6);
    same("recover dropped", r.dropped, 0);
    same_state("recover", r.state, 1024, 1, 2, 2);
    r = awirbesh_recover(store, sizeof store, 3072, 0);
    same("recover a bad mark", r.number, AWIRBESH_BAD_MARK);
    same("recover a bad mark, page", r.value, 2);
    same_state("recover a bad mark", r.state, 0, 0, 0, 0);

    awirbesh_started s = awirbesh_scan(store, sizeof store, state, ALL);
    same("scan number", s.number, AWIRBESH_OK);
    same("scan cursor", s.cursor, 0);
    awirbesh_range above = {{AWIRBESH_EXCLUDED, 1}, {AWIRBESH_INCLUDED, 2}};
    s = awirbesh_scan(store, sizeof store, state, above);
    same("scan above 1, cursor", s.cursor, 0);
    awirbesh_stepped e = awirbesh_step(store, sizeof store, state, above, s.cursor, out, sizeof out);
    same("step number", e.number, AWIRBESH_OK);
    same("step kind", e.kind, AWIRBESH_ENTRY);
    same("step id", e.id, 2);
    same("step length", e.length, 0);
    same("step cursor", e.cursor, 2048);
    e = awirbesh_step(store, sizeof store, state, above, e.cursor, out, sizeof out);
    same("end kind", e.kind, AWIRBESH_END);
    same("end cursor", e.cursor, 2048);
    e = awirbesh_step(store, sizeof store, state, above, 1000, out, sizeof out);
    same("step from inside a page", e.number, AWIRBESH_BAD_STATE);
    same("its cursor stays", e.cursor, 1000);

    /* A kind that is neither 1 nor 2 is open. */
    awirbesh_range odd = {{7, 2}, {UINT64_MAX, 1}};
    same("scan of an odd kind", awirbesh_scan(store, sizeof store, state, odd).cursor, 0);
    e = awirbesh_step(store, sizeof store, state, odd, 1024, out, sizeof out);
    same("step of an odd kind", e.id, 2);
}

/* ---- no old bytes in the filling ---- */

enum { PAGE = 1024, STORE = 8 * PAGE, OLD = 0xA5, SHORT = 5, AFTER = 100 };

/* Three secrets, of 1 page, 3 pages and 1 page, and then the short entry, whose data more of the secret follows. */
static const uint64_t batch_ids[4] = {5, 6, 7, 9}, batch_ends[4] = {1012, 4004, 4024, 4024 + SHORT};
enum { SECRETS = 3, SECRET_BYTES = 4024, SECRET_PAGES = 5 };
static uint8_t batch_data[SECRET_BYTES + SHORT + AFTER];

/* Bytes from 0xC0 on: never 0, never the store's, and none of the short entry's. */
static void make_secret(uint8_t *bytes, size_t length)
{
    for (size_t i = 0; i < length; i++)
        bytes[i] = (uint8_t)(0xC0 + i % 61);
}

static awirbesh_state push_whole(const char *what, uint8_t *store, awirbesh_state state, const uint64_t *ids,
                                 const uint64_t *ends, size_t count, const uint8_t *data, size_t data_len)
{
    awirbesh_pushed p = awirbesh_push(store, STORE, state, ids, count, ends, count, data, data_len);
    same(what, p.number, AWIRBESH_OK);
    same(what, p.written, count);
    return p.state;
}

/* The secrets, in a store that was not zero. */
static awirbesh_state push_secrets(uint8_t *store)
{
    memset(store, OLD, STORE);
    awirbesh_state state = push_whole("secrets", store, awirbesh_fresh(), batch_ids, batch_ends, SECRETS, batch_data,
                                      sizeof batch_data);
    same_state("secrets", state, SECRET_PAGES * PAGE, 7, 1, 1);
    same_bytes("a secret is stored", store + 12, batch_data, 1012);
    return state;
}

/* The short entry's page is the same in every run: mark, length, id, data, and zeros to its end. */
static void is_short_page(const char *what, const uint8_t *page)
{
    static const uint8_t expected[PAGE] = "\1\0\0\15\0\0\0\0\0\0\0\11short";
    same_bytes(what, page, expected, PAGE);
}

/* Pushes the short entry alone: its page is added, and no other byte changes. */
static void push_short(const char *what, uint8_t *store, awirbesh_state state)
{
    static uint8_t before[STORE];
    const uint64_t end = SHORT;
    size_t at = state.length, after = at + PAGE;
    memcpy(before, store, STORE);
    state = push_whole(what, store, state, batch_ids + SECRETS, &end, 1, batch_data + SECRET_BYTES, SHORT + AFTER);
    same_state(what, state, after, 9, 1, 1);
    is_short_page(what, store + at);
    same_bytes(what, store, before, at);
    same_bytes(what, store + after, before + after, STORE - after);
}

static void short_entry_in_one_push_with_secrets(uint8_t *store)
{
    static uint8_t before[STORE];
    size_t at = SECRET_PAGES * PAGE, after = at + PAGE;
    memset(before, OLD, STORE);
    memset(store, OLD, STORE);
    awirbesh_state state = push_whole("secrets and a short entry", store, awirbesh_fresh(), batch_ids, batch_ends, 4,
                                      batch_data, sizeof batch_data);
    same_state("secrets and a short entry", state, after, 9, 1, 1);
    is_short_page("secrets and a short entry", store + at);
    same_bytes("past secrets and a short entry", store + after, before + after, STORE - after);
}

static void short_entry_in_a_push_after_secrets(uint8_t *store)
{
    push_short("short entry after secrets", store, push_secrets(store));
}

/* The log is cut back to nothing, and the short entry goes over the secrets' first page. */
static void short_entry_over_secrets(uint8_t *store)
{
    push_secrets(store);
    push_short("short entry over secrets", store, awirbesh_recover(store, STORE, 0, 0).state);
}

/* The same over the two later pages of the second secret. */
static void short_entry_over_later_pages(uint8_t *store)
{
    for (size_t page = 2; page < 4; page++) {
        push_secrets(store);
        push_short("short entry over a later page", store, (awirbesh_state){page * PAGE, 7, 1, 1});
    }
}

/* An entry of id 9 over pages of zeros, byte by byte. */
static void lay_out(uint8_t *zeros, const uint8_t *data, size_t length)
{
    size_t at = 12;
    zeros[0] = 1;
    zeros[2] = (uint8_t)((8 + length) >> 8);
    zeros[3] = (uint8_t)(8 + length);
    zeros[11] = 9;
    for (size_t i = 0; i < length; i++) {
        if (at % PAGE == 0)
            at++;
        zeros[at++] = data[i];
    }
}

/* Data that stops about a page's end, after a full page of the secret in the same push. */
static void filling_at_its_edges(uint8_t *store)
{
    static const struct {
        size_t length, pages;
    } edges[] = {
        {1011, 1}, /* one byte of filling */
        {1012, 1}, /* none */
        {1013, 2}, /* 1,022 on the second page */
        {2034, 2}, /* one */
        {2035, 2}, /* none */
        {2036, 3}, /* 1,022 on the third page */
    };
    static uint8_t expected[STORE];
    for (size_t i = 0; i < sizeof edges / sizeof *edges; i++) {
        size_t size = edges[i].pages * PAGE;
        const uint64_t ids[2] = {5, 9}, ends[2] = {1012, 1012 + edges[i].length};
        memset(store, OLD, STORE);
        memset(expected, OLD, STORE);
        memset(expected, 0, size);
        lay_out(expected, batch_data + 1012, edges[i].length);
        awirbesh_state state = push_whole("data at an edge", store, awirbesh_fresh(), ids, ends, 2, batch_data,
                                          sizeof batch_data);
        same_state("data at an edge", state, PAGE + size, 9, 1, 1);
        same_bytes("data at an edge", store + PAGE, expected, STORE - PAGE);
    }
}

static void no_old_bytes_in_the_filling(void)
{
    static uint8_t store[STORE];
    make_secret(batch_data, sizeof batch_data);
    memcpy(batch_data + SECRET_BYTES, "short", SHORT);
    short_entry_in_one_push_with_secrets(store);
    short_entry_in_a_push_after_secrets(store);
    short_entry_over_secrets(store);
    short_entry_over_later_pages(store);
    filling_at_its_edges(store);
}

/* ---- order, size and room; an entry that 3 or 4 refuses keeps its id ---- */

/* The longest data that 16 lets through, one byte too many for an entry. A program of the library's own has no room for
 * so much. */
enum { LIMIT = 16777208, LARGE_STORE = 16401 * PAGE };

static uint8_t *memory_of(size_t size, int byte)
{
    uint8_t *bytes = malloc(size);
    if (!bytes)
        abort();
    memset(bytes, byte, size);
    return bytes;
}

static awirbesh_pushed push_one(uint8_t *store, size_t store_len, awirbesh_state state, uint64_t id,
                                const uint8_t *data, size_t length)
{
    const uint64_t end = length;
    return awirbesh_push(store, store_len, state, &id, 1, &end, 1, data, length);
}

/* A refusal that wrote nothing: the state stays. */
static void is_refused(const char *what, awirbesh_pushed p, uint64_t number, awirbesh_state before)
{
    same(what, p.number, number);
    same(what, p.written, 0);
    same_state(what, p.state, before.length, before.last, before.next, before.ceiling);
}

/* Next and the ceiling are those of before. */
static void is_written(const char *what, awirbesh_pushed p, uint64_t written, uint64_t length, uint64_t last,
                       awirbesh_state before)
{
    same(what, p.number, AWIRBESH_OK);
    same(what, p.written, written);
    same_state(what, p.state, length, last, before.next, before.ceiling);
}

/* No byte was written since the store was made. */
static void is_old(const char *what, const uint8_t *bytes, size_t length)
{
    size_t old = 0;
    while (old < length && bytes[old] == OLD)
        old++;
    same(what, old, length);
}

static void is_stored(const char *what, const uint8_t *store, size_t store_len, awirbesh_state state, uint64_t id,
                      const uint8_t *data, size_t length)
{
    uint8_t *out = memory_of(length + 1, OLD);
    awirbesh_look l = awirbesh_lookup(store, store_len, state, id, out, length + 1);
    same(what, l.number, AWIRBESH_OK);
    same(what, l.found, 1);
    same(what, l.length, length);
    same_bytes(what, out, data, length);
    is_old(what, out + length, 1);
    free(out);
}

/* Rule 13.6, with the store just as long as the largest entry, and each time from the refusal on. */
static void fewer_bytes_than_too_many(void)
{
    static const struct {
        size_t length, pages;
    } fewer[] = {{0, 1}, {1012, 1}, {1013, 2}, {LIMIT - 1, LARGE_STORE / PAGE}};
    const awirbesh_state before = {0, 6, 8, 5};
    uint8_t *store = memory_of(LARGE_STORE, OLD), *data = memory_of(LIMIT + 1, 7);
    for (size_t i = 0; i < sizeof fewer / sizeof *fewer; i++) {
        memset(store, OLD, LARGE_STORE);
        awirbesh_pushed p = push_one(store, LARGE_STORE, before, 7, data, LIMIT);
        is_refused("2^24 - 8 bytes", p, AWIRBESH_TOO_LARGE, before);
        p = push_one(store, LARGE_STORE, p.state, 7, data, LIMIT + 1);
        is_refused("one byte more", p, AWIRBESH_VALUE_TOO_LARGE, before);
        is_old("after 3 and 16", store, LARGE_STORE);
        size_t after = fewer[i].pages * PAGE;
        p = push_one(store, LARGE_STORE, p.state, 7, data, fewer[i].length);
        is_written("the same id with fewer", p, 1, after, 7, before);
        is_old("after the same id with fewer", store + after, LARGE_STORE - after);
        is_stored("the same id with fewer", store, LARGE_STORE, p.state, 7, data, fewer[i].length);
        is_refused("and once more", push_one(store, LARGE_STORE, p.state, 7, data, 0), AWIRBESH_OUT_OF_ORDER, p.state);
    }
    free(store);
    free(data);
}

/* Entries of 1, 2, 2 and 1 pages, for which a store of 4 pages has no room from the third on. */
enum { SMALL = 4 * PAGE, THIRD_BEGINS = 1500, THIRD_ENDS = 2600, FOURTH_ENDS = 2700 };
static const uint64_t crowd_ids[4] = {3, 5, 9, 12}, crowd_ends[4] = {100, THIRD_BEGINS, THIRD_ENDS, FOURTH_ENDS};

/* The store is longer than what is lent of it here. */
static awirbesh_state push_crowd(uint8_t *store)
{
    const awirbesh_state before = {0, 0, 13, 20};
    memset(store, OLD, STORE);
    awirbesh_pushed p = awirbesh_push(store, SMALL, before, crowd_ids, 4, crowd_ends, 4, batch_data, FOURTH_ENDS);
    same("no room for the third", p.number, AWIRBESH_NO_ROOM);
    same("no room for the third, written", p.written, 2);
    same_state("no room for the third", p.state, 3 * PAGE, 5, 13, 20);
    is_old("no room for the third", store + p.state.length, STORE - p.state.length);
    return p.state;
}

/* The first two are where they were, and the log is sound. */
static void is_crowd(const char *what, const uint8_t *store, size_t store_len, awirbesh_state state)
{
    is_stored(what, store, store_len, state, 3, batch_data, 100);
    is_stored(what, store, store_len, state, 5, batch_data + 100, THIRD_BEGINS - 100);
    same(what, awirbesh_check(store, store_len, state.length).number, AWIRBESH_OK);
}

static void less_data_in_the_same_store(uint8_t *store)
{
    awirbesh_state state = push_crowd(store);
    const uint8_t *third = batch_data + THIRD_BEGINS;
    awirbesh_pushed p = push_one(store, SMALL, state, 9, third, THIRD_ENDS - THIRD_BEGINS);
    is_refused("no less data", p, AWIRBESH_NO_ROOM, state);
    p = push_one(store, SMALL, p.state, 9, third, 1013);
    is_refused("a byte too much for a page", p, AWIRBESH_NO_ROOM, state);
    is_old("no less data", store + 3 * PAGE, STORE - 3 * PAGE);
    p = push_one(store, SMALL, p.state, 9, third, 1012);
    is_written("less data", p, 1, SMALL, 9, state);
    is_old("past less data", store + SMALL, STORE - SMALL);
    is_stored("less data", store, SMALL, p.state, 9, third, 1012);
    is_crowd("before less data", store, SMALL, p.state);
}

static void same_data_in_a_longer_store(uint8_t *store)
{
    const uint64_t ends[2] = {THIRD_ENDS - THIRD_BEGINS, FOURTH_ENDS - THIRD_BEGINS};
    const uint8_t *third = batch_data + THIRD_BEGINS;
    awirbesh_state state = push_crowd(store);
    awirbesh_pushed p = awirbesh_push(store, SMALL + PAGE - 1, state, crowd_ids + 2, 2, ends, 2, third, ends[1]);
    is_refused("a byte too short", p, AWIRBESH_NO_ROOM, state);
    p = awirbesh_push(store, STORE, p.state, crowd_ids + 2, 2, ends, 2, third, ends[1]);
    is_written("a longer store", p, 2, 6 * PAGE, 12, state);
    is_old("past a longer store's log", store + 6 * PAGE, STORE - 6 * PAGE);
    is_stored("a longer store", store, STORE, p.state, 9, third, ends[0]);
    is_stored("a longer store", store, STORE, p.state, 12, third + ends[0], ends[1] - ends[0]);
    is_crowd("before a longer store", store, STORE, p.state);
}

/* Nothing remembers what was refused: after a greater id it is out of order. */
static void a_greater_id_first(uint8_t *store)
{
    awirbesh_state state = push_crowd(store);
    awirbesh_pushed p = push_one(store, SMALL, state, 12, batch_data, 1012);
    is_written("a greater id first", p, 1, SMALL, 12, state);
    is_refused("then the refused id", push_one(store, STORE, p.state, 9, batch_data, 0), AWIRBESH_OUT_OF_ORDER, p.state);
    is_crowd("before a greater id", store, SMALL, p.state);
}

/* Order before size and room, size before room: of one page, of several and of too many. */
static void first_test_that_fails(uint8_t *store)
{
    static const struct {
        size_t length;
        uint64_t in_order;
    } sizes[] = {{0, AWIRBESH_NO_ROOM}, {3000, AWIRBESH_NO_ROOM}, {LIMIT, AWIRBESH_TOO_LARGE}};
    const awirbesh_state full = {SMALL, 9, 13, 13};
    uint8_t *data = memory_of(LIMIT, 7);
    memset(store, OLD, STORE);
    for (size_t i = 0; i < sizeof sizes / sizeof *sizes; i++) {
        for (uint64_t id = 0; id <= 9; id++)
            is_refused("out of order in a full store", push_one(store, SMALL, full, id, data, sizes[i].length),
                       AWIRBESH_OUT_OF_ORDER, full);
        is_refused("in order in a full store", push_one(store, SMALL, full, 10, data, sizes[i].length),
                   sizes[i].in_order, full);
    }
    const uint64_t ids[2] = {10, 11}, end = 0;
    is_refused("counts differ", awirbesh_push(store, SMALL, full, ids, 2, &end, 1, data, 0), AWIRBESH_BAD_BATCH, full);
    is_old("a full store", store, STORE);
    free(data);
}

static void refused_entries_keep_their_ids(void)
{
    static uint8_t store[STORE];
    make_secret(batch_data, sizeof batch_data);
    fewer_bytes_than_too_many();
    less_data_in_the_same_store(store);
    same_data_in_a_longer_store(store);
    a_greater_id_first(store);
    first_test_that_fails(store);
}

/* ---- logs whose end is cut ---- */

/* Puts a page there: a start of so many bytes of payload, with an id; or with no payload an idle page or a later one.
 * What a recovery does not read is not zero. */
static void put_page(uint8_t *store, size_t page, uint64_t payload, uint64_t id)
{
    uint8_t *at = store + page * PAGE;
    memset(at, OLD, PAGE);
    at[0] = payload > 0;
    for (int i = 0; payload > 0 && i < 3; i++)
        at[1 + i] = (uint8_t)(payload >> (16 - 8 * i));
    for (int i = 0; payload > 0 && i < 8; i++)
        at[4 + i] = (uint8_t)(id >> (56 - 8 * i));
}

/* The pages of a store, as payload and id, and what its recovery at a length answers, all of it. */
typedef struct {
    const char *what;
    struct {
        uint64_t payload, id;
    } pages[8];
    size_t count, length;
    awirbesh_recovered expected;
} torn;

static const torn torn_logs[] = {
    {"13.7", {{8, 9}, {0, 0}}, 2, 1030, {0, 0, 6, 0, {1024, 9, 10, 10}}},
    /* 1,021 bytes of payload take 2 pages, 2,043 too, 2,044 take 3, 16,777,215 take 16,401 */
    {"a start of two pages alone", {{1021, 1}}, 1, 1024, {0, 0, 0, 1, {0, 0, 1, 1}}},
    {"it and all but a byte of its second", {{1021, 1}, {0, 0}}, 2, 2047, {0, 0, 1023, 1, {0, 0, 1, 1}}},
    {"both of its pages", {{1021, 1}, {0, 0}}, 2, 2048, {0, 0, 0, 0, {2048, 1, 2, 2}}},
    {"after an entry", {{8, 4}, {2044, 6}, {0, 0}}, 3, 3072, {0, 0, 0, 2, {1024, 4, 5, 5}}},
    {"after an entry, with an excess", {{8, 4}, {2044, 6}, {0, 0}, {0, 0}}, 4, 3073, {0, 0, 1, 2, {1024, 4, 5, 5}}},
    {"no longer cut", {{8, 4}, {2044, 6}, {0, 0}, {0, 0}}, 4, 4096, {0, 0, 0, 0, {4096, 6, 7, 7}}},
    {"of the largest payload", {{8, 4}, {16777215, 6}, {0, 0}}, 3, 3072, {0, 0, 0, 2, {1024, 4, 5, 5}}},
    {"idle pages before it stay", {{8, 4}, {0, 0}, {0, 0}, {1021, 6}}, 4, 4096, {0, 0, 0, 1, {3072, 4, 5, 5}}},
    {"an entry of two before it", {{2043, 4}, {0, 0}, {2044, 6}, {0, 0}}, 4, 4096, {0, 0, 0, 2, {2048, 4, 5, 5}}},
    /* page 0 would be whole if the start on page 1 were its second page: it is cut by what is left */
    {"two starts", {{1021, 4}, {1021, 6}}, 2, 2048, {0, 0, 0, 2, {0, 0, 1, 1}}},
    {"two starts after an entry", {{8, 4}, {1021, 6}, {1021, 7}}, 3, 3072, {0, 0, 0, 2, {1024, 4, 5, 5}}},
    {"two of three, the first whole", {{1021, 4}, {0, 0}, {2044, 6}, {0, 0}, {1021, 7}}, 5, 5120,
     {0, 0, 0, 3, {2048, 4, 5, 5}}},
    {"three starts, and an excess", {{8, 4}, {2044, 6}, {2044, 7}, {0, 0}, {1021, 8}, {0, 0}}, 6, 6143,
     {0, 0, 1023, 4, {1024, 4, 5, 5}}},
    {"a whole start between two cut ones", {{2044, 4}, {8, 6}, {1021, 7}}, 3, 3072, {0, 0, 0, 1, {2048, 6, 7, 7}}},
    {"ids are not compared", {{8, 9}, {8, 0}, {1021, 7}}, 3, 3072, {0, 0, 0, 1, {2048, 0, 1, 1}}},
    {"seven starts, all dropped", {{1021, 1}, {1021, 2}, {1021, 3}, {1021, 4}, {1021, 5}, {1021, 6}, {1021, 7}}, 7,
     7168, {0, 0, 0, 7, {0, 0, 1, 1}}},
    /* the last id of all, met after a drop; in a cut entry it is dropped with it */
    {"9 after a drop", {{8, 4}, {8, UINT64_MAX}, {1021, 7}}, 3, 3072, {9, 0, 0, 0, {0, 0, 0, 0}}},
    {"9 after a drop, with an excess", {{8, UINT64_MAX}, {1021, 7}, {0, 0}}, 3, 2500, {9, 0, 0, 0, {0, 0, 0, 0}}},
    {"a cut entry of that id", {{8, 4}, {1021, UINT64_MAX}}, 2, 2048, {0, 0, 0, 1, {1024, 4, 5, 5}}},
    {"the id before it", {{8, UINT64_MAX - 1}, {1021, UINT64_MAX}}, 2, 2048,
     {0, 0, 0, 1, {1024, UINT64_MAX - 1, UINT64_MAX, UINT64_MAX}}},
    {"6 before a drop", {{8, 4}, {7, 6}}, 2, 2048, {6, 1, 0, 0, {0, 0, 0, 0}}},
    {"6 after a drop", {{8, 4}, {7, 6}, {1021, 7}}, 3, 3072, {6, 1, 0, 0, {0, 0, 0, 0}}},
    {"8 after a drop", {{0, 0}, {0, 0}, {1021, 7}, {0, 0}}, 4, 3072, {8, 0, 0, 0, {0, 0, 0, 0}}},
};

static void same_recovery(const char *what, awirbesh_recovered r, awirbesh_recovered expected)
{
    same(what, r.number, expected.number);
    same(what, r.value, expected.value);
    same(what, r.excess, expected.excess);
    same(what, r.dropped, expected.dropped);
    same_state(what, r.state, expected.state.length, expected.state.last, expected.state.next,
               expected.state.ceiling);
}

/* Recovers with stored ceilings about the last id and at the ends of all numbers. What is expected is that with 0: a
 * stored ceiling above next becomes next, and the ceiling is next. A refusal is the same with each. */
static void with_each_ceiling(const char *what, const uint8_t *store, size_t store_len, uint64_t length,
                              awirbesh_recovered expected)
{
    uint64_t last = expected.state.last, next = expected.state.next;
    const uint64_t ceilings[] = {0, 1, 2, last - 1, last, last + 1, last + 2, UINT64_MAX - 1, UINT64_MAX};
    for (size_t i = 0; i < sizeof ceilings / sizeof *ceilings; i++) {
        if (expected.number == 0)
            expected.state.next = expected.state.ceiling = ceilings[i] > next ? ceilings[i] : next;
        same_recovery(what, awirbesh_recover(store, store_len, length, ceilings[i]), expected);
    }
}

/* Rule 13.9: (1, "hello") and id 2 with a payload of 3,000 bytes, four pages, whole and cut at three places. */
static void two_entries_that_are_cut(void)
{
    static uint8_t store[4096], data[2997];
    const uint64_t ids[2] = {1, 2}, ends[2] = {5, 2997};
    memset(data, 7, sizeof data);
    memcpy(data, "hello", 5);
    awirbesh_pushed p = awirbesh_push(store, 4096, awirbesh_fresh(), ids, 2, ends, 2, data, 2997);
    same("two to be cut", p.number, 0);
    same("two to be cut, written", p.written, 2);
    same_state("two to be cut", p.state, 4096, 2, 1, 1);
    same_recovery("two, whole", awirbesh_recover(store, 4096, 4096, 0),
                  (awirbesh_recovered){0, 0, 0, 0, {4096, 2, 3, 3}});
    same_recovery("two, cut at byte 3,500", awirbesh_recover(store, 4096, 3500, 0),
                  (awirbesh_recovered){0, 0, 428, 2, {1024, 1, 2, 2}});
    same_recovery("two, cut at byte 2,047", awirbesh_recover(store, 4096, 2047, 0),
                  (awirbesh_recovered){0, 0, 1023, 0, {1024, 1, 2, 2}});
    same_recovery("two, cut at byte 1,023", awirbesh_recover(store, 4096, 1023, 0),
                  (awirbesh_recovered){0, 0, 1023, 0, {0, 0, 1, 1}});
}

static void logs_that_are_torn(void)
{
    static uint8_t store[STORE], before[STORE];
    for (size_t i = 0; i < sizeof torn_logs / sizeof *torn_logs; i++) {
        const torn *t = &torn_logs[i];
        memset(store, OLD, STORE);
        for (size_t page = 0; page < t->count; page++)
            put_page(store, page, t->pages[page].payload, t->pages[page].id);
        memcpy(before, store, STORE);
        with_each_ceiling(t->what, store, STORE, t->length, t->expected);
        same_bytes(t->what, store, before, STORE);
        /* the same in a store that ends there, as the mark that stands after it is none of the log's */
        with_each_ceiling(t->what, store, t->length, t->length, t->expected);
    }
    /* 5 after a drop, and none for a bad mark below the last whole entry */
    memset(store, OLD, STORE);
    put_page(store, 2, 1021, 7);
    with_each_ceiling("5 after a drop", store, STORE, 3072, (awirbesh_recovered){5, 1, 0, 0, {0, 0, 0, 0}});
    put_page(store, 1, 8, 4);
    with_each_ceiling("5 is not met", store, STORE, 3072, (awirbesh_recovered){0, 0, 0, 1, {2048, 4, 5, 5}});
    with_each_ceiling("a length above the store", store, 2048, 2049, (awirbesh_recovered){1, 0, 0, 0, {0, 0, 0, 0}});
    with_each_ceiling("no length", store, STORE, 0, (awirbesh_recovered){0, 0, 0, 0, {0, 0, 1, 1}});
    with_each_ceiling("less than a page", store, STORE, 1023, (awirbesh_recovered){0, 0, 1023, 0, {0, 0, 1, 1}});
}

/* A store of exactly 2^31 bytes is one, and of one byte more is none. Only pages that are read are ever there. */
static void largest_store(void)
{
    size_t limit = (size_t)1 << 31;
    uint8_t *store = mmap(0, limit + 4096, PROT_READ | PROT_WRITE, MAP_PRIVATE | MAP_ANONYMOUS | MAP_NORESERVE, -1, 0);
    if (store == MAP_FAILED)
        abort();
    uint8_t out[1];
    uint64_t id = 3, end = 1;
    awirbesh_state full = {limit - 1024, 2, 4, 4}, fresh = awirbesh_fresh();
    awirbesh_pushed p = awirbesh_push(store, limit, full, &id, 1, &end, 1, (const uint8_t *)"x", 1);
    same("push at the end of 2^31", p.number, AWIRBESH_OK);
    same("push at the end of 2^31, length", p.state.length, limit);
    awirbesh_recovered r = awirbesh_recover(store, limit, limit, 0);
    same("recover 2^31", r.number, AWIRBESH_OK);
    same_state("recover 2^31", r.state, limit, 3, 4, 4);
    awirbesh_state found = {limit, 3, 4, 4};
    same("lookup in 2^31", awirbesh_lookup(store, limit, found, 3, out, 1).position, limit - 1024);
    same("check of 2^31", awirbesh_check(store, limit, limit).number, AWIRBESH_NO_ENTRIES);
    r = awirbesh_recover(store, limit, limit - 1, 0); /* all marks down to page 0 are 0 */
    same_recovery("recover 2^31 less one", r, (awirbesh_recovered){AWIRBESH_NO_ENTRIES, 0, 0, 0, {0, 0, 0, 0}});
    put_page(store, 0, 8, 2);
    put_page(store, limit / PAGE - 1, 16777215, 3);
    r = awirbesh_recover(store, limit, limit, 0);
    same_recovery("a torn one of 2^31", r, (awirbesh_recovered){0, 0, 0, 1, {limit - 1024, 2, 3, 3}});
    put_page(store, 1, 16777215, 3); /* pages 1 to 16,401, of which a byte is missing */
    r = awirbesh_recover(store, limit, 16402 * PAGE - 1, 0);
    same_recovery("the largest entry, torn", r, (awirbesh_recovered){0, 0, 1023, 16400, {1024, 2, 3, 3}});
    r = awirbesh_recover(store, limit, 16402 * PAGE, 0);
    same_recovery("the largest entry, whole", r, (awirbesh_recovered){0, 0, 0, 0, {16402 * PAGE, 3, 4, 4}});

    same("check above", awirbesh_check(store, limit + 1, 0).number, AWIRBESH_BAD_STATE);
    same("recover above", awirbesh_recover(store, limit + 1, 0, 0).number, AWIRBESH_BAD_STATE);
    same("lookup above", awirbesh_lookup(store, limit + 1, fresh, 0, out, 1).number, AWIRBESH_BAD_STATE);
    same("find above", awirbesh_find(store, limit + 1, fresh, 0).number, AWIRBESH_BAD_STATE);
    same("scan above", awirbesh_scan(store, limit + 1, fresh, ALL).number, AWIRBESH_BAD_STATE);
    same("step above", awirbesh_step(store, limit + 1, fresh, ALL, 0, out, 1).number, AWIRBESH_BAD_STATE);
    same("push above", awirbesh_push(store, limit + 1, fresh, &id, 0, &end, 1, out, 1).number, AWIRBESH_BAD_STATE);
    munmap(store, limit + 4096);
}

static void sequences(void)
{
    uint64_t words[AWIRBESH_SEQUENCE_WORDS]; /* which may hold anything */
    memset(words, 0xFF, sizeof words);
    awirbesh_sequence s = awirbesh_sequence_new(1);
    same("new start", s.start, 1);
    same("new after", s.after, 1);
    same("complete before any note", awirbesh_sequence_complete(s), 1);
    const uint64_t ids[4] = {3, 1, 2, 4}, complete[4] = {0, 0, 1, 1};
    for (int i = 0; i < 4; i++) {
        awirbesh_noted n = awirbesh_sequence_note(words, s, ids[i]);
        same("note", n.number, AWIRBESH_OK);
        s = n.sequence;
        same("complete", awirbesh_sequence_complete(s), complete[i]);
    }
    awirbesh_noted n = awirbesh_sequence_note(words, s, 4);
    same("below start", n.number, AWIRBESH_BELOW_START);
    same("below start keeps start", n.sequence.start, s.start);
    same("below start keeps after", n.sequence.after, s.after);
    same("the window's end", awirbesh_sequence_note(words, s, s.start + 4096).number, AWIRBESH_OUTSIDE_WINDOW);
    same("the window's last", awirbesh_sequence_note(words, s, s.start + 4095).number, AWIRBESH_OK);
    s = awirbesh_sequence_new(UINT64_MAX - 1);
    same("the last id", awirbesh_sequence_note(words, s, UINT64_MAX).number, AWIRBESH_OUTSIDE_WINDOW);
}

int main(void)
{
    ids_are_taken();
    worked_raisings();
    ceilings_are_raised();
    used_ids_stay_used();
    two_entries();
    no_old_bytes_in_the_filling();
    refused_entries_keep_their_ids();
    two_entries_that_are_cut();
    logs_that_are_torn();
    largest_store();
    sequences();
    if (!failed)
        puts("every function of awirbesh.h answers as the rules say");
    return failed;
}
