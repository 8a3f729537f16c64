/* A log that a crash cut short, at every byte: docs/RULES.md 6, 11.4 and 11.7.
 *
 * A sound log with idle pages in it, then one push of entries of 1, 2, 3 and 17 pages. It is cut at each byte from its
 * length before the push to its length after it, and at each byte below; beyond the cut the store holds zeros, or bytes
 * that look like starts, or pages of entries of an earlier, longer log. Each time: what recovery answers, with no
 * stored ceiling or with one; every lookup, the sound check, a push that goes on from there, and a second cut, in that
 * push. What must come out is worked out from where each entry's pages end and from the ceiling, and from nothing else.
 * And a tail of many cut starts must take one pass. */
#include "awirbesh.h"

#include <stdio.h>
#include <stdlib.h>
#include <string.h>
#include <sys/mman.h>
#include <time.h>
#include <unistd.h>

enum { PAGE = 1024, PAGES = 48, STORE = PAGES * PAGE, ENTRIES = 16, LONGEST = 17380 };

/* ---- what the log must hold ---- */

typedef struct {
    uint64_t id, length; /* of the data */
    uint64_t page, after; /* its first page, and the one after its last */
} entry;

typedef struct {
    entry entries[ENTRIES];
    uint64_t count, pages;
} held;

static const char *what;
static uint64_t cut, cases;
static uint64_t second = UINT64_MAX; /* the cut in what was pushed after the first one; this while there is none */

static void stop(const char *why)
{
    printf("%s, cut at byte %llu", what, (unsigned long long)cut);
    if (second != UINT64_MAX)
        printf(", and after a push a second time at byte %llu", (unsigned long long)second);
    printf(": %s\n", why);
    exit(1);
}

static void must(int holds, const char *why)
{
    if (!holds)
        stop(why);
}

static void must_be(awirbesh_state state, awirbesh_state expected, const char *why)
{
    must(memcmp(&state, &expected, sizeof state) == 0, why);
}

static uint64_t last_id(const held *log)
{
    return log->count ? log->entries[log->count - 1].id : 0;
}

/* What is left after a cut: the entries that end before it; and the pages before it, but for those of a cut entry. */
static held left_by(const held *log, uint64_t at)
{
    held left = *log;
    left.pages = at / PAGE;
    for (left.count = 0; left.count < log->count; left.count++) {
        const entry *e = &log->entries[left.count];
        if (e->after * PAGE > at) {
            if (e->page < left.pages)
                left.pages = e->page;
            break;
        }
    }
    return left;
}

/* ---- the data ---- */

static uint8_t pattern[LONGEST + 256];

/* Each entry's data begins elsewhere in the pattern. */
static const uint8_t *data_of(uint64_t id)
{
    return pattern + id % 256;
}

/* Lengths of data, and the pages that they take: 1,012 bytes on the first page and 1,023 on each later one. */
typedef struct {
    uint64_t length, pages;
} size;

/* ---- calls ---- */

/* Asks for every id: found exactly if it is held, else absent where it would be; with its data, or the place alone. */
static void look_up(const uint8_t *store, awirbesh_state state, const held *log, uint64_t highest, int with_data)
{
    static uint8_t out[LONGEST];
    uint64_t at = 0;
    for (uint64_t id = 0; id <= highest; id++) {
        while (at < log->count && log->entries[at].id < id)
            at++;
        const entry *e = at < log->count ? &log->entries[at] : 0;
        awirbesh_look l = with_data ? awirbesh_lookup(store, STORE, state, id, out, sizeof out)
                                    : awirbesh_find(store, STORE, state, id);
        must(l.number == 0 && l.value == 0, "a lookup is refused");
        if (e && e->id == id) {
            must(l.found == 1 && l.position == e->page * PAGE && l.length == e->length, "a held id is not found");
            must(!with_data || memcmp(out, data_of(id), e->length) == 0, "a held id has other data");
        } else {
            must(l.found == 0 && l.length == 0, "an id is found that is not held");
            must(l.position == (id == 0 ? 0 : e ? e->page * PAGE : state.length), "an absent id is elsewhere");
        }
    }
}

/* Pushes entries of these sizes, with ids from the state's next on, each so much above the one before. */
static awirbesh_state push(uint8_t *store, awirbesh_state state, held *log, const size *sizes, uint64_t count,
                           uint64_t gap)
{
    static uint8_t data[4 * LONGEST];
    uint64_t ids[4], ends[4], end = 0;
    for (uint64_t i = 0; i < count; i++) {
        entry e = {state.next + i * gap, sizes[i].length, log->pages, log->pages + sizes[i].pages};
        memcpy(data + end, data_of(e.id), e.length);
        end += e.length;
        ids[i] = e.id;
        ends[i] = end;
        log->entries[log->count++] = e;
        log->pages = e.after;
    }
    awirbesh_pushed p = awirbesh_push(store, STORE, state, ids, count, ends, count, data, end);
    must(p.number == 0 && p.written == count, "a push is refused");
    must_be(p.state, (awirbesh_state){log->pages * PAGE, last_id(log), state.next, state.ceiling},
            "a push leaves another state");
    p.state.next = last_id(log) + 1;
    return p.state;
}

/* Recovers a log that was cut there, and holds the answer to what is left and to the ceiling that was stored. */
static awirbesh_state recover(const uint8_t *store, const held *left, uint64_t at, uint64_t stored)
{
    awirbesh_recovered r = awirbesh_recover(store, STORE, at, stored);
    awirbesh_recovered short_of = awirbesh_recover(store, at, at, stored);
    uint64_t next = last_id(left) < stored ? stored : last_id(left) + 1;
    must(r.number == 0 && r.value == 0, "recovery is refused");
    must_be(r.state, (awirbesh_state){left->pages * PAGE, last_id(left), next, next}, "recovery gives another state");
    must(r.excess == at % PAGE, "recovery reports another excess");
    must(r.dropped == at / PAGE - left->pages, "recovery reports other pages dropped");
    must(r.state.length + PAGE * r.dropped + r.excess == at, "excess and dropped pages do not add up to the cut");
    must(memcmp(&r, &short_of, sizeof r) == 0, "recovery depends on what the store holds beyond the cut");
    must(awirbesh_check(store, STORE, r.state.length).number == 0, "what is left is not sound");
    return r.state;
}

/* ---- one cut ---- */

/* Sizes that fill their last page, and that do not. */
static const size more[] = {{0, 1},    {1011, 1}, {1012, 1}, {1013, 2}, {2034, 2},
                            {2035, 2}, {2036, 3}, {3058, 3}, {9000, 9}};
enum { MORE = sizeof more / sizeof *more };

/* Goes on from what was recovered: one more entry, or a batch of three; and cuts in it. All data is read back at each
 * fifth cut, else the places alone, since the bytes before the push are compared. */
static void go_on(const uint8_t *store, awirbesh_state state, held log, uint64_t stored, uint64_t highest)
{
    static uint8_t later[STORE];
    size sizes[3] = {more[cut % MORE], more[cut / 7 % MORE], more[cut / 5 % MORE]};
    uint64_t count = cut % 4 ? 1 : 3, from = state.length;
    if (log.pages + sizes[0].pages + sizes[1].pages + sizes[2].pages > PAGES)
        count = 1;
    memcpy(later, store, STORE);
    must(awirbesh_take(state).number == AWIRBESH_CEILING_REACHED, "an id is taken before the ceiling is raised");
    awirbesh_taken t = awirbesh_take(awirbesh_raise(state, 5).state);
    must(t.number == 0 && t.id == state.next, "another id is taken");
    state = push(later, state, &log, sizes, count, 2);
    uint64_t to = state.length;
    must(memcmp(later, store, from) == 0, "a push changed the log before it");
    must(memcmp(later + to, store + to, STORE - to) == 0, "a push changed bytes after its own");
    must(awirbesh_check(later, STORE, state.length).number == 0, "a log that was gone on with is not sound");
    look_up(later, state, &log, highest, cut % 5 == 0);
    second = from + cut * 7919 % (to - from + 1);
    held left = left_by(&log, second);
    look_up(later, recover(later, &left, second, stored), &left, highest, 0);
    second = UINT64_MAX;
}

/* The store holds the whole log's bytes before the cut and others beyond it. With no ceiling stored what is left
 * decides the next id; with the one that was stored before the push the ids that are cut off stay used. */
static void try_cut(const uint8_t *store, const held *log, uint64_t at, const uint8_t *whole, const uint8_t *beyond)
{
    uint64_t stored = at % 2 ? last_id(log) + 1 : 0, highest = last_id(log) + 8;
    held left = left_by(log, at);
    cut = at;
    awirbesh_state state = recover(store, &left, at, stored);
    look_up(store, state, &left, highest, 1);
    must(memcmp(store, whole, at) == 0 && memcmp(store + at, beyond + at, STORE - at) == 0,
         "recovery, a check or a lookup changed the store");
    go_on(store, state, left, stored, highest);
    cases++;
}

/* ---- the logs ---- */

/* Appends idle pages: mark 0, and what looks like a start's header after it. */
static awirbesh_state idle(uint8_t *store, awirbesh_state state, held *log, uint64_t pages)
{
    memset(store + state.length, 1, pages * PAGE);
    for (; pages > 0; pages--, log->pages++, state.length += PAGE)
        store[state.length] = 0;
    return state;
}

/* The pages that an earlier life of the store has left: entries of 1, 2, 3, .. pages to its very end. */
static void earlier_life(uint8_t *store)
{
    held log = {.count = 0};
    awirbesh_state state = awirbesh_fresh();
    for (uint64_t i = 0; log.pages < PAGES; i++) {
        uint64_t pages = 1 + i % 5 < PAGES - log.pages ? 1 + i % 5 : PAGES - log.pages;
        size one = {1012 + 1023 * (pages - 1) - i % 9, pages};
        log.count = 0; /* none of them is looked for */
        state.next = 200 + i;
        state = push(store, state, &log, &one, 1, 1);
    }
}

enum { ZEROS, ONES, OLD_ENTRIES, FILLINGS };
static const char *const fillings[FILLINGS] = {"zeros beyond", "ones beyond", "old entries beyond"};

/* The four sizes of the push, in turn filling their last page, with a byte on it alone, and between. */
static const size pushed[][4] = {
    {{1012, 1}, {2035, 2}, {3058, 3}, {17380, 17}},
    {{0, 1}, {1013, 2}, {2036, 3}, {16358, 17}},
    {{16900, 17}, {3000, 3}, {1500, 2}, {500, 1}},
};

static void cut_everywhere(const size *sizes, int filling)
{
    static uint8_t beyond[STORE], whole[STORE], store[STORE];
    held log = {.count = 0};
    memset(beyond, filling == ONES, STORE);
    if (filling == OLD_ENTRIES)
        earlier_life(beyond);
    memcpy(whole, beyond, STORE);
    awirbesh_state state = push(whole, awirbesh_fresh(), &log, &(size){1013, 2}, 1, 1);
    state = idle(whole, state, &log, 1);
    state.next = 4;
    state = push(whole, state, &log, &(size){700, 1}, 1, 1);
    state = idle(whole, state, &log, 2);
    state.next = 6;
    uint64_t before = state.length;
    state = push(whole, state, &log, sizes, 4, 3);
    must(before == 6 * PAGE && state.length == 29 * PAGE, "the log has other pages");
    memcpy(store, beyond, STORE);
    for (uint64_t at = 0; at <= state.length; at++) {
        if (at > 0)
            store[at - 1] = whole[at - 1];
        try_cut(store, &log, at, whole, beyond);
    }
}

/* The last id of all, which no log goes on from: 9 where its entry is whole, else it is dropped like any other. */
static void cut_the_last_id(void)
{
    static uint8_t store[STORE];
    held log = {.count = 0};
    what = "the last id of all";
    awirbesh_state state = push(store, awirbesh_fresh(), &log, &(size){1013, 2}, 1, 1);
    state.next = UINT64_MAX;
    state = push(store, state, &log, &(size){2036, 3}, 1, 1);
    for (cut = 0; cut < state.length; cut++) {
        held left = left_by(&log, cut);
        look_up(store, recover(store, &left, cut, cut % 2 ? UINT64_MAX : 0), &left, 3, 1);
    }
    awirbesh_recovered r = awirbesh_recover(store, STORE, cut, UINT64_MAX);
    must(r.number == AWIRBESH_IDS_USED_UP && r.value == 0 && r.excess == 0 && r.dropped == 0, "9 is not answered");
    must_be(r.state, (awirbesh_state){0, 0, 0, 0}, "9 is answered with a state");
}

/* ---- one pass ---- */

static double seconds(void)
{
    struct timespec now;
    clock_gettime(CLOCK_MONOTONIC, &now);
    return (double)now.tv_sec + (double)now.tv_nsec / 1e9;
}

static double time_of(const uint8_t *store, uint64_t pages)
{
    double start = seconds();
    awirbesh_recovered r = awirbesh_recover(store, pages * PAGE, pages * PAGE, 1);
    double took = seconds() - start;
    must(r.number == 0 && r.dropped == pages && r.excess == 0, "a tail of cut starts is not dropped");
    must_be(r.state, awirbesh_fresh(), "a log of which all is dropped is not fresh");
    return took;
}

/* So many bytes of which each page is a start whose entry has two. A part of them is the same memory over and over, so
 * that no cache tells a long tail from a short one. */
static uint8_t *cut_starts(size_t bytes)
{
    const size_t part = 256 * PAGE;
    FILE *file = tmpfile();
    uint8_t *store = mmap(0, bytes, PROT_READ | PROT_WRITE, MAP_PRIVATE | MAP_ANONYMOUS | MAP_NORESERVE, -1, 0);
    must(file && ftruncate(fileno(file), (off_t)part) == 0 && store != MAP_FAILED, "no memory");
    for (size_t at = 0; at < bytes; at += part)
        must(mmap(store + at, part, PROT_READ | PROT_WRITE, MAP_SHARED | MAP_FIXED, fileno(file), 0) == store + at,
             "no memory");
    for (size_t at = 0; at < part; at += PAGE)
        memcpy(store + at, "\1\0\4\0\0\0\0\0\0\0\0\7", 12);
    fclose(file);
    return store;
}

/* All are dropped, one after the other. Four times the pages must take less than eight times the time, by the least of
 * some turns; with a pass for each start it would be sixteen. */
static void many_cut_starts(void)
{
    enum { MANY = 65536, FEW = MANY / 4, TURNS = 100 };
    double many = 1e9, few = 1e9, begun = seconds();
    what = "many cut starts";
    cut = (uint64_t)MANY * PAGE;
    uint8_t *store = cut_starts((size_t)MANY * PAGE);
    for (int turn = 0; turn < TURNS && (turn == 0 || seconds() < begun + 2); turn++) {
        double took = time_of(store, FEW);
        few = took < few ? took : few;
        took = time_of(store, MANY);
        many = took < many ? took : many;
    }
    munmap(store, (size_t)MANY * PAGE);
    printf("%d cut starts dropped in %.3f ms, %d in %.3f ms: %.1f and %.1f ns a page\n", FEW, few * 1e3, MANY,
           many * 1e3, few * 1e9 / FEW, many * 1e9 / MANY);
    must(many < 8 * few, "four times the pages take eight times the time");
}

int main(void)
{
    for (size_t i = 0; i < sizeof pattern; i++)
        pattern[i] = (uint8_t)(1 + i * 7 % 251);
    for (size_t i = 0; i < sizeof pushed / sizeof *pushed; i++)
        for (int filling = 0; filling < FILLINGS; filling++) {
            what = fillings[filling];
            cut_everywhere(pushed[i], filling);
        }
    cut_the_last_id();
    printf("%llu cuts, each with the entries that end before it, and gone on with\n", (unsigned long long)cases);
    many_cut_starts();
    return 0;
}
