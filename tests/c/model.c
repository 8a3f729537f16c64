#include "model.h"

#include <string.h>

enum { PAGE = 1024, ON_FIRST = 1020, ON_LATER = 1023, LARGEST = 16777208 };
#define STORE_LIMIT ((uint64_t)1 << 31)
#define LONGEST_STEP ((uint64_t)1 << 32)

static uint64_t pages_of(uint64_t payload)
{
    return payload <= ON_FIRST ? 1 : 1 + (payload - ON_FIRST + ON_LATER - 1) / ON_LATER;
}

static uint64_t number_at(const uint8_t *bytes, int count)
{
    uint64_t number = 0;
    for (int i = 0; i < count; i++)
        number = number * 256 + bytes[i];
    return number;
}

/* An entry that starts at a page of a log of so many pages: 0, or refusal 6 or 7. */
typedef struct {
    uint64_t refusal, id, length, after;
} start;

static start start_at(const uint8_t *log, uint64_t pages, uint64_t page)
{
    const uint8_t *p = log + page * PAGE;
    uint64_t payload = number_at(p + 1, 3);
    start s = {0, 0, 0, 0};
    if (payload < 8) {
        s.refusal = 6;
    } else if (page + pages_of(payload) > pages) {
        s.refusal = 7;
    } else {
        s.id = number_at(p + 4, 8);
        s.length = payload - 8;
        s.after = page + pages_of(payload);
    }
    return s;
}

/* The data of an entry, byte by byte: from byte 12 of its first page, then from byte 1 of each later one. */
static void copy_data(const uint8_t *log, uint64_t page, uint64_t length, uint8_t *out)
{
    uint64_t at = page * PAGE + 12;
    for (uint64_t i = 0; i < length; i++) {
        if (at % PAGE == 0)
            at++;
        out[i] = log[at++];
    }
}

static int bad_state(size_t store_len, awirbesh_state state)
{
    return store_len > STORE_LIMIT || state.length % PAGE != 0 || state.length > store_len;
}

awirbesh_taken model_take(awirbesh_state state)
{
    awirbesh_taken r = {0, 0, state};
    if (state.next == UINT64_MAX) {
        r.number = 9;
    } else if (state.next >= state.ceiling) {
        r.number = 30;
    } else {
        r.id = state.next;
        r.state.next++;
    }
    return r;
}

awirbesh_raised model_raise(awirbesh_state state, uint64_t step)
{
    awirbesh_raised r = {0, state};
    if (step < 1 || step > LONGEST_STEP || state.ceiling + step < state.ceiling)
        r.number = 31;
    else
        r.state.ceiling += step;
    return r;
}

awirbesh_checked model_check(const uint8_t *store, size_t store_len, uint64_t length)
{
    if (store_len > STORE_LIMIT || length > store_len)
        return (awirbesh_checked){1, 0};
    uint64_t pages = length / PAGE, last = 0, page = 0;
    while (page < pages) {
        uint8_t mark = store[page * PAGE];
        if (mark > 1)
            return (awirbesh_checked){5, page};
        if (mark == 0) {
            if (page == 0)
                return (awirbesh_checked){8, 0};
            page++;
            continue;
        }
        start s = start_at(store, pages, page);
        if (s.refusal)
            return (awirbesh_checked){s.refusal, page};
        if (s.id <= last)
            return (awirbesh_checked){15, page};
        last = s.id;
        for (page++; page < s.after; page++) {
            if (store[page * PAGE] == 1)
                return (awirbesh_checked){14, page};
            if (store[page * PAGE] != 0)
                return (awirbesh_checked){5, page};
        }
    }
    if (length % PAGE)
        return (awirbesh_checked){7, pages};
    return (awirbesh_checked){0, 0};
}

/* The state that a log is left in: the next id is new to the log and to whoever stored the ceiling. */
static awirbesh_state left_at(uint64_t length, uint64_t last, uint64_t stored)
{
    uint64_t next = stored > last + 1 ? stored : last + 1;
    return (awirbesh_state){length, last, next, next};
}

awirbesh_recovered model_recover(const uint8_t *store, size_t store_len, uint64_t length, uint64_t stored)
{
    const awirbesh_recovered refused = {0, 0, 0, 0, {0, 0, 0, 0}};
    awirbesh_recovered r = refused;
    if (store_len > STORE_LIMIT || length > store_len) {
        r.number = 1;
        return r;
    }
    uint64_t pages = length / PAGE;
    r.excess = length % PAGE;
    while (pages > 0) {
        uint64_t page = pages - 1;
        while (store[page * PAGE] == 0 && page > 0)
            page--;
        start s = {store[page * PAGE] == 0 ? 8 : 5, 0, 0, 0};
        if (store[page * PAGE] == 1)
            s = start_at(store, pages, page);
        if (s.refusal == 7) {
            r.dropped += pages - page;
            pages = page;
            continue;
        }
        if (s.refusal || s.id == UINT64_MAX) {
            r = refused;
            r.number = s.refusal ? s.refusal : 9;
            r.value = s.refusal ? page : 0;
            return r;
        }
        r.state = left_at(pages * PAGE, s.id, stored);
        return r;
    }
    r.state = left_at(0, 0, stored);
    return r;
}

/* The search of the lookup, with nothing copied: `found` with the page in `value`, or absent, or refused. */
static awirbesh_look search(const uint8_t *log, uint64_t length, uint64_t next, uint64_t id)
{
    awirbesh_look r = {0, 0, 0, 0, 0};
    if (id == 0)
        return r;
    if (id >= next) {
        r.position = length;
        return r;
    }
    uint64_t pages = length / PAGE, lo = 0, hi = pages, a = 0, b = next;
    while (lo < hi) {
        uint64_t y = b - a, x = id - a, w = hi - lo;
        while (y >> 32) {
            y >>= 1;
            x >>= 1;
        }
        uint64_t step = x * w / y;
        uint64_t g = lo + (step < w - 1 ? step : w - 1), s = g;
        int met = 0;
        for (;;) {
            uint8_t mark = log[s * PAGE];
            if (mark > 1) {
                r.number = 5;
                r.value = s;
                return r;
            }
            met = mark == 1;
            if (met || s == lo)
                break;
            s--;
        }
        if (!met) {
            lo = g + 1;
            continue;
        }
        start e = start_at(log, pages, s);
        if (e.refusal) {
            r.number = e.refusal;
            r.value = s;
            return r;
        }
        if (e.id == id) {
            r.found = 1;
            r.position = s * PAGE;
            r.length = e.length;
            return r;
        }
        if (e.id < id) {
            a = e.id;
            lo = g + 1 > e.after ? g + 1 : e.after;
        } else {
            b = e.id;
            hi = s;
        }
    }
    r.position = hi * PAGE;
    return r;
}

awirbesh_look model_find(const uint8_t *store, size_t store_len, awirbesh_state state, uint64_t id)
{
    if (bad_state(store_len, state))
        return (awirbesh_look){1, 0, 0, 0, 0};
    return search(store, state.length, state.next, id);
}

awirbesh_look model_lookup(const uint8_t *store, size_t store_len, awirbesh_state state, uint64_t id, uint8_t *out,
                           size_t out_len)
{
    awirbesh_look r = model_find(store, store_len, state, id);
    if (r.found && r.length > out_len)
        return (awirbesh_look){10, r.length, 0, 0, 0};
    if (r.found)
        copy_data(store, r.position / PAGE, r.length, out);
    return r;
}

awirbesh_started model_scan(const uint8_t *store, size_t store_len, awirbesh_state state, awirbesh_range range)
{
    if (bad_state(store_len, state))
        return (awirbesh_started){1, 0, 0};
    if (range.lower.kind != AWIRBESH_INCLUDED && range.lower.kind != AWIRBESH_EXCLUDED)
        return (awirbesh_started){0, 0, 0};
    awirbesh_look r = search(store, state.length, state.next, range.lower.id);
    return (awirbesh_started){r.number, r.value, r.position};
}

static int in_range(awirbesh_range range, uint64_t id)
{
    awirbesh_end l = range.lower, u = range.upper;
    if ((l.kind == AWIRBESH_INCLUDED && id < l.id) || (l.kind == AWIRBESH_EXCLUDED && id <= l.id))
        return 0;
    return !((u.kind == AWIRBESH_INCLUDED && id > u.id) || (u.kind == AWIRBESH_EXCLUDED && id >= u.id));
}

awirbesh_stepped model_step(const uint8_t *store, size_t store_len, awirbesh_state state, awirbesh_range range,
                            uint64_t cursor, uint8_t *out, size_t out_len)
{
    awirbesh_stepped r = {0, 0, 0, 0, 0, cursor};
    if (bad_state(store_len, state) || cursor % PAGE != 0 || cursor > state.length) {
        r.number = 1;
        return r;
    }
    uint64_t pages = state.length / PAGE, page = cursor / PAGE;
    while (page < pages) {
        uint8_t mark = store[page * PAGE];
        if (mark == 0) {
            page++;
            continue;
        }
        start s = {5, 0, 0, 0};
        if (mark == 1)
            s = start_at(store, pages, page);
        if (s.refusal) {
            r.number = s.refusal;
            r.value = page;
            return r;
        }
        if (!in_range(range, s.id)) {
            page = s.after;
            continue;
        }
        if (s.length > out_len) {
            r.number = 10;
            r.value = s.length;
            return r;
        }
        copy_data(store, page, s.length, out);
        return (awirbesh_stepped){0, 0, AWIRBESH_ENTRY, s.id, s.length, s.after * PAGE};
    }
    r.cursor = state.length;
    return r;
}

/* Lays one entry out in pages, with zeros after the payload. */
static void write_entry(uint8_t *at, uint64_t id, const uint8_t *data, uint64_t length)
{
    uint64_t payload = 8 + length, pages = pages_of(payload), done = 0;
    memset(at, 0, pages * PAGE);
    for (uint64_t page = 0; page < pages; page++, at += PAGE) {
        at[0] = page == 0;
        if (page == 0)
            for (int i = 0; i < 3; i++)
                at[1 + i] = (uint8_t)(payload >> (16 - 8 * i));
        for (uint64_t i = page == 0 ? 4 : 1; i < PAGE && done < payload; i++, done++)
            at[i] = done < 8 ? (uint8_t)(id >> (56 - 8 * done)) : data[done - 8];
    }
}

/* One entry in its turn: written, or refused with nothing changed. */
static uint64_t push_entry(uint8_t *store, size_t store_len, awirbesh_state *state, uint64_t id, const uint8_t *data,
                           uint64_t length)
{
    uint64_t bytes = pages_of(8 + length) * PAGE;
    if (id <= state->last)
        return 2;
    if (8 + length >= 1 << 24)
        return 3;
    if (bytes > store_len - state->length)
        return 4;
    write_entry(store + state->length, id, data, length);
    state->length += bytes;
    state->last = id;
    return 0;
}

awirbesh_pushed model_push(uint8_t *store, size_t store_len, awirbesh_state state, const uint64_t *ids,
                           size_t ids_len, const uint64_t *ends, size_t ends_len, const uint8_t *data,
                           size_t data_len)
{
    awirbesh_pushed r = {0, 0, state};
    uint64_t before = 0;
    if (bad_state(store_len, state))
        r.number = 1;
    else if (ids_len != ends_len)
        r.number = 13;
    for (size_t i = 0; r.number == 0 && i < ends_len; before = ends[i++])
        if (ends[i] < before || ends[i] > data_len)
            r.number = 13;
    before = 0;
    for (size_t i = 0; r.number == 0 && i < ends_len; before = ends[i++])
        if (ends[i] - before > LARGEST)
            r.number = 16;
    if (r.number)
        return r;

    before = 0;
    for (size_t i = 0; r.number == 0 && i < ids_len; before = ends[i++]) {
        r.number = push_entry(store, store_len, &r.state, ids[i], data + before, ends[i] - before);
        r.written += r.number == 0;
    }
    return r;
}

static int bit_of(const uint64_t *words, uint64_t k)
{
    return words[k / 64] >> k % 64 & 1;
}

/* Bit by bit: bit k of the words is for the id start + k, and none from after on is of a noted id. */
awirbesh_noted model_note(uint64_t *words, awirbesh_sequence s, uint64_t id)
{
    awirbesh_noted r = {0, s};
    if (id < s.start)
        r.number = 11;
    else if (id - s.start >= 4096 || id == UINT64_MAX)
        r.number = 12;
    if (r.number)
        return r;
    uint64_t offset = id - s.start, remain = s.after > s.start ? s.after - s.start : 0;
    for (uint64_t k = remain; k < (offset / 64 + 1) * 64; k++)
        words[k / 64] &= ~((uint64_t)1 << k % 64);
    words[offset / 64] |= (uint64_t)1 << offset % 64;
    if (id >= s.after)
        s.after = id + 1;
    while (s.start < s.after) {
        uint64_t left = s.after - s.start, turn = left < 64 ? left : 64, noted = 0;
        while (noted < turn && bit_of(words, noted))
            noted++;
        if (noted < turn)
            break;
        s.start += turn;
        if (left > 64) {
            memmove(words, words + 1, 63 * sizeof *words);
            words[63] = 0;
        }
    }
    r.sequence = s;
    return r;
}
