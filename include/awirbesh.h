/* awirbesh.h: the proved transaction log, for C and for whoever speaks C's calls.
 *
 * Link with crates/awirbesh/out/libawirbesh.a (`rt lib` in crates/awirbesh makes it; x86-64).
 * This file and host/src/ffi.rs state the same interface; a test on each side calls every function. What each call
 * does is said in full by docs/RULES.md, whose sections are cited here by number, as "rules 4".
 *
 * WHO OWNS WHAT. The library owns nothing: it allocates nothing, keeps no pointer after a call returns, has no
 * global state, does no input or output and never stops the program. The caller lends the store, the batch,
 * the output and the sequence's words for the length of one call, and keeps the state, the cursor and the
 * sequence's two numbers, which go in and come out by value. So two threads may call it at once, each on memory
 * of its own; memory that both only read may be shared.
 *
 * WHAT THE CALLER OWES, which no library can test: each pointer is not NULL (also where its length is 0),
 * points to at least as many elements as the length beside it says, is aligned for its type, and what is
 * written to (`store` of a push, `out`, `words`) overlaps nothing else that the same call is lent.
 * Nothing is owed beyond that. Every function ends and answers on every value of every number and byte (rules 11;
 * what is not promised, rules 12).
 *
 * THE STORE holds the log in its first `state.length` bytes (rules 1). At most 2^31 bytes; a longer one is refused
 * with 1.
 *
 * THE CEILING keeps used ids used (rules 5, 6, 11). Ids are handed out below it alone. Before an id is taken under a
 * raised ceiling, the ceiling is stored where it outlives the process; recovery is given the ceiling that was stored,
 * and hands out none below it. Then no id is handed out twice, also after a crash, as long as only ids that were handed
 * out are pushed, each once. A recovery that is given an older ceiling, or 0, may hand ids out again.
 *
 * NUMBERS (rules 3). `number` is 0 where the call did what it says, else the number of the refusal, and `value`
 * is what that refusal names: a page for 5 to 8, 14 and 15, the length needed for 10, and 0 for each other.
 * After a refusal every other field is 0, but for what is there to go on with: the state of a take, a raise and a
 * push, the cursor of a step, the sequence of a note, and `written` of a push, which still counts the entries that were
 * written. Outside a push a refusal changes no byte. Positions, lengths and ends are bytes; a page's number is its
 * position divided by 1,024.
 *
 *    1 bad state        the store is longer than 2^31 bytes, or the length is above its size; except in
 *                       awirbesh_check and awirbesh_recover, also if the length is no multiple of 1,024; in
 *                       awirbesh_step, also if the cursor is no such multiple, or above the length
 *    2 out of order     an entry's id is at or below the last written
 *    3 too large        an entry's id and data reach 2^24 bytes
 *    4 no room          after the length the store has fewer bytes than the entry's pages take
 *    5 bad mark         a mark other than 0 and 1 was read
 *    6 short entry      a start with a payload length under 8
 *    7 cut entry        an entry's pages go beyond the log's whole pages (awirbesh_recover drops it); in
 *                       awirbesh_check also an excess
 *    8 no entries       page 0 was read and has mark 0 (awirbesh_check and awirbesh_recover only)
 *    9 ids used up      the last whole entry that recovery found has id 2^64-1, or an id was asked for when next is
 *                       2^64-1
 *   10 buffer small     the data is longer than `out`
 *   11 below start      an id noted below the sequence's start
 *   12 outside window   an id noted 4,096 or more above it, or 2^64-1
 *   13 bad batch        not as many ids as ends, an end below the one before, or an end beyond the data
 *   14 overlap          awirbesh_check only: a start inside an entry
 *   15 not ascending    awirbesh_check only: an id that is not above the one before, or is 0
 *   16 value too large  some data of a batch is longer than 16,777,208 bytes
 *   30 ceiling reached  an id was asked for when next is not below the ceiling: raise it, store it, take again
 *   31 bad raise        a step of 0 or above 2^32, or one with which the ceiling would pass 2^64-1
 */
#ifndef AWIRBESH_H
#define AWIRBESH_H

#include <stddef.h>
#include <stdint.h>

#ifdef __cplusplus
extern "C" {
#endif

enum {
    AWIRBESH_OK = 0,
    AWIRBESH_BAD_STATE = 1,
    AWIRBESH_OUT_OF_ORDER = 2,
    AWIRBESH_TOO_LARGE = 3,
    AWIRBESH_NO_ROOM = 4,
    AWIRBESH_BAD_MARK = 5,
    AWIRBESH_SHORT_ENTRY = 6,
    AWIRBESH_CUT_ENTRY = 7,
    AWIRBESH_NO_ENTRIES = 8,
    AWIRBESH_IDS_USED_UP = 9,
    AWIRBESH_BUFFER_SMALL = 10,
    AWIRBESH_BELOW_START = 11,
    AWIRBESH_OUTSIDE_WINDOW = 12,
    AWIRBESH_BAD_BATCH = 13,
    AWIRBESH_OVERLAP = 14,
    AWIRBESH_NOT_ASCENDING = 15,
    AWIRBESH_VALUE_TOO_LARGE = 16,
    AWIRBESH_CEILING_REACHED = 30,
    AWIRBESH_BAD_RAISE = 31
};

/* ---- what the caller keeps: rules 1, 9, 10 ---- */

/* The log's four numbers. A caller may make one up: a length that cannot be is refused with 1. */
typedef struct {
    uint64_t length;  /* bytes of the store that are the log */
    uint64_t last;    /* the id of the entry written last, 0 for none */
    uint64_t next;    /* the id that awirbesh_take hands out next */
    uint64_t ceiling; /* ids are handed out below it alone */
} awirbesh_state;

/* One end of a range of ids. A kind that is neither 1 nor 2 is open, and its id is not read. */
enum { AWIRBESH_OPEN = 0, AWIRBESH_INCLUDED = 1, AWIRBESH_EXCLUDED = 2 };
typedef struct {
    uint64_t kind;
    uint64_t id;
} awirbesh_end;

typedef struct {
    awirbesh_end lower;
    awirbesh_end upper;
} awirbesh_range;

/* An id sequence, beside the 64 words that the caller lends: the ids from `start` up to, but not including,
 * `after`, which is one past the highest noted (start, if none is), remain. A caller may make one up. */
enum { AWIRBESH_SEQUENCE_WORDS = 64 };
typedef struct {
    uint64_t start;
    uint64_t after;
} awirbesh_sequence;

/* ---- the state: rules 1, 5 ---- */

/* The state of an empty log from which no id was handed out: 0, 0, 1, 1. */
awirbesh_state awirbesh_fresh(void);

typedef struct {
    uint64_t number;      /* 0, 9 or 30 */
    uint64_t id;          /* the id handed out */
    awirbesh_state state; /* next is one more; after a refusal the state as given */
} awirbesh_taken;

/* Hands out the next id, if it is below the ceiling. Length and last are not looked at. */
awirbesh_taken awirbesh_take(awirbesh_state state);

typedef struct {
    uint64_t number;      /* 0 or 31 */
    awirbesh_state state; /* with the new ceiling; after a refusal the state as given */
} awirbesh_raised;

/* Raises the ceiling by a step from 1 to 2^32. Store the ceiling answered before an id is taken from this state.
 * Nothing else of the state is looked at. */
awirbesh_raised awirbesh_raise(awirbesh_state state, uint64_t step);

/* ---- a log as it is found: rules 6, 7 ---- */

typedef struct {
    uint64_t number; /* 0 if the log is sound, else 1, 5, 6, 7, 8, 14 or 15 */
    uint64_t value;
} awirbesh_checked;

/* Reads the whole log, the first `length` bytes of the store, and says whether it is sound. */
awirbesh_checked awirbesh_check(const uint8_t *store, size_t store_len, uint64_t length);

typedef struct {
    uint64_t number; /* 0, 1, 5, 6, 8 or 9 */
    uint64_t value;
    uint64_t excess;      /* bytes of a part page that were cut off the length: under 1,024 */
    uint64_t dropped;     /* pages of cut entries that were dropped from the length */
    awirbesh_state state; /* the state to go on with; all 0 after a refusal */
} awirbesh_recovered;

/* The state of the log in the first `length` bytes of the store, by its last whole entry. An entry that a crash cut
 * short is dropped with the pages after its start, and so is the one before it while that is cut by what remains (and
 * so is one that damage makes look cut: rules 12). Next is the larger of `stored`, the ceiling that was stored, and the
 * last id + 1, 1 if nothing is left; the ceiling is next, so that the first take asks for a raise. Changes no byte: the
 * caller cuts its file to the state's length, which is `excess` and 1,024 times `dropped` bytes shorter than the length
 * given. */
awirbesh_recovered awirbesh_recover(const uint8_t *store, size_t store_len, uint64_t length, uint64_t stored);

/* ---- reading: rules 8, 9; what a sound log is, rules 2 ---- */

typedef struct {
    uint64_t number; /* 0, 1, 5, 6, 7 or, of a lookup alone, 10 */
    uint64_t value;
    uint64_t found;    /* 1 if found, 0 if absent */
    uint64_t position; /* of its first page; absent, where it would be: see below */
    uint64_t length;   /* of its data; 0 if absent */
} awirbesh_look;

/* Looks an id up and copies nothing, so that it never answers 10. On a sound log a stored id from 1 to below next is
 * found, and no other; an absent one stands at the first entry with a greater id, or at the length. Id 0 is absent
 * at 0, an id from next on at the length, stored or not. */
awirbesh_look awirbesh_find(const uint8_t *store, size_t store_len, awirbesh_state state, uint64_t id);

/* The same, and copies the data to the front of `out`; the rest of `out` keeps its bytes. */
awirbesh_look awirbesh_lookup(const uint8_t *store, size_t store_len, awirbesh_state state, uint64_t id,
                              uint8_t *out, size_t out_len);

typedef struct {
    uint64_t number; /* 0, 1, 5, 6 or 7 */
    uint64_t value;
    uint64_t cursor; /* for the first step */
} awirbesh_started;

/* The cursor at which a scan of the range starts. Only the lower end matters here. */
awirbesh_started awirbesh_scan(const uint8_t *store, size_t store_len, awirbesh_state state, awirbesh_range range);

enum { AWIRBESH_END = 0, AWIRBESH_ENTRY = 1 };
typedef struct {
    uint64_t number; /* 0, 1, 5, 6, 7 or 10 */
    uint64_t value;
    uint64_t kind;   /* 1: an entry is handed over; 0: the log's end (and after a refusal) */
    uint64_t id;     /* of the entry; 0 at the end */
    uint64_t length; /* of its data, now in the front of `out`; 0 at the end */
    uint64_t cursor; /* for the next step; after a refusal the cursor as given, so it can be taken always */
} awirbesh_stepped;

/* The next entry of the range from the cursor on. After 10 the same call with a larger `out` goes on. */
awirbesh_stepped awirbesh_step(const uint8_t *store, size_t store_len, awirbesh_state state, awirbesh_range range,
                               uint64_t cursor, uint8_t *out, size_t out_len);

/* ---- writing: rules 4 ---- */

typedef struct {
    uint64_t number;      /* 0, 1, 2, 3, 4, 13 or 16 */
    uint64_t written;     /* entries written, the first ones of the batch; stays after a refusal */
    awirbesh_state state; /* the state to go on with, refused or not */
} awirbesh_pushed;

/* Appends a batch: entry i has the id ids[i] and the data from ends[i - 1] (0 for the first) to ends[i] of
 * `data`. 1, 13 and 16 change nothing. 2, 3 and 4, tested in this order, end the push at an entry: those before it
 * stay, and `last` moves with the entries written alone. Only the pages added, from the old length to the new, are
 * written to. Never moves next or the ceiling. After an entry's data come zeros to its last page's end: its pages
 * depend on its id and data alone, and hold nothing of the entries before it or of what the store held (rules 1, 11).
 *
 * An entry that 3 or 4 refuses keeps its id, as those after it do, also when the log is recovered with the ceiling that
 * was stored (rules 12): push it again with the state answered and less data, or after 4 with a longer store that
 * begins with the same bytes. After w > 0 entries were written the rest of the batch is ids + w, the data from
 * ends[w - 1] on, and the ends from w on, each less ends[w - 1], since ends count from where `data` begins. */
awirbesh_pushed awirbesh_push(uint8_t *store, size_t store_len, awirbesh_state state, const uint64_t *ids,
                              size_t ids_len, const uint64_t *ends, size_t ends_len, const uint8_t *data,
                              size_t data_len);

/* ---- the id sequence: rules 10 ---- */

/* A sequence with nothing noted. It needs no words, and those that are lent to its first note may hold anything. */
awirbesh_sequence awirbesh_sequence_new(uint64_t start);

typedef struct {
    uint64_t number;            /* 0, 11 or 12 */
    awirbesh_sequence sequence; /* after the note; after a refusal as given, with the words unchanged */
} awirbesh_noted;

/* Notes an id in the 64 words: lend the same ones at each note of a sequence. Bit k % 64 of word k / 64, bit 0 being
 * the lowest, says whether start + k is noted, below `after`; from `after` on no id is, whatever the words hold. */
awirbesh_noted awirbesh_sequence_note(uint64_t *words, awirbesh_sequence sequence, uint64_t id);

/* 1 if none remain: no id up to the highest noted is missing, so also before any note; else 0. */
uint64_t awirbesh_sequence_complete(awirbesh_sequence sequence);

#ifdef __cplusplus
}
#endif

#endif
