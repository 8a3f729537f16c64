/* How much stack each function takes: it runs on a stack of its own that was painted before, and what is no
 * longer paint was used. Fails at 16 KiB. The caller's own frame is counted with it. */
#include "awirbesh.h"

#include <stdio.h>
#include <stdlib.h>
#include <string.h>
#include <ucontext.h>

enum { STACK = 1 << 18, LIMIT = 16 * 1024, PAINT = 0xA7, STORE = 1100 * 1024, DATA = 1 << 20 };

static uint8_t stack[STACK], *store, *torn, *data, *out;
static uint64_t words[AWIRBESH_SEQUENCE_WORDS];
static awirbesh_state state;
static uint64_t taken, dropped;
static ucontext_t here, there;

static const uint64_t ids[4] = {1, 3, 4, 9}, ends[4] = {10, 3010, 3010, DATA};
static const awirbesh_range part = {{AWIRBESH_EXCLUDED, 1}, {AWIRBESH_INCLUDED, 9}};

static void nothing(void) {}
static void fresh(void) { state = awirbesh_fresh(); }
static void push(void) { state = awirbesh_push(store, STORE, state, ids, 4, ends, 4, data, DATA).state; }
static void raise_ceiling(void) { state = awirbesh_raise(state, 11).state; }
static void take(void) { taken = awirbesh_take(state).id; }
static void check(void) { awirbesh_check(store, STORE, state.length); }
static void recover(void) { state = awirbesh_recover(store, STORE, state.length, state.ceiling).state; }
static void recover_torn(void) { dropped = awirbesh_recover(torn, STORE, STORE, 0).dropped; }
static void lookup(void) { awirbesh_lookup(store, STORE, state, 9, out, DATA); }
static void find(void) { awirbesh_find(store, STORE, state, 9); }
static void scan(void) { awirbesh_scan(store, STORE, state, part); }
static void step(void) { awirbesh_step(store, STORE, state, part, 1024, out, DATA); }
static void sequence_new(void) { awirbesh_sequence_new(1); }
static void sequence_note(void) { awirbesh_sequence_note(words, (awirbesh_sequence){1, 1}, 1); }
static void sequence_complete(void) { awirbesh_sequence_complete((awirbesh_sequence){1, 1}); }

static const struct {
    const char *name;
    void (*call)(void);
} calls[] = {
    {"fresh", fresh}, {"push", push}, {"raise", raise_ceiling}, {"take", take}, {"check", check}, {"recover", recover},
    {"  torn", recover_torn}, {"find", find}, {"lookup", lookup}, {"scan", scan}, {"step", step},
    {"sequence_new", sequence_new}, {"sequence_note", sequence_note}, {"sequence_complete", sequence_complete},
};

static size_t used_by(void (*call)(void))
{
    memset(stack, PAINT, sizeof stack);
    getcontext(&there);
    there.uc_stack.ss_sp = stack;
    there.uc_stack.ss_size = sizeof stack;
    there.uc_link = &here;
    makecontext(&there, call, 0);
    swapcontext(&here, &there);
    size_t untouched = 0;
    while (untouched < sizeof stack && stack[untouched] == PAINT)
        untouched++;
    return sizeof stack - untouched;
}

int main(void)
{
    int failed = 0;
    store = calloc(STORE, 1);
    torn = calloc(STORE, 1);
    data = calloc(DATA, 1);
    out = calloc(DATA, 1);
    if (!store || !torn || !data || !out)
        abort();
    for (size_t at = 0; at < STORE; at += 1024) /* each page a start whose entry has two */
        memcpy(torn + at, "\1\0\4\0", 4);
    size_t base = used_by(nothing);
    for (size_t i = 0; i < sizeof calls / sizeof *calls; i++) {
        size_t used = used_by(calls[i].call) - base;
        printf("%-18s %zu bytes of stack\n", calls[i].name, used);
        if (used >= LIMIT)
            failed = 1;
    }
    /* The calls did their work: the four entries take 1, 3, 1 and 1,023 pages, and recovery met the last and was given
     * the raised ceiling, or dropped every page; id 1 was taken. */
    if (state.length != (uint64_t)(1 + 3 + 1 + 1023) * 1024 || state.last != 9 || state.next != 12)
        failed = 1;
    if (dropped != STORE / 1024 || taken != 1)
        failed = 1;
    printf(failed ? "too much stack, or a call that did nothing\n" : "each under 16 KiB\n");
    return failed;
}
