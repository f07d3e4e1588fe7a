/* Plays a case of tools/benchmarks/cases.py through Palqytun's typed calls:

       typed CASE ENTRIES ROUNDS on|off

   The last word says whether a cancel signal ends awaits, which is the default of both libraries. A case is played as often as a word says. Prints

       awake=.. sent=.. taken=.. fed=.. ns=.. peak=.. allocations=.. copied=..

   of one round: awaits that ended awake, bytes of output, bytes of results, bytes fed; the nanoseconds of the fastest round; and with heap.c
   loaded before, the most bytes that the heap had more than before, how many allocations were made, and how many bytes memcpy and memmove
   copied, in the last round.

   What is measured stands in `measured`, so that callgrind can count it alone: the VM is made, each call, each copy in and out, and the end of
   the VM. The frames that are fed are made before. original/src/cases.rs makes the same calls in the same order. Exit status: 0; 1: something
   went wrong, which is said. */
#define _GNU_SOURCE
#include "frames.h"
#include "palqytun.h"

#include <dlfcn.h>
#include <inttypes.h>
#include <stdio.h>
#include <time.h>

enum { MEGABYTE = 1 << 20, KEYS = 100, VALUE = 20, FIRST_HANDLE = 17, SUSPENDED = 599 };

/* What a case is given: the bytes with which the attempt begins, in pieces of `cut` bytes if that isn't 0, and those that are fed later, piece by
   piece. */
typedef struct {
    uint32_t n;
    frames first, rest;
    size_t *ends;
    size_t pieces, fed, cut;
} given;

static palqytun_vm *vm;
static frames out;
static uint8_t *filler;
static char keys[KEYS][8];
static uint64_t awake, sent, taken;
static bool cancels;

static void fail(const char *what, uint32_t status)
{
    fprintf(stderr, "typed: %s: status %" PRIu32 "\n", what, status);
    exit(1);
}

static palqytun_bytes lend(const char *value)
{
    return (palqytun_bytes){(const uint8_t *)value, strlen(value)};
}

static palqytun_replied done(palqytun_replied replied)
{
    if (replied.status != PALQYTUN_DONE)
        fail("a call", replied.status);
    return replied;
}

static void feed(const uint8_t *at, size_t len)
{
    uint32_t status = palqytun_feed(vm, at, len);
    if (status != PALQYTUN_DONE)
        fail("feed", status);
}

/* Feeds the next piece. */
static void next(given *g)
{
    size_t from = g->fed > 0 ? g->ends[g->fed - 1] : 0;
    feed(g->rest.at + from, g->ends[g->fed] - from);
    g->fed++;
}

static void make_room(size_t len)
{
    if (out.room >= len)
        return;
    out.room = 2 * len;
    out.at = realloc(out.at, out.room);
    if (out.at == NULL)
        exit(1);
}

/* Takes the output, where it lies. */
static void drain(void)
{
    palqytun_bytes lent;
    uint32_t status = palqytun_lend_output(vm, &lent);
    if (status != PALQYTUN_DONE)
        fail("lend_output", status);
    sent += lent.len;
}

static size_t copy_part(size_t len)
{
    make_room(len);
    palqytun_told told = palqytun_part(vm, 0, out.at, out.room);
    if (told.status != PALQYTUN_DONE)
        fail("part", told.status);
    return told.len;
}

/* Makes the VM, feeds what the attempt begins with, and reads the input. */
static void begin(given *g)
{
    static const char version[] = "application/vnd.restate.invocation.v7";
    palqytun_options options = {.cancellation = cancels ? 0 : 4};
    if (palqytun_open(&vm) != PALQYTUN_DONE)
        fail("new", PALQYTUN_NO_MEMORY);
    done(palqytun_make(vm, (palqytun_optional){true, lend(version)}, &options));
    for (size_t at = 0, len; at < g->first.len; at += len) {
        len = g->first.len - at;
        if (g->cut > 0 && len > g->cut)
            len = g->cut;
        feed(g->first.at + at, len);
    }
    if (!done(palqytun_is_ready(vm)).first)
        fail("is_ready", 0);
    copy_part(done(palqytun_input(vm)).len);
}

static void end(void)
{
    drain();
    palqytun_close(vm);
}

static uint32_t await(uint32_t handle)
{
    uint32_t kind = done(palqytun_await(vm, handle)).kind;
    awake += kind == PALQYTUN_AWAKE;
    return kind;
}

static void take(uint32_t handle)
{
    palqytun_replied replied = done(palqytun_take(vm, handle));
    if (replied.kind == PALQYTUN_NOTHING)
        fail("take: no result", replied.kind);
    if (replied.len > 0)
        taken += copy_part(replied.len);
}

static void await_and_take(uint32_t handle)
{
    if (await(handle) != PALQYTUN_AWAKE)
        fail("await: not awake", handle);
    take(handle);
}

static uint32_t nap(void)
{
    return done(palqytun_sleep(vm, lend(""), 1000)).first;
}

static uint32_t get(const char *key)
{
    return done(palqytun_state_get(vm, lend(key), lend(""))).first;
}

static void set(const char *key, size_t len)
{
    done(palqytun_state_set(vm, lend(key), (palqytun_bytes){filler, len}, lend(""), false));
}

/* The cases. */

static void sleeps(given *g)
{
    begin(g);
    for (uint32_t i = 0; i < g->n; i++) {
        uint32_t handle = nap();
        drain();
        next(g);
        await_and_take(handle);
    }
    end();
}

static void waits(given *g)
{
    begin(g);
    for (uint32_t i = 0; i < g->n; i++) {
        uint32_t handle = nap();
        if (await(handle) != PALQYTUN_WAITING)
            fail("await: not waiting", handle);
        drain();
        next(g);
        await_and_take(handle);
    }
    end();
}

static void replay(given *g)
{
    begin(g);
    for (uint32_t i = 0; i < g->n; i++)
        await_and_take(nap());
    end();
}

static void in_order(given *g, bool is_last_first)
{
    begin(g);
    for (uint32_t i = 0; i < g->n; i++)
        nap();
    drain();
    next(g);
    for (uint32_t i = 0; i < g->n; i++)
        await_and_take(FIRST_HANDLE + (is_last_first ? g->n - 1 - i : i));
    end();
}

static void first(given *g)
{
    in_order(g, false);
}

static void last(given *g)
{
    in_order(g, true);
}

static void signals(given *g)
{
    begin(g);
    next(g);
    for (uint32_t i = 0; i < g->n; i++)
        await_and_take(done(palqytun_signal(vm, lend("a"))).first);
    end();
}

static void lazy(given *g)
{
    begin(g);
    for (uint32_t i = 0; i < g->n; i++) {
        uint32_t handle = get("key");
        drain();
        next(g);
        await_and_take(handle);
    }
    end();
}

static void eager(given *g)
{
    begin(g);
    for (uint32_t i = 0; i < g->n; i++)
        await_and_take(get(keys[i % KEYS]));
    end();
}

/* The keys key1, key2, .. without the cost of printf. */
static void name_key(char key[16], uint32_t of)
{
    char digits[10];
    size_t len = 0;
    for (; of > 0; of /= 10)
        digits[len++] = (char)('0' + of % 10);
    memcpy(key, "key", 3);
    for (size_t i = 0; i < len; i++)
        key[3 + i] = digits[len - 1 - i];
    key[3 + len] = '\0';
}

static void new_keys(given *g)
{
    begin(g);
    for (uint32_t i = 1; i <= g->n; i++) {
        char key[16];
        name_key(key, i);
        set(key, VALUE);
        await_and_take(get(key));
    }
    end();
}

static void one_key(given *g)
{
    begin(g);
    for (uint32_t i = 1; i <= g->n; i++) {
        set("key", VALUE);
        await_and_take(get("key"));
    }
    end();
}

static void calls_of(given *g, size_t size)
{
    static const palqytun_pair no_headers[1];
    const palqytun_optional none = {false, lend("")};
    const palqytun_target target = {lend("Service"), lend("handler"), {true, lend("k")}, none, none, none, no_headers, 0};
    begin(g);
    for (uint32_t i = 0; i < g->n; i++) {
        done(palqytun_call(vm, &target, (palqytun_bytes){filler, size}, lend(""), false));
        drain();
    }
    next(g);
    for (uint32_t i = 0; i < 2 * g->n; i++)
        await_and_take(FIRST_HANDLE + i);
    end();
}

static void calls_100(given *g)
{
    calls_of(g, 100);
}

static void calls_10k(given *g)
{
    calls_of(g, 10240);
}

static void runs(given *g)
{
    const palqytun_pair none[] = {{lend(""), lend("")}};
    const palqytun_value value = {false, 0, {filler, 100}, none, 0};
    const palqytun_policy always = {0};
    begin(g);
    for (uint32_t i = 0; i < g->n; i++) {
        uint32_t handle = done(palqytun_run(vm, lend("charge"))).first;
        if (await(handle) != PALQYTUN_EXECUTE_RUN)
            fail("await: no run to execute", handle);
        done(palqytun_propose(vm, handle, &value, &always));
        drain();
        next(g);
        await_and_take(handle);
    }
    end();
}

static void tree(given *g)
{
    palqytun_node *nodes = malloc((g->n + 1) * sizeof *nodes);
    if (nodes == NULL)
        exit(1);
    begin(g);
    for (uint32_t i = 0; i < g->n; i++)
        nodes[i] = (palqytun_node){PALQYTUN_SINGLE, nap()};
    nodes[g->n] = (palqytun_node){PALQYTUN_ALL_COMPLETED, g->n};
    if (done(palqytun_await_tree(vm, nodes, g->n + 1)).kind != PALQYTUN_WAITING)
        fail("await_tree: not waiting", 0);
    drain();
    next(g);
    if (done(palqytun_await_tree(vm, nodes, g->n + 1)).kind != PALQYTUN_AWAKE)
        fail("await_tree: not awake", 0);
    awake++;
    for (uint32_t i = 0; i < g->n; i++)
        take(nodes[i].number);
    free(nodes);
    end();
}

/* Each is an attempt: of five recorded sleeps the last is pending, the input ends, and the attempt is suspended. */
static void attempts(given *g)
{
    for (uint32_t i = 0; i < g->n; i++) {
        begin(g);
        for (int k = 0; k < 4; k++)
            await_and_take(nap());
        uint32_t handle = nap();
        done(palqytun_close_input(vm));
        palqytun_replied replied = palqytun_await(vm, handle);
        if (replied.status != PALQYTUN_REFUSED || replied.number != SUSPENDED)
            fail("await: not suspended", replied.status);
        end();
    }
}

static void megabytes_out(given *g)
{
    begin(g);
    for (uint32_t i = 0; i < g->n; i++) {
        set("key", MEGABYTE);
        drain();
    }
    end();
}

/* What each case is given. */

static void piece_ends(given *g)
{
    g->ends[g->pieces++] = g->rest.len;
}

static void one_by_one(given *g)
{
    start(&g->first, 1, true, 0, NULL, 0);
    for (uint32_t i = 1; i <= g->n; i++) {
        completion(&g->rest, i, IS_VOID, NULL, 0);
        piece_ends(g);
    }
}

static void recorded(given *g)
{
    start(&g->first, 1 + 2 * g->n, true, 0, NULL, 0);
    for (uint32_t i = 1; i <= g->n; i++) {
        sleep_command(&g->first, i);
        completion(&g->first, i, IS_VOID, NULL, 0);
    }
}

static void all_at_once(given *g)
{
    start(&g->first, 1, true, 0, NULL, 0);
    for (uint32_t i = 1; i <= g->n; i++)
        completion(&g->rest, i, IS_VOID, NULL, 0);
    piece_ends(g);
}

static void deliveries(given *g)
{
    start(&g->first, 1, true, 0, NULL, 0);
    for (uint32_t i = 1; i <= g->n; i++)
        delivery(&g->rest, "a", filler, VALUE);
    piece_ends(g);
}

static void values_of(given *g, size_t len)
{
    start(&g->first, 1, true, 0, NULL, 0);
    for (uint32_t i = 1; i <= g->n; i++) {
        completion(&g->rest, i, IS_VALUE, filler, len);
        piece_ends(g);
    }
}

static void values(given *g)
{
    values_of(g, VALUE);
}

static void megabytes(given *g)
{
    values_of(g, MEGABYTE);
}

static void whole_state(given *g)
{
    start(&g->first, 1, false, KEYS, filler, VALUE);
}

static void empty_state(given *g)
{
    start(&g->first, 1, false, 0, NULL, 0);
}

static void results(given *g)
{
    static const char id[] = "inv_1234567890abcdef";
    start(&g->first, 1, true, 0, NULL, 0);
    for (uint32_t i = 1; i <= g->n; i++) {
        completion(&g->rest, 2 * i - 1, IS_INVOCATION_ID, id, sizeof id - 1);
        completion(&g->rest, 2 * i, IS_VALUE, filler, 100);
    }
    piece_ends(g);
}

static void acknowledgements(given *g)
{
    start(&g->first, 1, true, 0, NULL, 0);
    for (uint32_t i = 1; i <= g->n; i++) {
        acknowledgement(&g->rest, i);
        piece_ends(g);
    }
}

static void five_sleeps(given *g)
{
    start(&g->first, 10, true, 0, NULL, 0);
    for (uint32_t i = 1; i <= 5; i++) {
        sleep_command(&g->first, i);
        if (i < 5)
            completion(&g->first, i, IS_VOID, NULL, 0);
    }
}

static const struct {
    const char *name;
    void (*play)(given *);
    void (*give)(given *);
    size_t cut;
} cases[] = {
    {"sleeps", sleeps, one_by_one, 0},
    {"waits", waits, one_by_one, 0},
    {"replay", replay, recorded, 0},
    {"first", first, all_at_once, 0},
    {"last", last, all_at_once, 0},
    {"signals", signals, deliveries, 0},
    {"lazy", lazy, values, 0},
    {"eager", eager, whole_state, 0},
    {"new_keys", new_keys, empty_state, 0},
    {"one_key", one_key, empty_state, 0},
    {"calls_100", calls_100, results, 0},
    {"calls_10k", calls_10k, results, 0},
    {"runs", runs, acknowledgements, 0},
    {"tree", tree, all_at_once, 0},
    {"attempts", attempts, five_sleeps, 0},
    {"megabytes_out", megabytes_out, empty_state, 0},
    {"megabytes_in", lazy, megabytes, 0},
    {"cut_64", replay, recorded, 64},
    {"cut_4k", replay, recorded, 4096},
    {"cut_64k", replay, recorded, 65536},
};

__attribute__((noinline)) void measured(void (*play)(given *), given *g)
{
    play(g);
    __asm__ volatile("" ::: "memory");
}

static uint64_t nanoseconds(void)
{
    struct timespec now;
    clock_gettime(CLOCK_MONOTONIC, &now);
    return (uint64_t)now.tv_sec * 1000000000u + (uint64_t)now.tv_nsec;
}

/* What heap.c counts, or 0 without it. */
static uint64_t counted(const char *name)
{
    uint64_t (*count)(void) = (uint64_t(*)(void))dlsym(RTLD_DEFAULT, name);
    return count == NULL ? 0 : count();
}

static void report(void (*play)(given *), given *g, long rounds)
{
    uint64_t least = UINT64_MAX;
    for (long round = 0; round < rounds; round++) {
        awake = sent = taken = 0;
        g->fed = 0;
        counted("heap_mark");
        uint64_t from = nanoseconds();
        measured(play, g);
        uint64_t took = nanoseconds() - from;
        least = took < least ? took : least;
    }
    printf("awake=%" PRIu64 " sent=%" PRIu64 " taken=%" PRIu64 " fed=%zu ns=%" PRIu64 " peak=%" PRIu64 " allocations=%" PRIu64 " copied=%" PRIu64 "\n", awake,
        sent, taken, g->first.len + g->rest.len, least, counted("heap_peak"), counted("heap_count"), counted("heap_copied"));
}

static void make_fillers(void)
{
    filler = malloc(MEGABYTE);
    if (filler == NULL)
        exit(1);
    memset(filler, 'v', MEGABYTE);
    for (int i = 0; i < KEYS; i++)
        snprintf(keys[i], sizeof keys[i], "key%d", i);
    make_room(4096);
}

int main(int count, char **words)
{
    if (count != 5 || atol(words[2]) < 1 || atol(words[3]) < 1) {
        fprintf(stderr, "usage: typed CASE ENTRIES ROUNDS on|off\n");
        return 1;
    }
    cancels = strcmp(words[4], "on") == 0;
    make_fillers();
    for (size_t i = 0; i < sizeof cases / sizeof *cases; i++) {
        if (strcmp(words[1], cases[i].name) != 0)
            continue;
        given g = {.n = (uint32_t)atol(words[2]), .cut = cases[i].cut};
        g.ends = malloc((g.n + 2) * sizeof *g.ends);
        if (g.ends == NULL)
            return 1;
        cases[i].give(&g);
        report(cases[i].play, &g, atol(words[3]));
        return 0;
    }
    fprintf(stderr, "typed: there is no case %s\n", words[1]);
    return 1;
}
