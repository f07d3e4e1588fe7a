/* What a call takes from C, in nanoseconds of the processor: the best of some rounds, of 1,000 calls each. With `allocations` it is how many allocations a call
 * makes, by counted.c, which is preloaded. usage: bench ROUNDS [allocations] */
#define _POSIX_C_SOURCE 200809L
#include "palqytun.h"

#include <stdio.h>
#include <stdlib.h>
#include <string.h>
#include <time.h>

enum { CALLS = 1000 };

static palqytun_bytes bytes(const char *text)
{
    return (palqytun_bytes){(const uint8_t *)text, strlen(text)};
}

static void feed(palqytun_vm *vm, const char *line)
{
    uint8_t frame[256];
    palqytun_told told = palqytun_line_frame((const uint8_t *)line, strlen(line), frame, sizeof frame);
    if (told.status != PALQYTUN_DONE || palqytun_feed(vm, frame, told.len) != PALQYTUN_DONE)
        exit(2);
}

static palqytun_vm *begun(void)
{
    palqytun_vm *vm;
    palqytun_optional v7 = {true, bytes("application/vnd.restate.invocation.v7")};
    if (palqytun_open(&vm) != PALQYTUN_DONE || palqytun_make(vm, v7, NULL).status != PALQYTUN_DONE)
        exit(2);
    feed(vm, "Start id=\"abc\" debug_id=\"abc\" known_entries=1");
    feed(vm, "Input value=\"Till\"");
    if (palqytun_input(vm).status != PALQYTUN_DONE)
        exit(2);
    return vm;
}

static uint32_t call(palqytun_vm *vm, int of)
{
    static const palqytun_pair none[1];
    const palqytun_target target = {.service = bytes("Greeter"), .handler = bytes("greet"), .headers = none};
    switch (of) {
    case 0:
        return palqytun_sleep(vm, bytes(""), 1000).status;
    case 1:
        return palqytun_state_set(vm, bytes("key"), bytes("value"), bytes(""), false).status;
    case 2:
        return palqytun_call(vm, &target, bytes("Ada"), bytes(""), false).status;
    default:
        return palqytun_await(vm, 17).status;
    }
}

/* A sleep that is sent, completed, awaited and taken: the one whose completion has this number. */
static uint32_t whole(palqytun_vm *vm, uint32_t id)
{
    const uint8_t done[] = {0, 30, 0, 0, 0, 0, 0, 0, 0, 6, 0, (uint8_t)(id >> 24), (uint8_t)(id >> 16), (uint8_t)(id >> 8), (uint8_t)id, 0};
    uint8_t room[512];
    palqytun_replied slept = palqytun_sleep(vm, bytes(""), 1000);
    uint32_t wrong = slept.status | palqytun_take_output(vm, room, sizeof room).status | palqytun_feed(vm, done, sizeof done);
    palqytun_replied awaited = palqytun_await(vm, slept.first);
    return wrong | awaited.status | (awaited.kind != PALQYTUN_AWAKE) | palqytun_take(vm, slept.first).status;
}

static uint32_t made(palqytun_vm *vm, int of, int at)
{
    switch (of) {
    case 4:
        return whole(vm, (uint32_t)at + 2);
    case 5:
        return palqytun_state(vm).status;
    case 6:
        return palqytun_is_completed(vm, 17).status;
    case 7:
        return palqytun_take(vm, 17).status;
    default:
        return call(vm, of);
    }
}

extern unsigned long long palqytun_allocations(void) __attribute__((weak));

static double allocations(void)
{
    if (!palqytun_allocations)
        exit(2);
    return (double)palqytun_allocations();
}

static double now(void)
{
    struct timespec it;
    clock_gettime(CLOCK_PROCESS_CPUTIME_ID, &it);
    return (double)it.tv_sec * 1e9 + (double)it.tv_nsec;
}

int main(int argc, char **argv)
{
    static const char *const names[] = {"sleep", "state", "call", "await", "whole", "state_of", "is_completed", "take"};
    int rounds = argc > 1 ? atoi(argv[1]) : 1;
    double (*read)(void) = argc > 2 ? allocations : now;
    for (int of = 0; of < 8; of++) {
        double best = 1e18;
        for (int round = 0; round < rounds; round++) {
            palqytun_vm *vm = begun();
            uint32_t wrong = call(vm, 0);
            double begin = read();
            for (int at = 0; at < CALLS; at++)
                wrong |= made(vm, of, at);
            double took = (read() - begin) / CALLS;
            best = took < best ? took : best;
            if (wrong != PALQYTUN_DONE || palqytun_close(vm) != PALQYTUN_DONE)
                return 2;
        }
        printf("%s %.1f\n", names[of], best);
    }
    return 0;
}
