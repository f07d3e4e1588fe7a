/* Counts the allocations of an await that waits: of a handle, and of trees. docs/BENCHMARKS.md has the counts.

   cc tools/benchmarks/c/waits.c -Ibindings -Lbindings/out -lpalqytun -Wl,-rpath,"$PWD/bindings/out" -o waits && ./waits */
#include "palqytun.h"

#include <inttypes.h>
#include <stdio.h>
#include <stdlib.h>
#include <string.h>

extern void *__libc_malloc(size_t);
extern void *__libc_realloc(void *, size_t);

static unsigned allocations;

void *malloc(size_t size)
{
    allocations++;
    return __libc_malloc(size);
}

void *realloc(void *at, size_t size)
{
    allocations++;
    return __libc_realloc(at, size);
}

/* A VM of version 7 with twenty sleeps, whose handles are 17 to 36. */
static palqytun_vm *slept(palqytun_options options)
{
    static const char content_type[] = "application/vnd.restate.invocation.v7", *const lines[] = {"Start id=\"a\" debug_id=\"a\" known_entries=1", "Input"};
    palqytun_vm *vm;
    palqytun_optional asked = {true, {(const uint8_t *)content_type, sizeof content_type - 1}};
    if (palqytun_open(&vm) != PALQYTUN_DONE || palqytun_make(vm, asked, &options).status != PALQYTUN_DONE)
        exit(1);
    for (size_t i = 0; i < 2; i++) {
        uint8_t frame[256];
        palqytun_told told = palqytun_line_frame((const uint8_t *)lines[i], strlen(lines[i]), frame, sizeof frame);
        palqytun_feed(vm, frame, told.len);
    }
    palqytun_input(vm);
    for (uint64_t i = 0; i < 20; i++)
        palqytun_sleep(vm, (palqytun_bytes){NULL, 0}, 1000 + i);
    return vm;
}

/* The allocations of an await, once the buffers have their size. */
static unsigned counted(palqytun_options options, const palqytun_node *nodes, size_t len)
{
    palqytun_vm *vm = slept(options);
    palqytun_bytes lent;
    for (int round = 0; round < 4; round++) {
        palqytun_lend_output(vm, &lent);
        allocations = 0;
        palqytun_replied it = len == 1 ? palqytun_await(vm, nodes->number) : palqytun_await_tree(vm, nodes, len);
        if (it.kind != PALQYTUN_WAITING)
            exit(1);
    }
    unsigned found = allocations;
    palqytun_close(vm);
    return found;
}

int main(void)
{
    static const palqytun_node one[] = {{0, 17}}, two[] = {{0, 17}, {0, 18}, {PALQYTUN_FIRST_COMPLETED, 2}};
    static const palqytun_node four[] = {{0, 17}, {0, 18}, {PALQYTUN_FIRST_COMPLETED, 2}, {0, 19}, {0, 20}, {PALQYTUN_ALL_COMPLETED, 2}, {PALQYTUN_FIRST_COMPLETED, 2}};
    static const palqytun_options all[] = {{0}, {.cancellation = PALQYTUN_CANCEL_DISABLED}, {.awaiting = PALQYTUN_AWAITING_DONT_SEND}};
    static const char *const names[] = {"default options", "cancellation off", "no AwaitingOn is sent"};
    for (size_t i = 0; i < 3; i++)
        printf("%s: a handle %u, a tree of two %u, a tree of two trees %u\n", names[i], counted(all[i], one, 1), counted(all[i], two, 3), counted(all[i], four, 7));
    return 0;
}
