/* A handler's attempt, call by call: its sleep is recorded and completed, so it is replayed, and the handler ends. */
#include "palqytun.h"

#include <inttypes.h>
#include <stdbool.h>
#include <stdio.h>
#include <stdlib.h>
#include <string.h>

/* The recorded journal, with its Start in front. */
static const uint8_t journal[] = {
    /* Start id="abc" debug_id="abc" known_entries=3 */
    0x00, 0x01, 0x00, 0x00, 0x00, 0x00, 0x00, 0x00, 0x00, 0x42, 0x00, 0x00, 0x00, 0x00, 0x00, 0x00, 0x00, 0x03, 0x61, 0x62,
    0x63, 0x00, 0x00, 0x00, 0x00, 0x00, 0x00, 0x00, 0x03, 0x61, 0x62, 0x63, 0x00, 0x00, 0x00, 0x00, 0x00, 0x00, 0x00, 0x00,
    0x00, 0x00, 0x00, 0x03, 0x00, 0x00, 0x00, 0x00, 0x00, 0x00, 0x00, 0x00, 0x00, 0x00, 0x00, 0x00, 0x00, 0x00, 0x00, 0x00,
    0x00, 0x00, 0x00, 0x00, 0x00, 0x00, 0x00, 0x00, 0x00, 0x00, 0x00, 0x00, 0x00, 0x00, 0x00, 0x00,
    /* Input value="Till" */
    0x00, 0x0a, 0x00, 0x00, 0x00, 0x00, 0x00, 0x00, 0x00, 0x14, 0x00, 0x00, 0x00, 0x00, 0x00, 0x00, 0x00, 0x00, 0x00, 0x00,
    0x00, 0x00, 0x00, 0x00, 0x00, 0x04, 0x54, 0x69, 0x6c, 0x6c,
    /* Sleep wake_up_time=1000 result_completion_id=1 */
    0x00, 0x12, 0x00, 0x00, 0x00, 0x00, 0x00, 0x00, 0x00, 0x14, 0x00, 0x00, 0x00, 0x00, 0x00, 0x00, 0x03, 0xe8, 0x00, 0x00,
    0x00, 0x01, 0x00, 0x00, 0x00, 0x00, 0x00, 0x00, 0x00, 0x00,
    /* Notification id=completion(1) result=void */
    0x00, 0x1e, 0x00, 0x00, 0x00, 0x00, 0x00, 0x00, 0x00, 0x06, 0x00, 0x00, 0x00, 0x00, 0x01, 0x00,
};

/* Says how a call ended that wasn't done. Exit status 1: no memory was found. */
static int failed(uint32_t status)
{
    fprintf(stderr, status == PALQYTUN_NO_MEMORY ? "no memory\n" : "status %" PRIu32 "\n", status);
    return status == PALQYTUN_NO_MEMORY ? 1 : 2;
}

/* Performs a line, and prints it with its answer. 0, or the exit status. */
static int ask(palqytun_vm *vm, const char *line)
{
    palqytun_told told = palqytun_line(vm, (const uint8_t *)line, strlen(line));
    if (told.status != PALQYTUN_DONE)
        return failed(told.status);
    char answer[512];
    if (told.len > sizeof answer)
        return failed(PALQYTUN_NO_ROOM);
    told = palqytun_answer(vm, (uint8_t *)answer, sizeof answer);
    if (told.status != PALQYTUN_DONE)
        return failed(told.status);
    /* The VM found no memory, and has failed. */
    if (told.len == 10 && memcmp(answer, "err 500 \"\"", 10) == 0)
        return failed(PALQYTUN_NO_MEMORY);
    printf("%-44s %.*s\n", line, (int)told.len, answer);
    return 0;
}

/* Feeds the journal in pieces of 50 bytes. */
static int feed(palqytun_vm *vm)
{
    for (size_t at = 0; at < sizeof journal; at += 50) {
        size_t left = sizeof journal - at;
        uint32_t status = palqytun_feed(vm, journal + at, left < 50 ? left : 50);
        if (status != PALQYTUN_DONE)
            return failed(status);
    }
    return 0;
}

/* Takes the output, once its length is known, and prints it. */
static int take(palqytun_vm *vm)
{
    palqytun_told told = palqytun_take_output(vm, NULL, 0);
    size_t room = told.len;
    uint8_t *output = malloc(room + 1);
    if (output == NULL)
        return failed(PALQYTUN_NO_MEMORY);
    told = palqytun_take_output(vm, output, room);
    if (told.status == PALQYTUN_DONE) {
        printf("%-44s ", "(output)");
        for (size_t i = 0; i < told.len; i++)
            printf("%02x", output[i]);
        printf("\n");
    }
    free(output);
    return told.status == PALQYTUN_DONE ? 0 : failed(told.status);
}

static int run(palqytun_vm *vm)
{
    static const char *const calls[] = {"close", "ready", "sys_input", "sleep \"\" 1000", "await 17", "take 17",
        "write_output success \"Slept\"", "end"};
    static const char *const more[] = {"output", "state", "index", "sleep \"\" 1", "what", ""};
    int ended = ask(vm, "vm \"application/vnd.restate.invocation.v7\"");
    if (ended == 0)
        ended = feed(vm);
    for (size_t i = 0; i < sizeof calls / sizeof *calls && ended == 0; i++)
        ended = ask(vm, calls[i]);
    if (ended == 0)
        ended = take(vm);
    for (size_t i = 0; i < sizeof more / sizeof *more && ended == 0; i++)
        ended = ask(vm, more[i]);
    return ended;
}

int main(void)
{
    /* Nothing is done without a session, or without a VM. */
    uint8_t none[1] = {0};
    if (palqytun_line(NULL, NULL, 0).status != PALQYTUN_NO_SESSION || palqytun_answer(NULL, none, 1).status != PALQYTUN_NO_SESSION
        || palqytun_feed(NULL, NULL, 0) != PALQYTUN_NO_SESSION || palqytun_take_output(NULL, none, 1).status != PALQYTUN_NO_SESSION)
        return 3;
    palqytun_vm *vm;
    uint32_t status = palqytun_open(&vm);
    if (status != PALQYTUN_DONE)
        return failed(status);
    bool has_none = palqytun_feed(vm, NULL, 0) == PALQYTUN_NO_VM && palqytun_take_output(vm, none, 1).status == PALQYTUN_NO_VM;
    int ended = has_none ? run(vm) : 3;
    bool is_closed = palqytun_close(vm) == PALQYTUN_DONE && palqytun_close(vm) == PALQYTUN_NO_SESSION;
    return is_closed ? ended : 3;
}
