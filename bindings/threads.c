/* A test: sessions on four threads at once, and one session that goes from thread to thread. */
#include "palqytun.h"

#include <pthread.h>
#include <stdio.h>
#include <string.h>

#define THREADS 4
#define ROUNDS 2000

/* Performs a line, and tells whether this is its answer. */
static int answers(palqytun_vm *vm, const char *line, const char *wanted)
{
    uint8_t answer[256];
    palqytun_told told = palqytun_line(vm, (const uint8_t *)line, strlen(line));
    if (told.status != PALQYTUN_DONE || palqytun_answer(vm, answer, sizeof answer).status != PALQYTUN_DONE)
        return 0;
    return told.len == strlen(wanted) && memcmp(answer, wanted, told.len) == 0;
}

static void *alone(void *bad)
{
    for (int i = 0; i < ROUNDS; i++) {
        palqytun_vm *vm;
        if (palqytun_open(&vm) != PALQYTUN_DONE || !answers(vm, "state", "none")
            || !answers(vm, "vm \"application/vnd.restate.invocation.v7\"", "ok V7") || !answers(vm, "state", "ok WaitingPreFlight"))
            *(int *)bad = 1;
        if (palqytun_close(vm) != PALQYTUN_DONE)
            *(int *)bad = 1;
    }
    return NULL;
}

static palqytun_vm *shared;

static void *next(void *bad)
{
    if (!answers(shared, "state", "ok WaitingPreFlight"))
        *(int *)bad = 1;
    return NULL;
}

int main(void)
{
    pthread_t threads[THREADS];
    int bad[THREADS] = {0};
    for (int i = 0; i < THREADS; i++)
        if (pthread_create(&threads[i], NULL, alone, &bad[i]) != 0)
            return 2;
    for (int i = 0; i < THREADS; i++)
        pthread_join(threads[i], NULL);
    if (palqytun_open(&shared) != PALQYTUN_DONE || !answers(shared, "vm \"application/vnd.restate.invocation.v7\"", "ok V7"))
        return 1;
    for (int i = 0; i < THREADS; i++) {
        if (pthread_create(&threads[i], NULL, next, &bad[i]) != 0)
            return 2;
        pthread_join(threads[i], NULL);
    }
    palqytun_close(shared);
    for (int i = 0; i < THREADS; i++)
        if (bad[i])
            return 1;
    printf("%d threads\n", THREADS);
    return 0;
}
