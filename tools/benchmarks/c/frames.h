/* Frames as a VM is fed them (docs/WIRE.md), spelled out by hand: what a case is given is made before it is measured. */
#ifndef BENCHMARKS_FRAMES_H
#define BENCHMARKS_FRAMES_H

#include <stdbool.h>
#include <stdint.h>
#include <stdio.h>
#include <stdlib.h>
#include <string.h>

/* Bytes that grow. Without memory the program ends with status 1. */
typedef struct {
    uint8_t *at;
    size_t len, room;
} frames;

/* The types of frames. */
enum { START = 1, ACKNOWLEDGEMENT = 6, INPUT = 10, SLEEP = 18, NOTIFICATION = 30 };

/* What a notification is of, and its result. */
enum { OF_COMPLETION = 0, OF_NAMED_SIGNAL = 2 };
enum { IS_VOID = 0, IS_VALUE = 1, IS_INVOCATION_ID = 4 };

static inline void put(frames *to, const void *bytes, size_t len)
{
    if (to->room < to->len + len) {
        to->room = 2 * (to->len + len);
        to->at = realloc(to->at, to->room);
        if (to->at == NULL)
            exit(1);
    }
    memcpy(to->at + to->len, bytes, len);
    to->len += len;
}

/* A number in this many bytes, at most 32, the most significant first. */
static inline void number(frames *to, uint64_t value, size_t width)
{
    uint8_t digits[32] = {0};
    for (size_t at = width; at > 0 && value > 0; at--, value >>= 8)
        digits[at - 1] = (uint8_t)value;
    put(to, digits, width);
}

static inline void blob(frames *to, const void *bytes, size_t len)
{
    number(to, len, 8);
    put(to, bytes, len);
}

static inline void text(frames *to, const char *value)
{
    blob(to, value, strlen(value));
}

static inline void head(frames *to, uint16_t type, size_t body)
{
    number(to, type, 2);
    number(to, body, 8);
}

/* Start and Input of an attempt that knows of this many entries. Its state has the keys key0, key1 .. with this value. */
static inline void start(frames *to, uint32_t known, bool is_partial, unsigned keys, const void *value, size_t len)
{
    frames body = {0};
    text(&body, "abc");
    text(&body, "abc");
    text(&body, "");
    number(&body, known, 4);
    number(&body, keys, 8);
    for (unsigned i = 0; i < keys; i++) {
        char key[16];
        snprintf(key, sizeof key, "key%u", i);
        text(&body, key);
        blob(&body, value, len);
    }
    number(&body, is_partial, 1);
    number(&body, 0, 20);
    number(&body, 0, 3);
    head(to, START, body.len);
    put(to, body.at, body.len);
    free(body.at);
    head(to, INPUT, 21);
    text(to, "");
    text(to, "input");
}

/* A Sleep without a name. */
static inline void sleep_command(frames *to, uint32_t id)
{
    head(to, SLEEP, 20);
    number(to, 1000, 8);
    number(to, id, 4);
    text(to, "");
}

/* The completion of an id: void if `bytes` is NULL. */
static inline void completion(frames *to, uint32_t id, unsigned result, const void *bytes, size_t len)
{
    head(to, NOTIFICATION, bytes == NULL ? 6 : 14 + len);
    number(to, OF_COMPLETION, 1);
    number(to, id, 4);
    number(to, result, 1);
    if (bytes != NULL)
        blob(to, bytes, len);
}

/* A value for the next handle of a named signal. */
static inline void delivery(frames *to, const char *name, const void *bytes, size_t len)
{
    head(to, NOTIFICATION, 18 + strlen(name) + len);
    number(to, OF_NAMED_SIGNAL, 1);
    text(to, name);
    number(to, IS_VALUE, 1);
    blob(to, bytes, len);
}

static inline void acknowledgement(frames *to, uint32_t id)
{
    head(to, ACKNOWLEDGEMENT, 4);
    number(to, id, 4);
}

#endif
