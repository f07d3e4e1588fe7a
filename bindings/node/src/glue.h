/* How calls.c reads values of JavaScript, and makes them. */
#ifndef GLUE_H
#define GLUE_H

#define NAPI_VERSION 8
#include "palqytun_abi.h"

#include <node_api.h>
#include <stdlib.h>
#include <string.h>

typedef napi_value it_value;

enum { MOST_ARGUMENTS = 8, ROOM = 512, REPLY = 8 };

/* What is lent for a call: the arguments, and blocks of the heap that end with it. */
struct lent {
    napi_env env;
    napi_value args[MOST_ARGUMENTS];
    bool is_bad;
    size_t blocks_len, blocks_room;
    void **blocks;
};

/* Where a call writes bytes: at first to a room on the stack. */
struct out {
    palqytun_told told;
    uint8_t *more;
    size_t more_len;
    uint8_t room[ROOM];
};

/* What an instance of the addon has: where replies are written, for JavaScript to read. */
struct instance {
    uint32_t *reply;
};

struct made {
    const char *name;
    napi_callback call;
};
extern const struct made CALLS[];

#define CALL(NAME) static napi_value call_##NAME(napi_env env, napi_callback_info info)
#define BEGIN(COUNT) \
    struct lent lent = {.env = env}; \
    begin(&lent, info, COUNT)
#define ARG(AT) lent.args[AT]
#define MAKES(NAME) {#NAME, call_##NAME},

void begin(struct lent *lent, napi_callback_info info, size_t count);
bool is_read(const struct lent *lent);
napi_value field(struct lent *lent, napi_value of, const char *name);

uintptr_t read_handle(struct lent *lent, napi_value it);
/* Bytes of a text, or of a Uint8Array. */
palqytun_bytes read_bytes(struct lent *lent, napi_value it);
/* The same, or none of undefined and null. */
palqytun_optional read_optional(struct lent *lent, napi_value it);
/* The same, with a pointer that is NULL if there are none. */
palqytun_bytes read_lent(struct lent *lent, napi_value it);
/* An array of arrays of two texts. */
const palqytun_pair *read_pairs(struct lent *lent, napi_value it, size_t *len);
/* A Uint32Array of kinds and numbers. */
const palqytun_node *read_nodes(struct lent *lent, napi_value it, size_t *len);
bool read_bool(struct lent *lent, napi_value it);
uint16_t read_u16(struct lent *lent, napi_value it);
uint32_t read_u32(struct lent *lent, napi_value it);
/* A bigint. */
uint64_t read_u64(struct lent *lent, napi_value it);
size_t read_size(struct lent *lent, napi_value it);

uint8_t *out_at(struct out *out);
size_t out_len(const struct out *out);
/* Whether there was too little room; there is more then. */
bool is_short(struct out *out);

/* Each ends what is lent. The status. */
napi_value give_status(struct lent *lent, uint32_t status);
/* The status; the numbers are in the reply of the instance. */
napi_value give_replied(struct lent *lent, const palqytun_replied *it);
/* A Buffer, or the status if it isn't done. */
napi_value give_bytes(struct lent *lent, struct out *out);
/* An object of numbers. */
napi_value give_row(struct lent *lent, const char *const names[], const uint64_t values[], size_t count);

#endif
