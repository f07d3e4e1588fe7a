/* How calls.c reads values of Java, and makes them. Where an argument can't be read an exception is pending, and nothing is left behind. */
#ifndef GLUE_H
#define GLUE_H

#include "palqytun_abi.h"

#include <jni.h>
#include <stdlib.h>
#include <string.h>

typedef jobject it_value;

enum { ROOM = 512 };

/* What is lent for a call: the arguments, and copies of what they point to, at first in a room on the stack. */
struct block;
struct lent {
    JNIEnv *env;
    jobjectArray args;
    /* The fields of a struct are an array, in the order of palqytun.h. */
    jobject of;
    jsize at;
    bool is_wrong;
    struct block *blocks;
    size_t used;
    _Alignas(16) uint8_t room[ROOM];
};

/* Where a call writes bytes: at first to a room on the stack. */
struct out {
    palqytun_told told;
    uint8_t *more;
    size_t more_len;
    uint8_t room[ROOM];
};

struct made {
    const char *name;
    jobject (*call)(JNIEnv *env, jclass class, jobjectArray args);
};
extern const struct made CALLS[];

#define CALL(NAME) static jobject call_##NAME(JNIEnv *env, jclass class, jobjectArray args)
#define BEGIN(COUNT) \
    struct lent lent; \
    (void)class; \
    begin(&lent, env, args, COUNT)
#define ARG(AT) argument(&lent, AT)
#define MAKES(NAME) {#NAME, call_##NAME},

void begin(struct lent *lent, JNIEnv *env, jobjectArray args, jsize count);
jobject argument(struct lent *lent, jsize at);
bool is_read(const struct lent *lent);
/* The next field of a struct. */
jobject field(struct lent *lent, jobject of, const char *name);

uintptr_t read_handle(struct lent *lent, jobject it);
/* The bytes of a byte[]. */
palqytun_bytes read_bytes(struct lent *lent, jobject it);
/* The same, or none of null. */
palqytun_optional read_optional(struct lent *lent, jobject it);
/* The same, with a pointer that is NULL if there are none. */
palqytun_bytes read_lent(struct lent *lent, jobject it);
/* A byte[][] of keys and values in turn. */
const palqytun_pair *read_pairs(struct lent *lent, jobject it, size_t *len);
/* A byte[] of packed kinds and numbers. */
const palqytun_node *read_nodes(struct lent *lent, jobject it, size_t *len);
bool read_bool(struct lent *lent, jobject it);
uint16_t read_u16(struct lent *lent, jobject it);
uint32_t read_u32(struct lent *lent, jobject it);
uint64_t read_u64(struct lent *lent, jobject it);
size_t read_size(struct lent *lent, jobject it);

uint8_t *out_at(struct out *out);
size_t out_len(const struct out *out);
/* Whether there was too little room; there is more then. */
bool is_short(struct out *out);

/* A Long. */
jobject give_status(struct lent *lent, uint32_t status);
/* A long[]: the status, the kind, three numbers, the large number, and how many rows there are. */
jobject give_replied(struct lent *lent, const palqytun_replied *it);
/* A byte[], or the status if it isn't done. */
jobject give_bytes(struct lent *lent, struct out *out);
/* A long[] in the order of the struct. */
jobject give_row(struct lent *lent, const char *const names[], const uint64_t values[], size_t count);

/* Finds the classes of Java that values have. */
bool find_classes(JNIEnv *env);
void raise(JNIEnv *env, const char *class, const char *text);

#endif
