/* How calls.c reads values of Ruby, and makes them. Where an argument can't be read an exception is raised, and nothing is left behind. */
#ifndef GLUE_H
#define GLUE_H

#include "palqytun_abi.h"

#include <ruby.h>
#include <stdlib.h>
#include <string.h>

typedef VALUE it_value;

enum { ROOM = 512, MOST_KEPT = 4 };

/* What is lent for a call: the arguments, and strings of Ruby's that hold what it points to. Ruby's collector sees both, as they are on the stack. */
struct lent {
    VALUE *args;
    size_t kept_len;
    VALUE kept[MOST_KEPT];
};

/* Where a call writes bytes: at first to a room on the stack. */
struct out {
    palqytun_told told;
    uint8_t *more;
    size_t more_len;
    uint8_t room[ROOM];
};

struct made {
    const char *name;
    VALUE (*call)(int argc, VALUE *argv, VALUE self);
};
extern const struct made CALLS[];

#define CALL(NAME) static VALUE call_##NAME(int argc, VALUE *argv, VALUE self)
#define BEGIN(COUNT) \
    struct lent lent = {.args = argv}; \
    rb_check_arity(argc, COUNT, COUNT)
#define ARG(AT) lent.args[AT]
#define MAKES(NAME) {"pq_" #NAME, call_##NAME},

bool is_read(const struct lent *lent);
VALUE field(struct lent *lent, VALUE of, const char *name);

uintptr_t read_handle(struct lent *lent, VALUE it);
/* The bytes of a String. */
palqytun_bytes read_bytes(struct lent *lent, VALUE it);
/* The same, or none of nil. */
palqytun_optional read_optional(struct lent *lent, VALUE it);
/* The same, with a pointer that is NULL if there are none. */
palqytun_bytes read_lent(struct lent *lent, VALUE it);
/* An Array of Arrays of two Strings. */
const palqytun_pair *read_pairs(struct lent *lent, VALUE it, size_t *len);
/* A String of packed kinds and numbers. */
const palqytun_node *read_nodes(struct lent *lent, VALUE it, size_t *len);
bool read_bool(struct lent *lent, VALUE it);
uint16_t read_u16(struct lent *lent, VALUE it);
uint32_t read_u32(struct lent *lent, VALUE it);
uint64_t read_u64(struct lent *lent, VALUE it);
size_t read_size(struct lent *lent, VALUE it);

uint8_t *out_at(struct out *out);
size_t out_len(const struct out *out);
/* Whether there was too little room; there is more then. */
bool is_short(struct out *out);

VALUE give_status(struct lent *lent, uint32_t status);
/* An Array: the status, the kind, three numbers, the large number, and how many rows there are. */
VALUE give_replied(struct lent *lent, const palqytun_replied *it);
/* A binary String, or the status if it isn't done. */
VALUE give_bytes(struct lent *lent, struct out *out);
/* A Hash of numbers. */
VALUE give_row(struct lent *lent, const char *const names[], const uint64_t values[], size_t count);

/* A handle, which ends with its garbage. */
extern const rb_data_type_t HANDLE;
struct handle {
    uintptr_t it;
    uint32_t (*close)(uintptr_t);
};

#endif
