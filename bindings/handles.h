/* What stands between a caller in C and the proved calls (crates/ffi): handles, and pointers that may be NULL. It is no part of the
   interface. docs/TRUST.md says what is trusted of it.

   Each function below is given the status so far, and does nothing if that isn't PALQYTUN_DONE. */
#ifndef PALQYTUN_HANDLES_H
#define PALQYTUN_HANDLES_H

#include "palqytun.h"

/* What a proved call takes: null, or the block of a session or of a journal (`Vm`, `Journal`). */
typedef struct {
    void *at;
} palqytun_held;

/* What a handle is of. */
enum { A_VM = 1, A_JOURNAL = 2 };

/* Takes what a handle is of. Until it is given back nobody else has it: who asks for it gets PALQYTUN_BUSY. */
palqytun_held *handle_take(uint32_t *status, const void *handle, unsigned kind);
void handle_give(palqytun_held *held);

/* The largest number of arrays that one call lends. */
enum { MOST_ARRAYS = 1 };

/* Copies of arrays that a call lends, to be freed after it. */
typedef struct {
    void *arrays[MOST_ARRAYS];
    unsigned count;
} lent_arrays;

void lend_end(lent_arrays *arrays);

/* An array of items of this size. NULL is one without items. */
const void *lend_items(uint32_t *status, const void *at, size_t len, size_t size);
/* Room to write to. NULL has no room. */
uint8_t *lend_room(uint32_t *status, uint8_t *at, size_t len);
void lend_bytes(uint32_t *status, palqytun_bytes *bytes);
/* Where a call writes what it lends. It is no bytes until the call is made. */
void lend_out(uint32_t *status, palqytun_bytes *out);
void lend_optional(uint32_t *status, palqytun_optional *optional);

/* Copies of structs, with what they point to lent. */
void lend_value(uint32_t *status, const palqytun_value *given, palqytun_value *lent, lent_arrays *arrays);
void lend_target(uint32_t *status, const palqytun_target *given, palqytun_target *lent, lent_arrays *arrays);
void lend_error(uint32_t *status, const palqytun_error *given, palqytun_error *lent);
void lend_invocation(uint32_t *status, const palqytun_invocation *given, palqytun_invocation *lent);
/* NULL is no command, the defaults, or the policy that is all zeroes. */
void lend_command(uint32_t *status, const palqytun_command *given, palqytun_command *lent);
void lend_options(uint32_t *status, const palqytun_options *given, palqytun_options *lent);
void lend_policy(uint32_t *status, const palqytun_policy *given, palqytun_policy *lent);

/* Whether a message is a command's, and which command that is: a PALQYTUN_COMMAND_. */
typedef struct {
    bool is_command;
    uint8_t command;
} message_command;

/* The commands of messages by their types, of which there are so many, and the names of commands by their numbers (names.c). */
extern const message_command MESSAGE_COMMANDS[];
extern const size_t MESSAGE_TYPES;
extern const char *const COMMAND_NAMES[];

#endif
