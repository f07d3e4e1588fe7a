/* The invocation VM for callers of C.

   A call of the VM is made in one of two ways. The first is a line of text, whose reply is a line too: docs/VMSCRIPT.md has all lines and
   replies. The second is faster: each call has a function, on numbers and byte strings, the typed calls below. Both may be mixed on one VM.
   Bytes of input and output go in and out as they are.

   Memory. A session is a block of the heap and what it refers to, by the program's malloc, realloc and free, which must belong
   together, and give blocks aligned as C asks. The library keeps nothing that it is passed: lines and bytes are copied, and
   what it writes goes to the caller's buffers alone. One call lends the caller memory, palqytun_lend_output. Out of memory is a status, and
   never ends the program.

   Handles. A palqytun_vm * is a handle: a number in the form of a pointer, which palqytun_open gives and palqytun_close ends. It may be
   copied, and nothing is read where it seems to point to. With a handle that is NULL, closed, a journal's, or no handle at all, a call returns
   a status, and does nothing.

   Pointers. A pointer is valid for its length. NULL is allowed where the length is 0, and where a call says what it then means; else it is
   PALQYTUN_BAD_POINTER. The buffers of one call don't overlap. A flag is false if it is 0.

   Threads. Several sessions may be used at once, and each from any thread. A session has one call at a time: a second call at the same time
   returns PALQYTUN_BUSY, and does nothing. So a race does no harm, unless what palqytun_lend_output lent is read in it; with a lock each call
   is made. Make no call from a signal handler, or in the forked child of a process with threads. No call blocks.

   Stack. A call takes at most PALQYTUN_STACK bytes of it. */
#ifndef PALQYTUN_H
#define PALQYTUN_H

#include <stdbool.h>
#include <stddef.h>
#include <stdint.h>

#ifdef __cplusplus
extern "C" {
#endif

/* The number of this interface. It changes if a function, a struct or a number changes that was there before; one that is added is no
   change. So no struct of this header grows under a number, and none begins with its size: what is added comes as another function, with a struct
   of its own if it needs one. A caller that loads the library at run time compares the number with palqytun_abi(). */
#define PALQYTUN_ABI 1

/* How much stack a call takes at most, in bytes. */
#define PALQYTUN_STACK 32768

/* A session: at most one VM, the reply to the last line, the reply to the last typed call, and the output that was lent last. */
typedef struct palqytun_vm palqytun_vm;

/* How a call ended. Calls of a journal and calls on frames have further numbers, below; each number has one meaning. */
enum {
    PALQYTUN_DONE = 0,
    /* No memory was found. Each call below says what holds then. */
    PALQYTUN_NO_MEMORY = 1,
    /* There is no session: the handle is NULL, or was closed. Nothing was done. */
    PALQYTUN_NO_SESSION = 2,
    /* The session has no VM: none was made yet, or a later one was refused. Nothing was done. */
    PALQYTUN_NO_VM = 3,
    /* The buffer is too short. Nothing was done. */
    PALQYTUN_NO_ROOM = 4,
    /* The VM refused a typed call: the reply is an error. */
    PALQYTUN_REFUSED = 5,
    /* A text is not UTF-8. Nothing was done. */
    PALQYTUN_BAD_TEXT = 6,
    /* Nodes are not one tree. Nothing was done. */
    PALQYTUN_BAD_TREE = 7,
    /* A number names no variant of its type. Nothing was done. */
    PALQYTUN_BAD_NUMBER = 8,
    /* The reply has no such part. */
    PALQYTUN_NO_PART = 9,
    /* Another call of the same session or journal has not ended yet. Nothing was done. */
    PALQYTUN_BUSY = 25,
    /* The handle is of another kind than the call's: a journal's for a session, or the other way round, or no handle at all. Nothing was done. */
    PALQYTUN_BAD_HANDLE = 26,
    /* A pointer is NULL that may not be, or a length is longer than anything in memory. Nothing was done. */
    PALQYTUN_BAD_POINTER = 27,
    /* The next message of the output has no frame in the layer that the session's peer speaks. Nothing was done. */
    PALQYTUN_NO_FRAME = 28,
    /* The session's peer speaks another layer, and the call is in the VM's own bytes. Nothing was done. */
    PALQYTUN_LAYERED = 29
};

/* How a call ended, and a length in bytes. */
typedef struct {
    uint32_t status;
    size_t len;
} palqytun_told;

/* Makes a session without a VM, and writes its handle to vm. It is the caller's, who ends it by palqytun_close.
   PALQYTUN_NO_MEMORY: there is none, and the handle is NULL. */
uint32_t palqytun_open(palqytun_vm **vm);

/* The layers that a session's peer may speak: the bytes of each message. */
enum {
    /* The VM's own (docs/WIRE.md). */
    PALQYTUN_LAYER_OWN = 0,
    /* A second layer, in the version of the VM. Nobody but this repository's tests speaks it. A frame is a length in four bytes, as many
       bytes, and the type in two. The first of those bytes is 0 or 1, and the body follows. Below version 7 a suspension has no tree. */
    PALQYTUN_LAYER_SHORT = 1,
    /* The same in version 6, also for a VM of a later one: it has no AwaitingOn. */
    PALQYTUN_LAYER_SHORT_V6 = 2
};

/* The same as palqytun_open, for a peer that speaks this layer, a PALQYTUN_LAYER_, in palqytun_feed and palqytun_take_output. A session keeps its
   layer, and a VM that is made in it begins with nothing of the last one's bytes. Unless the layer is the VM's own, palqytun_line,
   palqytun_lend_output and palqytun_output are PALQYTUN_LAYERED, since they have the VM's own bytes. PALQYTUN_BAD_NUMBER: the number names no
   layer. There is no session then, and the handle is NULL. */
uint32_t palqytun_open_over(palqytun_vm **vm, uint32_t layer);

/* Performs one line, without its end, and returns how long its reply is. A line that isn't understood has a reply too,
   `bad`. PALQYTUN_NO_MEMORY: the last reply stays, and the line may have been performed: close the session. (If the VM
   itself finds no memory it has failed, and the reply is `err 500 ""`; palqytun_is_ready tells it from an error that was reported.) PALQYTUN_LAYERED: nothing was done. */
palqytun_told palqytun_line(palqytun_vm *vm, const uint8_t *line, size_t line_len);

/* Writes the last reply to the front of out, and returns how long it is. It has no line end, and no 0 after it. It stays, and can
   be read again. PALQYTUN_NO_ROOM: len is the length that it needs. */
palqytun_told palqytun_answer(palqytun_vm *vm, uint8_t *out, size_t out_len);

/* Feeds the VM the next bytes of its input, cut anywhere: the line `input` without hex digits. If what they say fails the VM,
   its next call returns the error. In another layer, bytes that are no frame fail it as bytes of its own that are none. PALQYTUN_NO_MEMORY:
   the same bytes may be fed again: a VM that took none of them takes them then, and one that failed drops them. */
uint32_t palqytun_feed(palqytun_vm *vm, const uint8_t *bytes, size_t bytes_len);

/* Moves all bytes that wait to be sent to the front of out, and returns how many there are: the line `output` without hex digits.
   They are whole frames. PALQYTUN_NO_ROOM: len is the room that they need; so a call with out_len 0 asks for it. The memory of more than
   64 KiB is given back; else it stays for the next ones. palqytun_lend_output, below, gives the VM's own bytes without a copy.
   PALQYTUN_NO_MEMORY: they still wait. PALQYTUN_NO_FRAME, in another layer: all that stood before a message was taken, and the layer lacks the
   message, or it is too long for a frame there. It waits, and each further call says so. */
palqytun_told palqytun_take_output(palqytun_vm *vm, uint8_t *out, size_t out_len);

/* Frees the session, with all its memory, and ends its handle. PALQYTUN_NO_SESSION: it was closed before, or the handle is NULL.
   PALQYTUN_BUSY: it stays, and has to be closed once its call has ended. */
uint32_t palqytun_close(palqytun_vm *vm);

/* ---- Typed calls

   Each makes one call of the VM, and returns its reply, a palqytun_replied. Its numbers are there at once. Its texts and
   bytes are its parts: they stay in the session until the next typed call, and palqytun_part copies them out. If the status is
   neither PALQYTUN_DONE nor PALQYTUN_REFUSED the call was not made, and the last reply stays. There is one exception: PALQYTUN_NO_MEMORY and a
   reply of the kind PALQYTUN_ERROR. The VM itself has found no memory, and has failed by that; or it has failed by another error, and found none
   to copy that. Without this kind a text or bytes could not be copied. No error that a handler reports has this status, whichever its code is.

   A name may be empty: then the command has none. */

/* Bytes that are lent for a call, or a text in UTF-8. at may be NULL if len is 0. */
typedef struct {
    const uint8_t *at;
    size_t len;
} palqytun_bytes;

/* Bytes, or none: then bytes isn't looked at. */
typedef struct {
    bool is_given;
    palqytun_bytes bytes;
} palqytun_optional;

/* A key and its value. */
typedef struct {
    palqytun_bytes key;
    palqytun_bytes value;
} palqytun_pair;

/* A result: bytes; or a failure of this code, whose message the bytes are, with metadata. */
typedef struct {
    bool is_failure;
    uint16_t code;
    palqytun_bytes bytes;
    const palqytun_pair *metadata;
    size_t metadata_len;
} palqytun_value;

/* Which handler is called, and how. */
typedef struct {
    palqytun_bytes service;
    palqytun_bytes handler;
    palqytun_optional key;
    palqytun_optional idempotency_key;
    palqytun_optional scope;
    palqytun_optional limit_key;
    const palqytun_pair *headers;
    size_t headers_len;
} palqytun_target;

/* A node of a tree that is awaited. A row of nodes has each node after the trees of its children: it takes the last of the trees in
   front of it, as many as its number says. So a node refers to none that comes later. */
typedef struct {
    uint32_t kind;
    uint32_t number;
} palqytun_node;

/* The kind of a node. */
enum {
    /* A handle, which is the number. */
    PALQYTUN_SINGLE = 0,
    PALQYTUN_FIRST_COMPLETED = 1,
    PALQYTUN_ALL_COMPLETED = 2,
    PALQYTUN_FIRST_SUCCEEDED_OR_ALL_FAILED = 3,
    PALQYTUN_ALL_SUCCEEDED_OR_FIRST_FAILED = 4,
    PALQYTUN_UNKNOWN = 5
};

/* The versions of the messages that a VM may have. A version's content type is "application/vnd.restate.invocation.v" and its number. */
enum { PALQYTUN_MINIMUM_VERSION = 5, PALQYTUN_MAXIMUM_VERSION = 8 };

/* The options of a VM: `palqytun_options options = {0};` are the defaults, and so is NULL. */
typedef struct {
    /* A PALQYTUN_CANCEL_. */
    uint32_t cancellation;
    /* A PALQYTUN_CHECKS_. */
    uint32_t checks;
    /* A PALQYTUN_AWAITING_. */
    uint32_t awaiting;
    /* A PALQYTUN_MISMATCH_. */
    uint32_t mismatch;
    /* A PALQYTUN_REPLAY_. */
    uint32_t replay;
    /* A PALQYTUN_DELIVERY_. */
    uint32_t delivery;
    /* The handler's random seed, if the version hands none out. */
    uint64_t seed;
} palqytun_options;

/* What a cancelled await cancels: the calls that the handler waits for, nothing, what it has sent, or both. Or the cancel signal ends no
   await: it is the handle PALQYTUN_CANCEL_HANDLE, which the handler may await. */
enum {
    PALQYTUN_CANCEL_CALLS = 0,
    PALQYTUN_CANCEL_NOTHING = 1,
    PALQYTUN_CANCEL_SENDS = 2,
    PALQYTUN_CANCEL_CALLS_AND_SENDS = 3,
    PALQYTUN_CANCEL_DISABLED = 4
};

/* The handle of the cancel signal. */
enum { PALQYTUN_CANCEL_HANDLE = 1 };

/* Whether replay compares payloads. */
enum { PALQYTUN_CHECKS_ENABLED = 0, PALQYTUN_CHECKS_PAYLOAD_CHECKS_DISABLED = 1 };

/* When an await that waits for input says what it waits for. */
enum {
    PALQYTUN_AWAITING_DONT_SEND_WHEN_EXECUTING_RUN = 0,
    PALQYTUN_AWAITING_SEND_ALWAYS = 1,
    PALQYTUN_AWAITING_DONT_SEND = 2
};

/* What happens to an invocation whose journal doesn't fit its handler. */
enum {
    PALQYTUN_MISMATCH_FOLLOW_RETRY_POLICY = 0,
    PALQYTUN_MISMATCH_PAUSE = 1,
    PALQYTUN_MISMATCH_FAIL_TERMINALLY = 2
};

/* Whether recorded commands are replayed, or skipped. */
enum { PALQYTUN_REPLAY_ENABLED = 0, PALQYTUN_REPLAY_DISABLED = 1 };

/* Several deliveries of one signal queue up, or the newest replaces the others. */
enum { PALQYTUN_DELIVERY_QUEUED = 0, PALQYTUN_DELIVERY_OVERWRITE = 1 };

/* An error. */
typedef struct {
    uint16_t code;
    /* A PALQYTUN_BEHAVIOR_. */
    uint32_t behavior;
    palqytun_bytes message;
    palqytun_bytes stacktrace;
    /* The delay of the next try. */
    bool has_delay;
    uint64_t delay_millis;
} palqytun_error;

/* What is done after an error: the invocation is tried again, pauses, or fails. */
enum { PALQYTUN_BEHAVIOR_RETRY = 0, PALQYTUN_BEHAVIOR_PAUSE = 1, PALQYTUN_BEHAVIOR_FAIL = 2 };

/* The codes of the VM's own errors. An error's code may be another number: that of the handler's own error. */
enum {
    /* The invocation isn't as the version of the VM has it. */
    PALQYTUN_CODE_BAD_REQUEST = 400,
    /* The content type names no version that the VM has. */
    PALQYTUN_CODE_UNSUPPORTED_MEDIA_TYPE = 415,
    /* An argument or a count is out of its bounds, a run's result was given that nobody waits for, or the VM found no memory. */
    PALQYTUN_CODE_INTERNAL = 500,
    /* The handler makes another call than the journal has recorded. */
    PALQYTUN_CODE_JOURNAL_MISMATCH = 570,
    /* The bytes that were fed aren't what may come, or a call came when it may not. */
    PALQYTUN_CODE_PROTOCOL_VIOLATION = 571,
    /* The version of the VM has no such call or argument. */
    PALQYTUN_CODE_UNSUPPORTED_FEATURE = 573,
    /* The handler has ended. */
    PALQYTUN_CODE_CLOSED = 598,
    /* The invocation is suspended. */
    PALQYTUN_CODE_SUSPENDED = 599
};

/* The command that an error relates to. */
typedef struct {
    /* A PALQYTUN_RELATED_TO_. */
    uint32_t kind;
    uint32_t index;
    /* What the next one is, or that of the index: a PALQYTUN_COMMAND_. An error's reply has the type of its message in place of this. */
    uint32_t type;
    palqytun_optional name;
} palqytun_command;

/* An error relates to no command, the last, the next, or the one of an index. */
enum {
    PALQYTUN_RELATED_TO_NONE = 0,
    PALQYTUN_RELATED_TO_LAST = 1,
    PALQYTUN_RELATED_TO_NEXT = 2,
    PALQYTUN_RELATED_TO_SPECIFIC = 3
};

/* What a command is. */
enum {
    PALQYTUN_COMMAND_INPUT = 0,
    PALQYTUN_COMMAND_OUTPUT = 1,
    PALQYTUN_COMMAND_GET_STATE = 2,
    PALQYTUN_COMMAND_GET_STATE_KEYS = 3,
    PALQYTUN_COMMAND_SET_STATE = 4,
    PALQYTUN_COMMAND_CLEAR_STATE = 5,
    PALQYTUN_COMMAND_CLEAR_ALL_STATE = 6,
    PALQYTUN_COMMAND_GET_PROMISE = 7,
    PALQYTUN_COMMAND_PEEK_PROMISE = 8,
    PALQYTUN_COMMAND_COMPLETE_PROMISE = 9,
    PALQYTUN_COMMAND_SLEEP = 10,
    PALQYTUN_COMMAND_CALL = 11,
    PALQYTUN_COMMAND_ONE_WAY_CALL = 12,
    PALQYTUN_COMMAND_SEND_SIGNAL = 13,
    PALQYTUN_COMMAND_RUN = 14,
    PALQYTUN_COMMAND_ATTACH_INVOCATION = 15,
    PALQYTUN_COMMAND_GET_INVOCATION_OUTPUT = 16,
    PALQYTUN_COMMAND_COMPLETE_AWAKEABLE = 17,
    PALQYTUN_COMMAND_CANCEL_INVOCATION = 18
};

/* Which invocation is meant. What a kind doesn't name is empty. */
typedef struct {
    /* A PALQYTUN_TARGET_. */
    uint32_t kind;
    /* The id, the workflow's name, or the service's. */
    palqytun_bytes name;
    /* The workflow's key, or the idempotency key. */
    palqytun_bytes key;
    /* The handler's name, of an idempotency key. */
    palqytun_bytes handler;
    /* The service's key, of an idempotency key. */
    palqytun_optional service_key;
    palqytun_optional scope;
} palqytun_invocation;

/* An invocation is meant by its id, as a workflow, or by its idempotency key. */
enum {
    PALQYTUN_TARGET_INVOCATION_ID = 0,
    PALQYTUN_TARGET_WORKFLOW_ID = 1,
    PALQYTUN_TARGET_IDEMPOTENCY_ID = 2
};

/* A run that failed is tried again always, never, after the same delay each time, or after a growing delay. */
enum {
    PALQYTUN_POLICY_INFINITE = 0,
    PALQYTUN_POLICY_NONE = 1,
    PALQYTUN_POLICY_FIXED_DELAY = 2,
    PALQYTUN_POLICY_EXPONENTIAL = 3
};

/* When a run that failed is tried again: `palqytun_policy policy = {0};` is always, and so is NULL. */
typedef struct {
    /* A PALQYTUN_POLICY_. */
    uint32_t kind;
    /* Of a growing delay: the first one, and the factor by which it grows, over a denominator that isn't 0. */
    uint64_t initial_millis;
    uint32_t numerator;
    uint32_t denominator;
    /* The delay; of a growing one the longest. */
    bool has_interval;
    uint64_t interval_millis;
    /* The most attempts. */
    bool has_attempts;
    uint32_t attempts;
    /* The longest time for all of them. */
    bool has_duration;
    uint64_t duration_millis;
    /* At one of these bounds the invocation pauses; else the error is the run's result. */
    bool pauses;
} palqytun_policy;

/* What a reply is, with what its numbers and parts are. Numbers that are not named are 0. */
enum {
    /* Nothing; or what was taken has no result, or there is no command. */
    PALQYTUN_NOTHING = 0,
    /* first: the handle. Of a call: of the invocation's id; second: of its result; third: of its deadline. */
    PALQYTUN_HANDLE = 1,
    /* first: the handle. Part 0: the id. */
    PALQYTUN_AWAKEABLE = 2,
    /* first: the handle; second: 1 if the result is there already. */
    PALQYTUN_RUN = 3,
    /* first: the id of an ephemeral read; of an await: of one whose value is there. */
    PALQYTUN_EPHEMERAL = 4,
    /* first: 1 for true. */
    PALQYTUN_FLAG = 5,
    /* first: a PALQYTUN_STATE_. */
    PALQYTUN_STATE = 6,
    /* number: the index of the last command. */
    PALQYTUN_INDEX = 7,
    /* first: 5 to 8. */
    PALQYTUN_VERSION = 8,
    /* number: the status; rows: how many headers. Parts 0, 1, 2, ..: the key and the value of each in turn. */
    PALQYTUN_HEAD = 9,
    /* Part 0: whole frames. */
    PALQYTUN_OUTPUT = 10,
    /* number: the random seed; rows: how many headers. Parts: 0 the bytes, 1 the invocation's id, 2 its key, 3 its scope, 4 its limit
       key, 5 its idempotency key, each of the last three if it is there; 6, 7, 8, ..: the key and the value of each header in turn. */
    PALQYTUN_INPUT = 11,
    /* What is awaited is done. */
    PALQYTUN_AWAKE = 12,
    /* first: 1 if input is waited for; second: 1 if the result of a run is. */
    PALQYTUN_WAITING = 13,
    /* first: the handle of the run that is to be executed now. */
    PALQYTUN_EXECUTE_RUN = 14,
    PALQYTUN_CANCELLED = 15,
    /* Results. */
    PALQYTUN_VOID = 16,
    /* Part 0: the bytes. */
    PALQYTUN_VALUE = 17,
    /* number: the code; rows: how many pairs of metadata. Parts: 0 the message; 1, 2, 3, ..: the key and the value of each in turn. */
    PALQYTUN_FAILURE = 18,
    /* rows: how many keys. Part i: key i. */
    PALQYTUN_KEYS = 19,
    /* Part 0: the invocation's id. */
    PALQYTUN_INVOCATION_ID = 20,
    /* number: the code; first: 1 if it relates to a command; second: its index; third: the type of its message, a PALQYTUN_MESSAGE_.
       Parts: 0 the text, 1 the stack trace, 2 the command's name. */
    PALQYTUN_ERROR = 21,
    /* Errors by which no VM has failed, with the numbers and parts of an error. So no error that a handler reports is of these kinds. Of a
       VM that has failed each error is a PALQYTUN_ERROR.
       An await's: the invocation is suspended. */
    PALQYTUN_SUSPENDED = 22,
    /* A call that changes nothing found no memory, and may be made again: palqytun_head or palqytun_output. */
    PALQYTUN_OUT_OF_MEMORY = 23,
    /* palqytun_is_ready's: the handler has ended, or the invocation is suspended. */
    PALQYTUN_CLOSED = 24
};

/* The state of a VM: before the known entries are there, in replay, in processing, or closed. */
enum {
    PALQYTUN_STATE_WAITING_PRE_FLIGHT = 0,
    PALQYTUN_STATE_REPLAYING = 1,
    PALQYTUN_STATE_PROCESSING = 2,
    PALQYTUN_STATE_CLOSED = 3
};

/* The reply to a call: how it ended, what the reply is, the numbers in it, how many rows of parts it has, and the length of part 0,
   or 0 without one. */
typedef struct {
    uint32_t status;
    uint32_t kind;
    uint32_t first;
    uint32_t second;
    uint32_t third;
    uint64_t number;
    size_t rows;
    size_t len;
} palqytun_replied;

/* Writes a part of the last reply to the front of out, and returns how long it is. PALQYTUN_NO_ROOM: len is the length that it needs. */
palqytun_told palqytun_part(palqytun_vm *vm, size_t at, uint8_t *out, size_t out_len);

/* What is done after an error: a PALQYTUN_BEHAVIOR_, and the delay of the next try. All but the status is 0 if it isn't PALQYTUN_DONE. */
typedef struct {
    uint32_t status;
    uint32_t behavior;
    bool has_delay;
    uint64_t delay_millis;
} palqytun_retry;

/* What is done after the error that the last reply is. PALQYTUN_NO_PART: the last reply is no error. */
palqytun_retry palqytun_next_retry(palqytun_vm *vm);

/* Lends all bytes that wait to be sent, where palqytun_take_output copies them: they move out of the VM to a buffer of the session, and
   *output says where they lie and how many they are. They are whole frames in the VM's own layer. PALQYTUN_LAYERED: the session's peer speaks
   another one. They wait still, and palqytun_take_output gives them in that layer.

   Read them before the session's next palqytun_lend_output or its palqytun_close: each of the two ends the loan, and then there may be other
   bytes at that place, or no memory. The other calls leave the bytes as they are and where they are. A call returns at once, also while another
   thread reads what was lent: no status tells of that, so let a lock guard the loan too.

   If no byte waits, len is 0, and what was lent before isn't any more. The memory of more than 64 KiB is given back by the next
   palqytun_lend_output; else the next frames are written to it. No call of this takes memory. If the status isn't PALQYTUN_DONE, *output is
   NULL and 0, and what was lent before stays lent. */
uint32_t palqytun_lend_output(palqytun_vm *vm, palqytun_bytes *output);

/* Makes a VM, which replaces the session's last one, for the version that the content type names. The reply is that version, or the error
   that says why there is none. PALQYTUN_NO_MEMORY: a text could not be copied; or, if the reply is a PALQYTUN_ERROR, there was none for the VM. */
palqytun_replied palqytun_make(palqytun_vm *vm, palqytun_optional content_type, const palqytun_options *options);

/* About the attempt: whether the handler may be run (a flag, or PALQYTUN_CLOSED), the head of the response, that no more input comes, the bytes
   that wait to be sent (or PALQYTUN_LAYERED: the session's peer speaks another layer than the VM's own, and palqytun_take_output gives them in
   that), the state, and the index of the last command. */
palqytun_replied palqytun_is_ready(palqytun_vm *vm);
palqytun_replied palqytun_head(palqytun_vm *vm);
palqytun_replied palqytun_close_input(palqytun_vm *vm);
palqytun_replied palqytun_output(palqytun_vm *vm);
palqytun_replied palqytun_state(palqytun_vm *vm);
palqytun_replied palqytun_last_command_index(palqytun_vm *vm);

/* Writes the VM in a line for a log to the front of out, and returns how long it is: its version, the invocation's id once Start has come, its
   state, and the index of its last command, the Input being 0, as in "V7 abc Processing, last command 0" and "V8 WaitingPreFlight, no command".
   It has no line end, and no 0 after it, and no program is to read it. PALQYTUN_NO_ROOM: len is the length that it needs. PALQYTUN_NO_MEMORY: nothing
   was written. */
palqytun_told palqytun_describe(palqytun_vm *vm, uint8_t *out, size_t out_len);

/* The handler failed by an error of its own, which fails the VM; one that has failed keeps its first error. */
palqytun_replied palqytun_report_error(palqytun_vm *vm, const palqytun_error *error, const palqytun_command *related);

/* What the handler was called with; its first call. */
palqytun_replied palqytun_input(palqytun_vm *vm);

/* Awaits a handle, or a tree: awake, waiting, a run to execute, an ephemeral read, or cancelled. */
palqytun_replied palqytun_await(palqytun_vm *vm, uint32_t handle);
palqytun_replied palqytun_await_tree(palqytun_vm *vm, const palqytun_node *nodes, size_t nodes_len);

/* Takes the result of a handle; whether it has one (a flag). */
palqytun_replied palqytun_take(palqytun_vm *vm, uint32_t handle);
palqytun_replied palqytun_is_completed(palqytun_vm *vm, uint32_t handle);

palqytun_replied palqytun_sleep(palqytun_vm *vm, palqytun_bytes name, uint64_t wake_up_millis);

/* The state. unstable: replay doesn't compare the value. */
palqytun_replied palqytun_state_get(palqytun_vm *vm, palqytun_bytes key, palqytun_bytes name);
palqytun_replied palqytun_state_get_keys(palqytun_vm *vm, palqytun_bytes name);
palqytun_replied palqytun_state_set(palqytun_vm *vm, palqytun_bytes key, palqytun_bytes value, palqytun_bytes name, bool unstable);
palqytun_replied palqytun_state_clear(palqytun_vm *vm, palqytun_bytes key, palqytun_bytes name);
palqytun_replied palqytun_state_clear_all(palqytun_vm *vm, palqytun_bytes name);
palqytun_replied palqytun_ephemeral_state_get(palqytun_vm *vm, palqytun_bytes key);
palqytun_replied palqytun_take_ephemeral(palqytun_vm *vm, uint32_t id);

/* Other handlers. Times are in milliseconds since the Unix epoch; sent at 0 is sent at once. */
palqytun_replied palqytun_call(
    palqytun_vm *vm, const palqytun_target *target, palqytun_bytes input, palqytun_bytes name, bool unstable);
palqytun_replied palqytun_call_with_deadline(palqytun_vm *vm, const palqytun_target *target, palqytun_bytes input,
    uint64_t deadline_millis, palqytun_bytes name, bool unstable);
palqytun_replied palqytun_send(
    palqytun_vm *vm, const palqytun_target *target, palqytun_bytes input, uint64_t at_millis, palqytun_bytes name, bool unstable);
palqytun_replied palqytun_cancel_invocation(palqytun_vm *vm, palqytun_bytes invocation_id);

/* Attaches to an invocation, or looks whether it has an output. */
palqytun_replied palqytun_attach(palqytun_vm *vm, const palqytun_invocation *invocation);
palqytun_replied palqytun_get_output(palqytun_vm *vm, const palqytun_invocation *invocation);

/* Awakeables, signals and promises. */
palqytun_replied palqytun_awakeable(palqytun_vm *vm);
palqytun_replied palqytun_complete_awakeable(palqytun_vm *vm, palqytun_bytes id, const palqytun_value *value, bool unstable);
palqytun_replied palqytun_signal(palqytun_vm *vm, palqytun_bytes name);
palqytun_replied palqytun_complete_signal(
    palqytun_vm *vm, palqytun_bytes invocation_id, palqytun_bytes name, const palqytun_value *value);
palqytun_replied palqytun_get_promise(palqytun_vm *vm, palqytun_bytes key);
palqytun_replied palqytun_peek_promise(palqytun_vm *vm, palqytun_bytes key);
palqytun_replied palqytun_complete_promise(palqytun_vm *vm, palqytun_bytes key, const palqytun_value *value, bool unstable);

/* A run, and its result once it was executed; or the error of one that was executed for that many milliseconds and may be tried again. Of an
   error the policy says whether the invocation fails to be tried again, pauses, or has it as the run's result. */
palqytun_replied palqytun_run(palqytun_vm *vm, palqytun_bytes name);
palqytun_replied palqytun_propose(palqytun_vm *vm, uint32_t handle, const palqytun_value *value, const palqytun_policy *policy);
palqytun_replied palqytun_propose_retryable(
    palqytun_vm *vm, uint32_t handle, uint64_t duration_millis, const palqytun_error *error, const palqytun_policy *policy);

/* The handler's result, and its end. */
palqytun_replied palqytun_write_output(palqytun_vm *vm, const palqytun_value *value, bool unstable);
palqytun_replied palqytun_end(palqytun_vm *vm);

/* ---- A stored journal

   What the only writer of an invocation's journal has to know of it, without its entries: how many there are, and which completion ids
   they carry and complete. It says which bytes are to be appended, and refuses what may not be. A transaction calls it, writes the rows, and
   then calls palqytun_journal_keep once it is committed, or palqytun_journal_undo if it isn't. Each call takes time that grows with the
   logarithm of the journal's length, beside the bytes that it is given.

   For handles, pointers, memory and threads a palqytun_journal is as a palqytun_vm. Where a status says a fault, or PALQYTUN_NO_MEMORY, all that
   came since the last palqytun_journal_keep is taken back, as by palqytun_journal_undo, but where a call says else. */

/* A journal. Its handle is as that of a session. */
typedef struct palqytun_journal palqytun_journal;

/* How a call of a journal ended, beside PALQYTUN_DONE, PALQYTUN_NO_MEMORY and PALQYTUN_NO_ROOM. */
enum {
    /* The number names no version: it is PALQYTUN_BAD_NUMBER. Nothing was done. */
    PALQYTUN_BAD_VERSION = 8,
    /* The output isn't whole frames. */
    PALQYTUN_BAD_OUTPUT = 10,
    /* The faults. What arrives isn't one whole frame of a notification. */
    PALQYTUN_NOT_A_NOTIFICATION = 11,
    /* No stored command carries the completion id. */
    PALQYTUN_NO_SUCH_ID = 12,
    /* The id was completed before. */
    PALQYTUN_SECOND_COMPLETION = 13,
    /* The id of an invocation is completed by something else. */
    PALQYTUN_WRONG_KIND = 14,
    /* The result of a run arrives: it is proposed by the attempt that ran it. */
    PALQYTUN_RUN_IS_PROPOSED = 15,
    /* The journal has 4294967295 entries. */
    PALQYTUN_JOURNAL_FULL = 16,
    /* What is loaded can't stand there: the first entry is one whole frame of an input, each other one of a command or a notification. */
    PALQYTUN_BAD_JOURNAL = 17,
    /* There is no journal: the handle is NULL or was closed, or palqytun_journal_keep found no memory. */
    PALQYTUN_NO_JOURNAL = 22,
    /* The last store has no such row. */
    PALQYTUN_NO_ROW = 23
};

/* An entry: the type of its message, a PALQYTUN_MESSAGE_, the completion id that it completes, if it is a completion, and its length in bytes.
   All but the status is 0 if it isn't PALQYTUN_DONE. */
typedef struct {
    uint32_t status;
    uint32_t type;
    bool is_completion;
    uint32_t completes;
    size_t len;
} palqytun_row;

/* How a store ended, how many rows are to be appended, and how many bytes are to be fed. */
typedef struct {
    uint32_t status;
    size_t rows;
    size_t feed;
} palqytun_stored;

/* What a row asks of a runtime, which performs it in the transaction that stores the row. */
enum {
    /* Nothing: an input, a run, a completion, a read that the attempt itself completes, or an awakeable whose id names none. */
    PALQYTUN_EFFECT_NOTHING = 0,
    /* An invocation is to begin, or one that began with the same idempotency key is attached to. */
    PALQYTUN_EFFECT_BEGIN = 1,
    /* A completion id is to be completed at a time. */
    PALQYTUN_EFFECT_WAIT = 2,
    /* A signal goes to another invocation: one that was sent, or an awakeable's result. */
    PALQYTUN_EFFECT_SEND = 3,
    /* The invocation's result. */
    PALQYTUN_EFFECT_RESULT = 4,
    /* What the command says whose type the row has: on the state or a promise of the invocation's key, or on another invocation's result. */
    PALQYTUN_EFFECT_COMMAND = 5
};

/* What a row asks for: a PALQYTUN_EFFECT_ as its kind, and its numbers. All but the status is 0 if it isn't PALQYTUN_DONE.

   is_awaited     whether somebody waits for the result of the invocation that begins
   completes      the completion id that is completed by what comes of it: by the result of the invocation that begins, if it is awaited, by
                  the time, or by what the command reads
   id_completes   the completion id that is completed by the id of the invocation that begins
   target         by what the command names another invocation: a PALQYTUN_TARGET_
   time           when the invocation begins, or what is waited for, in milliseconds since the Unix epoch; one with 0 begins at once
   headers        how many headers the invocation begins with */
typedef struct {
    uint32_t status;
    uint32_t kind;
    bool is_awaited;
    uint32_t completes;
    uint32_t id_completes;
    uint32_t target;
    uint64_t time;
    size_t headers;
} palqytun_effect;

/* Makes a journal without entries, and writes its handle to journal. It is the caller's, who ends it by palqytun_journal_close.
   PALQYTUN_NO_MEMORY: there is none, and the handle is NULL. */
uint32_t palqytun_journal_open(palqytun_journal **journal);

/* Frees the journal, with all its memory, and ends its handle. PALQYTUN_NO_JOURNAL: it was closed before, or the handle is NULL.
   PALQYTUN_BUSY: it stays. */
uint32_t palqytun_journal_close(palqytun_journal *journal);

/* How many entries it has, as the length that is returned. */
palqytun_told palqytun_journal_entries(palqytun_journal *journal);

/* The next entry of a journal that is loaded. */
palqytun_row palqytun_journal_entry(palqytun_journal *journal, const uint8_t *entry, size_t entry_len);

/* A notification that arrives. It is the next entry: its bytes are to be appended as they are, and fed after the commit. */
palqytun_row palqytun_journal_arrive(palqytun_journal *journal, const uint8_t *entry, size_t entry_len);

/* Stores what an attempt wrote since the last store: whole frames, as palqytun_take_output gives them. The version is that of the VM, 5 to
   8. The rows are the commands, and a completion for each proposal; they stay until the next store, undo or fault. The replies to the
   proposals are to be fed after the commit. */
palqytun_stored palqytun_journal_store(palqytun_journal *journal, uint32_t version, const uint8_t *output, size_t output_len);

/* A row of the last store, and its bytes, which are written to the front of out. PALQYTUN_NO_ROOM: len is the length that they need.
   PALQYTUN_NO_MEMORY takes nothing back. */
palqytun_row palqytun_journal_row(palqytun_journal *journal, size_t at);
palqytun_told palqytun_journal_frame(palqytun_journal *journal, size_t at, uint8_t *out, size_t out_len);

/* What a row of the last store asks for. PALQYTUN_NOT_A_FRAME: its message can't be read. PALQYTUN_NO_MEMORY takes nothing back. */
palqytun_effect palqytun_journal_effect(palqytun_journal *journal, size_t at);

/* Writes a part of what a row of the last store asks for, a text or bytes, to the front of out, and returns how long it is. PALQYTUN_NO_PART: it
   has none there. PALQYTUN_NOT_A_FRAME: its message can't be read. PALQYTUN_NO_ROOM: len is the length that it needs. PALQYTUN_NO_MEMORY takes
   nothing back. The parts by their places:

   PALQYTUN_EFFECT_BEGIN      0 the parameter, 1 the service, 2 the handler, 3 the key, 4 the idempotency key; from 8 on the headers: a name,
                              its value, the next name ..
   PALQYTUN_EFFECT_SEND       0 the id of the invocation, 1 the frame of the notification that comes to it
   PALQYTUN_EFFECT_RESULT     1 the frame of a notification of completion 0 that has the result
   PALQYTUN_EFFECT_COMMAND    those of the command's frame (palqytun_frame_part) */
palqytun_told palqytun_journal_effect_part(palqytun_journal *journal, size_t at, size_t place, uint8_t *out, size_t out_len);

/* What is to be fed of the last store, at the front of out: whole frames. PALQYTUN_NO_ROOM: len is the length that they need. */
palqytun_told palqytun_journal_answer(palqytun_journal *journal, uint8_t *out, size_t out_len);

/* What came since the last of these calls is committed. PALQYTUN_NO_MEMORY: the journal is freed, and has to be loaded
   again into another; its handle is still to be closed. */
uint32_t palqytun_journal_keep(palqytun_journal *journal);

/* What came since the last commit isn't committed: the journal is again as it was then. */
uint32_t palqytun_journal_undo(palqytun_journal *journal);

/* ---- Frames

   What a runtime reads and writes beside a journal, by lines of text: docs/FRAMES.md has the line of each message. The calls need no
   session and no journal. PALQYTUN_NO_MEMORY: nothing was written; the call may be made again. */

/* How a call on frames ended, beside PALQYTUN_DONE, PALQYTUN_NO_MEMORY, PALQYTUN_NO_ROOM, PALQYTUN_BAD_TEXT and PALQYTUN_BAD_NUMBER. */
enum {
    /* What was given isn't one whole frame. */
    PALQYTUN_NOT_A_FRAME = 18,
    /* The line has no meaning. */
    PALQYTUN_BAD_LINE = 19,
    /* The frame has no result. */
    PALQYTUN_NO_RESULT = 20,
    /* The frame isn't one of a suspension. */
    PALQYTUN_NOT_A_SUSPENSION = 21,
    /* What was given aren't whole frames. */
    PALQYTUN_NOT_FRAMES = 24
};

/* What the id of a notification is. */
enum {
    PALQYTUN_COMPLETION = 0,
    PALQYTUN_SIGNAL = 1,
    PALQYTUN_NAMED_SIGNAL = 2
};

/* How a call ended, and whether a future is awake. */
typedef struct {
    uint32_t status;
    bool is_awake;
} palqytun_judged;

/* Writes the line of a frame to the front of out, and returns how long it is. It has no line end, and no 0 after it. PALQYTUN_NO_ROOM: len is
   the length that it needs. */
palqytun_told palqytun_frame_line(const uint8_t *frame, size_t frame_len, uint8_t *out, size_t out_len);

/* Writes the frame that a line shows to the front of out, and returns how long it is. PALQYTUN_BAD_TEXT: the line isn't UTF-8.
   PALQYTUN_NO_ROOM: len is the length that it needs. */
palqytun_told palqytun_line_frame(const uint8_t *line, size_t line_len, uint8_t *out, size_t out_len);

/* Writes the notification of an id, with the result that a frame has, to the front of out, and returns how long it is. The frame is an output,
   a notification, the proposal of a run, or the completion of an awakeable, of a signal or of a promise. The id is the number, or the name
   of a named signal. PALQYTUN_NO_ROOM: len is the length that it needs. */
palqytun_told palqytun_notification(uint32_t kind, uint32_t id, const uint8_t *name, size_t name_len, const uint8_t *frame, size_t frame_len,
    uint8_t *out, size_t out_len);

/* Whether the future of a suspension is awake by the notifications among some frames, of which the first of each id counts. */
palqytun_judged palqytun_is_awake(
    const uint8_t *suspension, size_t suspension_len, const uint8_t *notifications, size_t notifications_len);

/* ---- Frames without text

   What a frame says, as numbers and as parts, and frames that hold a value as it is given: a payload never becomes text. The calls need no
   session and no journal. PALQYTUN_NOT_A_FRAME: it isn't one whole frame whose message can be read. */

/* The type of a message (docs/WIRE.md). */
enum {
    PALQYTUN_MESSAGE_START = 1,
    PALQYTUN_MESSAGE_SUSPENSION = 2,
    PALQYTUN_MESSAGE_ERROR = 3,
    PALQYTUN_MESSAGE_END = 4,
    PALQYTUN_MESSAGE_PROPOSE_RUN_COMPLETION = 5,
    PALQYTUN_MESSAGE_PROPOSE_RUN_COMPLETION_ACK = 6,
    PALQYTUN_MESSAGE_AWAITING_ON = 7,
    PALQYTUN_MESSAGE_GET_STATE_EPHEMERAL_COMMAND = 8,
    PALQYTUN_MESSAGE_GET_STATE_EPHEMERAL_NOTIFICATION = 9,
    PALQYTUN_MESSAGE_INPUT_COMMAND = 10,
    PALQYTUN_MESSAGE_GET_EAGER_STATE_COMMAND = 11,
    PALQYTUN_MESSAGE_GET_LAZY_STATE_COMMAND = 12,
    PALQYTUN_MESSAGE_GET_EAGER_STATE_KEYS_COMMAND = 13,
    PALQYTUN_MESSAGE_GET_LAZY_STATE_KEYS_COMMAND = 14,
    PALQYTUN_MESSAGE_SET_STATE_COMMAND = 15,
    PALQYTUN_MESSAGE_CLEAR_STATE_COMMAND = 16,
    PALQYTUN_MESSAGE_CLEAR_ALL_STATE_COMMAND = 17,
    PALQYTUN_MESSAGE_SLEEP_COMMAND = 18,
    PALQYTUN_MESSAGE_CALL_COMMAND = 19,
    PALQYTUN_MESSAGE_ONE_WAY_CALL_COMMAND = 20,
    PALQYTUN_MESSAGE_COMPLETE_AWAKEABLE_COMMAND = 21,
    PALQYTUN_MESSAGE_SEND_SIGNAL_COMMAND = 22,
    PALQYTUN_MESSAGE_GET_PROMISE_COMMAND = 23,
    PALQYTUN_MESSAGE_PEEK_PROMISE_COMMAND = 24,
    PALQYTUN_MESSAGE_COMPLETE_PROMISE_COMMAND = 25,
    PALQYTUN_MESSAGE_RUN_COMMAND = 26,
    PALQYTUN_MESSAGE_ATTACH_INVOCATION_COMMAND = 27,
    PALQYTUN_MESSAGE_GET_INVOCATION_OUTPUT_COMMAND = 28,
    PALQYTUN_MESSAGE_OUTPUT_COMMAND = 29,
    PALQYTUN_MESSAGE_NOTIFICATION = 30
};

/* What the result of a frame is. */
enum {
    PALQYTUN_NO_RESULT_THERE = 0,
    PALQYTUN_RESULT_VOID = 1,
    PALQYTUN_RESULT_VALUE = 2,
    PALQYTUN_RESULT_FAILURE = 3,
    PALQYTUN_RESULT_KEYS = 4,
    PALQYTUN_RESULT_INVOCATION_ID = 5
};

/* What a frame says: the type of its message, a PALQYTUN_MESSAGE_, and its numbers. All but the status is 0 if it isn't PALQYTUN_DONE.

   kind     of a notification and a signal that is sent: a PALQYTUN_COMPLETION, PALQYTUN_SIGNAL or PALQYTUN_NAMED_SIGNAL; of
            AttachInvocation and GetInvocationOutput, what names the invocation: a PALQYTUN_TARGET_; of an error what comes of it: a
            PALQYTUN_BEHAVIOR_
   result   what its result is: a PALQYTUN_RESULT_, or PALQYTUN_NO_RESULT_THERE
   id       the completion id of a command, a proposal or a notification, the number of a signal, or the code of an error
   second   the completion id of a call's invocation id; the code of a failure; 1 if an error has a delay
   number   when a sleep ends, when a call begins, or an error's delay, in milliseconds
   rows     how many headers, pairs of a failure's metadata, or keys there are */
typedef struct {
    uint32_t status;
    uint32_t type;
    uint32_t kind;
    uint32_t result;
    uint32_t id;
    uint32_t second;
    uint64_t number;
    size_t rows;
} palqytun_frame_row;

palqytun_frame_row palqytun_frame_read(const uint8_t *frame, size_t frame_len);

/* Writes a part of a frame's message, a text or bytes, to the front of out, and returns how long it is. PALQYTUN_NO_PART: it has none there.
   PALQYTUN_NO_ROOM: len is the length that it needs. The parts by their places:

   Input, Call, OneWayCall        0 the value; of a call 1 the service, 2 the handler, 3 the key, 4 the idempotency key, 5 the scope, 6 the
                                  limit key, 7 the name; from 8 on the headers: a name, its value, the next name ..
   SetState                       0 the key, 1 the value
   GetLazyState, ClearState, GetPromise, PeekPromise, CompletePromise    0 the key
   Sleep, Run                     0 the name
   CompleteAwakeable              0 its id
   SendSignal                     0 the invocation's id, 1 the signal's name
   AttachInvocation, GetInvocationOutput    0 the invocation's id, or at the places of a call what it was called by
   Notification                   0 the name of a signal
   Error                          0 the text, 1 the stack trace
   a result                       8 the value or the id; of a failure its text, and from 9 on the metadata: a key, its value ..; from 8 on the
                                  keys */
palqytun_told palqytun_frame_part(const uint8_t *frame, size_t frame_len, size_t at, uint8_t *out, size_t out_len);

/* Writes the notification of completion 0 with this value to the front of out, and returns how long it is: a frame that has it as its result.
   PALQYTUN_NO_ROOM: len is the length that it needs. */
palqytun_told palqytun_value_frame(const uint8_t *value, size_t value_len, uint8_t *out, size_t out_len);

/* Writes the frame of an input, with this value instead of its own, to the front of out, and returns how long it is.
   PALQYTUN_NOT_A_FRAME: it isn't an input's frame. PALQYTUN_NO_ROOM: len is the length that it needs. */
palqytun_told palqytun_input_frame(
    const uint8_t *frame, size_t frame_len, const uint8_t *value, size_t value_len, uint8_t *out, size_t out_len);

/* Writes the name of the first field in which the command of a call isn't as the recorded one to the front of out, and returns how long it is.
   Both are whole frames: the recorded command, and the one that the call makes where nothing is recorded. The name is that of docs/FRAMES.md, or
   "type" if the two are of different types; ids come last. PALQYTUN_NO_PART: replay takes the two for one. If ignore_payloads, payloads aren't
   compared. PALQYTUN_NO_ROOM: len is the length that it needs. */
palqytun_told palqytun_difference(const uint8_t *recorded, size_t recorded_len, const uint8_t *asked, size_t asked_len, bool ignore_payloads,
    uint8_t *out, size_t out_len);

/* What is recorded, and what a call asks for: whether it is a command, and which, a PALQYTUN_COMMAND_. All but the status is 0 if it isn't
   PALQYTUN_DONE. is_lazy: the recorded command is a read of the state whose key Start hadn't. */
typedef struct {
    uint32_t status;
    bool is_recorded;
    uint32_t recorded;
    bool is_asked;
    uint32_t asked;
    bool is_lazy;
} palqytun_compared;

/* Compares the call that a VM has refused with the journal. fed is what the VM was fed before its handler began. index and type are those of the command
   to which the error relates, second and third of its reply. An error of an await relates to none: index is then one more than that of the last
   command, and type 0. PALQYTUN_NO_PART: there is no command on either side. PALQYTUN_BAD_NUMBER: the type is no command's. */
palqytun_compared palqytun_mismatch(const uint8_t *fed, size_t fed_len, uint32_t index, uint32_t type);

/* Writes in what the two differ to the front of out, and returns how long it is. Part 0 is the first field that differs, by its name in docs/FRAMES.md:
   "type" if the commands are of different types, or there is one alone. Part 1 is its recorded value, and part 2 that of the call, each as such a line
   has it, up to 120 characters, and of a type its name. PALQYTUN_NO_PART: a field is at its default, there is no such command, or no field is known to
   differ. asked is what the call writes where nothing is recorded: it is made again, with the same arguments, on a VM of the same version, over a Start
   and an Input alone; the state in Start is partial if is_lazy, and else empty. Without it only types are compared. If ignore_payloads, payloads aren't
   compared, as in the replay. PALQYTUN_NOT_A_FRAME: a command can't be read. PALQYTUN_NO_ROOM: len is the length that it needs. PALQYTUN_NO_MEMORY: nothing
   was written. */
palqytun_told palqytun_mismatch_part(const uint8_t *fed, size_t fed_len, uint32_t index, uint32_t type, const uint8_t *asked, size_t asked_len,
    bool ignore_payloads, size_t at, uint8_t *out, size_t out_len);

/* ---- What numbers say

   The texts are the library's own, and end with a 0. NULL: no status, or no code of the VM's own errors, has this number. */

/* The name of a status: "NO_MEMORY". */
const char *palqytun_status_name(uint32_t status);

/* What a status says: "no memory was found". */
const char *palqytun_status_text(uint32_t status);

/* The name of a code: "JOURNAL_MISMATCH". An error that a handler has reported may have the same code: it isn't the VM's own. */
const char *palqytun_code_name(uint32_t code);

/* ---- Which library this is */

/* The number of the library's interface: PALQYTUN_ABI of the header that it was built with. */
uint32_t palqytun_abi(void);

/* The version: "0.1.0". The text is the library's own, and ends with a 0. */
const char *palqytun_version(void);

/* The version, the commit, the sum of the kit's logic, and whether the library was proved: "0.1.0 commit 0123456789ab logic dac8208d650f15bf
   proved". A word that isn't known is "unknown". The text is the library's own, and ends with a 0. */
const char *palqytun_build(void);

/* Whether the library was built of sources that were proved. If not, it was made for a trial by `bindings/build --unproved`. */
bool palqytun_is_proved(void);

#ifdef __cplusplus
}
#endif

#endif
