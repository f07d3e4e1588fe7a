/* The library's numbers, structs and functions, as this binding calls them. */
/* tools/header --write writes this file, from palqytun.h. */

#ifndef PALQYTUN_ABI_H
#define PALQYTUN_ABI_H

#include <stdbool.h>
#include <stddef.h>
#include <stdint.h>

enum {
    PALQYTUN_ABI = 1,
    PALQYTUN_STACK = 32768,
    PALQYTUN_DONE = 0,
    PALQYTUN_NO_MEMORY = 1,
    PALQYTUN_NO_SESSION = 2,
    PALQYTUN_NO_VM = 3,
    PALQYTUN_NO_ROOM = 4,
    PALQYTUN_REFUSED = 5,
    PALQYTUN_BAD_TEXT = 6,
    PALQYTUN_BAD_TREE = 7,
    PALQYTUN_BAD_NUMBER = 8,
    PALQYTUN_NO_PART = 9,
    PALQYTUN_BUSY = 25,
    PALQYTUN_BAD_HANDLE = 26,
    PALQYTUN_BAD_POINTER = 27,
    PALQYTUN_NO_FRAME = 28,
    PALQYTUN_LAYERED = 29,
    PALQYTUN_LAYER_OWN = 0,
    PALQYTUN_LAYER_SHORT = 1,
    PALQYTUN_LAYER_SHORT_V6 = 2,
    PALQYTUN_SINGLE = 0,
    PALQYTUN_FIRST_COMPLETED = 1,
    PALQYTUN_ALL_COMPLETED = 2,
    PALQYTUN_FIRST_SUCCEEDED_OR_ALL_FAILED = 3,
    PALQYTUN_ALL_SUCCEEDED_OR_FIRST_FAILED = 4,
    PALQYTUN_UNKNOWN = 5,
    PALQYTUN_MINIMUM_VERSION = 5,
    PALQYTUN_MAXIMUM_VERSION = 8,
    PALQYTUN_CANCEL_CALLS = 0,
    PALQYTUN_CANCEL_NOTHING = 1,
    PALQYTUN_CANCEL_SENDS = 2,
    PALQYTUN_CANCEL_CALLS_AND_SENDS = 3,
    PALQYTUN_CANCEL_DISABLED = 4,
    PALQYTUN_CANCEL_HANDLE = 1,
    PALQYTUN_CHECKS_ENABLED = 0,
    PALQYTUN_CHECKS_PAYLOAD_CHECKS_DISABLED = 1,
    PALQYTUN_AWAITING_DONT_SEND_WHEN_EXECUTING_RUN = 0,
    PALQYTUN_AWAITING_SEND_ALWAYS = 1,
    PALQYTUN_AWAITING_DONT_SEND = 2,
    PALQYTUN_MISMATCH_FOLLOW_RETRY_POLICY = 0,
    PALQYTUN_MISMATCH_PAUSE = 1,
    PALQYTUN_MISMATCH_FAIL_TERMINALLY = 2,
    PALQYTUN_REPLAY_ENABLED = 0,
    PALQYTUN_REPLAY_DISABLED = 1,
    PALQYTUN_DELIVERY_QUEUED = 0,
    PALQYTUN_DELIVERY_OVERWRITE = 1,
    PALQYTUN_BEHAVIOR_RETRY = 0,
    PALQYTUN_BEHAVIOR_PAUSE = 1,
    PALQYTUN_BEHAVIOR_FAIL = 2,
    PALQYTUN_CODE_BAD_REQUEST = 400,
    PALQYTUN_CODE_UNSUPPORTED_MEDIA_TYPE = 415,
    PALQYTUN_CODE_INTERNAL = 500,
    PALQYTUN_CODE_JOURNAL_MISMATCH = 570,
    PALQYTUN_CODE_PROTOCOL_VIOLATION = 571,
    PALQYTUN_CODE_UNSUPPORTED_FEATURE = 573,
    PALQYTUN_CODE_CLOSED = 598,
    PALQYTUN_CODE_SUSPENDED = 599,
    PALQYTUN_RELATED_TO_NONE = 0,
    PALQYTUN_RELATED_TO_LAST = 1,
    PALQYTUN_RELATED_TO_NEXT = 2,
    PALQYTUN_RELATED_TO_SPECIFIC = 3,
    PALQYTUN_COMMAND_INPUT = 0,
    PALQYTUN_COMMAND_OUTPUT = 1,
    PALQYTUN_COMMAND_GET_STATE = 2,
    PALQYTUN_COMMAND_GET_STATE_KEYS = 3,
    PALQYTUN_COMMAND_SET_STATE = 4,
    PALQYTUN_COMMAND_CLEAR_STATE = 5,
    PALQYTUN_COMMAND_CLEAR_ALL_STATE = 6,
    PALQYTUN_COMMAND_GET_PROMISE = 7,
    PALQYTUN_COMMAND_PEEK_PROMISE = 8,
    PALQYTUN_COMMAND_COMPLETE_PROMISE = 9,
    PALQYTUN_COMMAND_SLEEP = 10,
    PALQYTUN_COMMAND_CALL = 11,
    PALQYTUN_COMMAND_ONE_WAY_CALL = 12,
    PALQYTUN_COMMAND_SEND_SIGNAL = 13,
    PALQYTUN_COMMAND_RUN = 14,
    PALQYTUN_COMMAND_ATTACH_INVOCATION = 15,
    PALQYTUN_COMMAND_GET_INVOCATION_OUTPUT = 16,
    PALQYTUN_COMMAND_COMPLETE_AWAKEABLE = 17,
    PALQYTUN_COMMAND_CANCEL_INVOCATION = 18,
    PALQYTUN_TARGET_INVOCATION_ID = 0,
    PALQYTUN_TARGET_WORKFLOW_ID = 1,
    PALQYTUN_TARGET_IDEMPOTENCY_ID = 2,
    PALQYTUN_POLICY_INFINITE = 0,
    PALQYTUN_POLICY_NONE = 1,
    PALQYTUN_POLICY_FIXED_DELAY = 2,
    PALQYTUN_POLICY_EXPONENTIAL = 3,
    PALQYTUN_NOTHING = 0,
    PALQYTUN_HANDLE = 1,
    PALQYTUN_AWAKEABLE = 2,
    PALQYTUN_RUN = 3,
    PALQYTUN_EPHEMERAL = 4,
    PALQYTUN_FLAG = 5,
    PALQYTUN_STATE = 6,
    PALQYTUN_INDEX = 7,
    PALQYTUN_VERSION = 8,
    PALQYTUN_HEAD = 9,
    PALQYTUN_OUTPUT = 10,
    PALQYTUN_INPUT = 11,
    PALQYTUN_AWAKE = 12,
    PALQYTUN_WAITING = 13,
    PALQYTUN_EXECUTE_RUN = 14,
    PALQYTUN_CANCELLED = 15,
    PALQYTUN_VOID = 16,
    PALQYTUN_VALUE = 17,
    PALQYTUN_FAILURE = 18,
    PALQYTUN_KEYS = 19,
    PALQYTUN_INVOCATION_ID = 20,
    PALQYTUN_ERROR = 21,
    PALQYTUN_SUSPENDED = 22,
    PALQYTUN_OUT_OF_MEMORY = 23,
    PALQYTUN_CLOSED = 24,
    PALQYTUN_STATE_WAITING_PRE_FLIGHT = 0,
    PALQYTUN_STATE_REPLAYING = 1,
    PALQYTUN_STATE_PROCESSING = 2,
    PALQYTUN_STATE_CLOSED = 3,
    PALQYTUN_BAD_VERSION = 8,
    PALQYTUN_BAD_OUTPUT = 10,
    PALQYTUN_NOT_A_NOTIFICATION = 11,
    PALQYTUN_NO_SUCH_ID = 12,
    PALQYTUN_SECOND_COMPLETION = 13,
    PALQYTUN_WRONG_KIND = 14,
    PALQYTUN_RUN_IS_PROPOSED = 15,
    PALQYTUN_JOURNAL_FULL = 16,
    PALQYTUN_BAD_JOURNAL = 17,
    PALQYTUN_NO_JOURNAL = 22,
    PALQYTUN_NO_ROW = 23,
    PALQYTUN_EFFECT_NOTHING = 0,
    PALQYTUN_EFFECT_BEGIN = 1,
    PALQYTUN_EFFECT_WAIT = 2,
    PALQYTUN_EFFECT_SEND = 3,
    PALQYTUN_EFFECT_RESULT = 4,
    PALQYTUN_EFFECT_COMMAND = 5,
    PALQYTUN_NOT_A_FRAME = 18,
    PALQYTUN_BAD_LINE = 19,
    PALQYTUN_NO_RESULT = 20,
    PALQYTUN_NOT_A_SUSPENSION = 21,
    PALQYTUN_NOT_FRAMES = 24,
    PALQYTUN_COMPLETION = 0,
    PALQYTUN_SIGNAL = 1,
    PALQYTUN_NAMED_SIGNAL = 2,
    PALQYTUN_MESSAGE_START = 1,
    PALQYTUN_MESSAGE_SUSPENSION = 2,
    PALQYTUN_MESSAGE_ERROR = 3,
    PALQYTUN_MESSAGE_END = 4,
    PALQYTUN_MESSAGE_PROPOSE_RUN_COMPLETION = 5,
    PALQYTUN_MESSAGE_PROPOSE_RUN_COMPLETION_ACK = 6,
    PALQYTUN_MESSAGE_AWAITING_ON = 7,
    PALQYTUN_MESSAGE_GET_STATE_EPHEMERAL_COMMAND = 8,
    PALQYTUN_MESSAGE_GET_STATE_EPHEMERAL_NOTIFICATION = 9,
    PALQYTUN_MESSAGE_INPUT_COMMAND = 10,
    PALQYTUN_MESSAGE_GET_EAGER_STATE_COMMAND = 11,
    PALQYTUN_MESSAGE_GET_LAZY_STATE_COMMAND = 12,
    PALQYTUN_MESSAGE_GET_EAGER_STATE_KEYS_COMMAND = 13,
    PALQYTUN_MESSAGE_GET_LAZY_STATE_KEYS_COMMAND = 14,
    PALQYTUN_MESSAGE_SET_STATE_COMMAND = 15,
    PALQYTUN_MESSAGE_CLEAR_STATE_COMMAND = 16,
    PALQYTUN_MESSAGE_CLEAR_ALL_STATE_COMMAND = 17,
    PALQYTUN_MESSAGE_SLEEP_COMMAND = 18,
    PALQYTUN_MESSAGE_CALL_COMMAND = 19,
    PALQYTUN_MESSAGE_ONE_WAY_CALL_COMMAND = 20,
    PALQYTUN_MESSAGE_COMPLETE_AWAKEABLE_COMMAND = 21,
    PALQYTUN_MESSAGE_SEND_SIGNAL_COMMAND = 22,
    PALQYTUN_MESSAGE_GET_PROMISE_COMMAND = 23,
    PALQYTUN_MESSAGE_PEEK_PROMISE_COMMAND = 24,
    PALQYTUN_MESSAGE_COMPLETE_PROMISE_COMMAND = 25,
    PALQYTUN_MESSAGE_RUN_COMMAND = 26,
    PALQYTUN_MESSAGE_ATTACH_INVOCATION_COMMAND = 27,
    PALQYTUN_MESSAGE_GET_INVOCATION_OUTPUT_COMMAND = 28,
    PALQYTUN_MESSAGE_OUTPUT_COMMAND = 29,
    PALQYTUN_MESSAGE_NOTIFICATION = 30,
    PALQYTUN_NO_RESULT_THERE = 0,
    PALQYTUN_RESULT_VOID = 1,
    PALQYTUN_RESULT_VALUE = 2,
    PALQYTUN_RESULT_FAILURE = 3,
    PALQYTUN_RESULT_KEYS = 4,
    PALQYTUN_RESULT_INVOCATION_ID = 5,
};

typedef struct {
    uint32_t status;
    size_t len;
} palqytun_told;

typedef struct {
    const uint8_t *at;
    size_t len;
} palqytun_bytes;

typedef struct {
    bool is_given;
    palqytun_bytes bytes;
} palqytun_optional;

typedef struct {
    palqytun_bytes key;
    palqytun_bytes value;
} palqytun_pair;

typedef struct {
    bool is_failure;
    uint16_t code;
    palqytun_bytes bytes;
    const palqytun_pair *metadata;
    size_t metadata_len;
} palqytun_value;

typedef struct {
    palqytun_bytes service;
    palqytun_bytes handler;
    palqytun_optional key;
    palqytun_optional idempotency_key;
    palqytun_optional scope;
    palqytun_optional limit_key;
    const palqytun_pair *headers;
    size_t headers_len;
} palqytun_target;

typedef struct {
    uint32_t kind;
    uint32_t number;
} palqytun_node;

typedef struct {
    uint32_t cancellation;
    uint32_t checks;
    uint32_t awaiting;
    uint32_t mismatch;
    uint32_t replay;
    uint32_t delivery;
    uint64_t seed;
} palqytun_options;

typedef struct {
    uint16_t code;
    uint32_t behavior;
    palqytun_bytes message;
    palqytun_bytes stacktrace;
    bool has_delay;
    uint64_t delay_millis;
} palqytun_error;

typedef struct {
    uint32_t kind;
    uint32_t index;
    uint32_t type;
    palqytun_optional name;
} palqytun_command;

typedef struct {
    uint32_t kind;
    palqytun_bytes name;
    palqytun_bytes key;
    palqytun_bytes handler;
    palqytun_optional service_key;
    palqytun_optional scope;
} palqytun_invocation;

typedef struct {
    uint32_t kind;
    uint64_t initial_millis;
    uint32_t numerator;
    uint32_t denominator;
    bool has_interval;
    uint64_t interval_millis;
    bool has_attempts;
    uint32_t attempts;
    bool has_duration;
    uint64_t duration_millis;
    bool pauses;
} palqytun_policy;

typedef struct {
    uint32_t status;
    uint32_t kind;
    uint32_t first;
    uint32_t second;
    uint32_t third;
    uint64_t number;
    size_t rows;
    size_t len;
} palqytun_replied;

typedef struct {
    uint32_t status;
    uint32_t behavior;
    bool has_delay;
    uint64_t delay_millis;
} palqytun_retry;

typedef struct {
    uint32_t status;
    uint32_t type;
    bool is_completion;
    uint32_t completes;
    size_t len;
} palqytun_row;

typedef struct {
    uint32_t status;
    size_t rows;
    size_t feed;
} palqytun_stored;

typedef struct {
    uint32_t status;
    uint32_t kind;
    bool is_awaited;
    uint32_t completes;
    uint32_t id_completes;
    uint32_t target;
    uint64_t time;
    size_t headers;
} palqytun_effect;

typedef struct {
    uint32_t status;
    bool is_awake;
} palqytun_judged;

typedef struct {
    uint32_t status;
    uint32_t type;
    uint32_t kind;
    uint32_t result;
    uint32_t id;
    uint32_t second;
    uint64_t number;
    size_t rows;
} palqytun_frame_row;

typedef struct {
    uint32_t status;
    bool is_recorded;
    uint32_t recorded;
    bool is_asked;
    uint32_t asked;
    bool is_lazy;
} palqytun_compared;

/* Loads the library once: the file of this path; if it is NULL, the one that the environment variable PALQYTUN_LIBRARY names, or the one that the
   system finds by its name. If it can't, why stands in said. No function below is called before. Any thread may call it. */
bool pq_load(const char *path, char *said, size_t said_len);

uint32_t pq_open(uintptr_t *vm);
uint32_t pq_open_over(uintptr_t *vm, uint32_t layer);
uint32_t pq_line(uintptr_t vm, const uint8_t *line, size_t line_len, palqytun_told *returned);
uint32_t pq_answer(uintptr_t vm, uint8_t *out, size_t out_len, palqytun_told *returned);
uint32_t pq_feed(uintptr_t vm, const uint8_t *bytes, size_t bytes_len);
uint32_t pq_take_output(uintptr_t vm, uint8_t *out, size_t out_len, palqytun_told *returned);
uint32_t pq_close(uintptr_t vm);
uint32_t pq_part(uintptr_t vm, size_t at, uint8_t *out, size_t out_len, palqytun_told *returned);
uint32_t pq_next_retry(uintptr_t vm, palqytun_retry *returned);
uint32_t pq_lend_output(uintptr_t vm, palqytun_bytes *output);
uint32_t pq_make(uintptr_t vm, const uint8_t *content_type, size_t content_type_len, const palqytun_options *options, palqytun_replied *returned);
uint32_t pq_is_ready(uintptr_t vm, palqytun_replied *returned);
uint32_t pq_head(uintptr_t vm, palqytun_replied *returned);
uint32_t pq_close_input(uintptr_t vm, palqytun_replied *returned);
uint32_t pq_output(uintptr_t vm, palqytun_replied *returned);
uint32_t pq_state(uintptr_t vm, palqytun_replied *returned);
uint32_t pq_last_command_index(uintptr_t vm, palqytun_replied *returned);
uint32_t pq_describe(uintptr_t vm, uint8_t *out, size_t out_len, palqytun_told *returned);
uint32_t pq_report_error(uintptr_t vm, const palqytun_error *error, const palqytun_command *related, palqytun_replied *returned);
uint32_t pq_input(uintptr_t vm, palqytun_replied *returned);
uint32_t pq_await(uintptr_t vm, uint32_t handle, palqytun_replied *returned);
uint32_t pq_await_tree(uintptr_t vm, const palqytun_node *nodes, size_t nodes_len, palqytun_replied *returned);
uint32_t pq_take(uintptr_t vm, uint32_t handle, palqytun_replied *returned);
uint32_t pq_is_completed(uintptr_t vm, uint32_t handle, palqytun_replied *returned);
uint32_t pq_sleep(uintptr_t vm, const uint8_t *name, size_t name_len, uint64_t wake_up_millis, palqytun_replied *returned);
uint32_t pq_state_get(uintptr_t vm, const uint8_t *key, size_t key_len, const uint8_t *name, size_t name_len, palqytun_replied *returned);
uint32_t pq_state_get_keys(uintptr_t vm, const uint8_t *name, size_t name_len, palqytun_replied *returned);
uint32_t pq_state_set(uintptr_t vm, const uint8_t *key, size_t key_len, const uint8_t *value, size_t value_len, const uint8_t *name, size_t name_len, bool unstable, palqytun_replied *returned);
uint32_t pq_state_clear(uintptr_t vm, const uint8_t *key, size_t key_len, const uint8_t *name, size_t name_len, palqytun_replied *returned);
uint32_t pq_state_clear_all(uintptr_t vm, const uint8_t *name, size_t name_len, palqytun_replied *returned);
uint32_t pq_ephemeral_state_get(uintptr_t vm, const uint8_t *key, size_t key_len, palqytun_replied *returned);
uint32_t pq_take_ephemeral(uintptr_t vm, uint32_t id, palqytun_replied *returned);
uint32_t pq_call(uintptr_t vm, const palqytun_target *target, const uint8_t *input, size_t input_len, const uint8_t *name, size_t name_len, bool unstable, palqytun_replied *returned);
uint32_t pq_call_with_deadline(uintptr_t vm, const palqytun_target *target, const uint8_t *input, size_t input_len, uint64_t deadline_millis, const uint8_t *name, size_t name_len, bool unstable, palqytun_replied *returned);
uint32_t pq_send(uintptr_t vm, const palqytun_target *target, const uint8_t *input, size_t input_len, uint64_t at_millis, const uint8_t *name, size_t name_len, bool unstable, palqytun_replied *returned);
uint32_t pq_cancel_invocation(uintptr_t vm, const uint8_t *invocation_id, size_t invocation_id_len, palqytun_replied *returned);
uint32_t pq_attach(uintptr_t vm, const palqytun_invocation *invocation, palqytun_replied *returned);
uint32_t pq_get_output(uintptr_t vm, const palqytun_invocation *invocation, palqytun_replied *returned);
uint32_t pq_awakeable(uintptr_t vm, palqytun_replied *returned);
uint32_t pq_complete_awakeable(uintptr_t vm, const uint8_t *id, size_t id_len, const palqytun_value *value, bool unstable, palqytun_replied *returned);
uint32_t pq_signal(uintptr_t vm, const uint8_t *name, size_t name_len, palqytun_replied *returned);
uint32_t pq_complete_signal(uintptr_t vm, const uint8_t *invocation_id, size_t invocation_id_len, const uint8_t *name, size_t name_len, const palqytun_value *value, palqytun_replied *returned);
uint32_t pq_get_promise(uintptr_t vm, const uint8_t *key, size_t key_len, palqytun_replied *returned);
uint32_t pq_peek_promise(uintptr_t vm, const uint8_t *key, size_t key_len, palqytun_replied *returned);
uint32_t pq_complete_promise(uintptr_t vm, const uint8_t *key, size_t key_len, const palqytun_value *value, bool unstable, palqytun_replied *returned);
uint32_t pq_run(uintptr_t vm, const uint8_t *name, size_t name_len, palqytun_replied *returned);
uint32_t pq_propose(uintptr_t vm, uint32_t handle, const palqytun_value *value, const palqytun_policy *policy, palqytun_replied *returned);
uint32_t pq_propose_retryable(uintptr_t vm, uint32_t handle, uint64_t duration_millis, const palqytun_error *error, const palqytun_policy *policy, palqytun_replied *returned);
uint32_t pq_write_output(uintptr_t vm, const palqytun_value *value, bool unstable, palqytun_replied *returned);
uint32_t pq_end(uintptr_t vm, palqytun_replied *returned);
uint32_t pq_journal_open(uintptr_t *journal);
uint32_t pq_journal_close(uintptr_t journal);
uint32_t pq_journal_entries(uintptr_t journal, palqytun_told *returned);
uint32_t pq_journal_entry(uintptr_t journal, const uint8_t *entry, size_t entry_len, palqytun_row *returned);
uint32_t pq_journal_arrive(uintptr_t journal, const uint8_t *entry, size_t entry_len, palqytun_row *returned);
uint32_t pq_journal_store(uintptr_t journal, uint32_t version, const uint8_t *output, size_t output_len, palqytun_stored *returned);
uint32_t pq_journal_row(uintptr_t journal, size_t at, palqytun_row *returned);
uint32_t pq_journal_frame(uintptr_t journal, size_t at, uint8_t *out, size_t out_len, palqytun_told *returned);
uint32_t pq_journal_effect(uintptr_t journal, size_t at, palqytun_effect *returned);
uint32_t pq_journal_effect_part(uintptr_t journal, size_t at, size_t place, uint8_t *out, size_t out_len, palqytun_told *returned);
uint32_t pq_journal_answer(uintptr_t journal, uint8_t *out, size_t out_len, palqytun_told *returned);
uint32_t pq_journal_keep(uintptr_t journal);
uint32_t pq_journal_undo(uintptr_t journal);
uint32_t pq_frame_line(const uint8_t *frame, size_t frame_len, uint8_t *out, size_t out_len, palqytun_told *returned);
uint32_t pq_line_frame(const uint8_t *line, size_t line_len, uint8_t *out, size_t out_len, palqytun_told *returned);
uint32_t pq_notification(uint32_t kind, uint32_t id, const uint8_t *name, size_t name_len, const uint8_t *frame, size_t frame_len, uint8_t *out, size_t out_len, palqytun_told *returned);
uint32_t pq_is_awake(const uint8_t *suspension, size_t suspension_len, const uint8_t *notifications, size_t notifications_len, palqytun_judged *returned);
uint32_t pq_frame_read(const uint8_t *frame, size_t frame_len, palqytun_frame_row *returned);
uint32_t pq_frame_part(const uint8_t *frame, size_t frame_len, size_t at, uint8_t *out, size_t out_len, palqytun_told *returned);
uint32_t pq_value_frame(const uint8_t *value, size_t value_len, uint8_t *out, size_t out_len, palqytun_told *returned);
uint32_t pq_input_frame(const uint8_t *frame, size_t frame_len, const uint8_t *value, size_t value_len, uint8_t *out, size_t out_len, palqytun_told *returned);
uint32_t pq_difference(const uint8_t *recorded, size_t recorded_len, const uint8_t *asked, size_t asked_len, bool ignore_payloads, uint8_t *out, size_t out_len, palqytun_told *returned);
uint32_t pq_mismatch(const uint8_t *fed, size_t fed_len, uint32_t index, uint32_t type, palqytun_compared *returned);
uint32_t pq_mismatch_part(const uint8_t *fed, size_t fed_len, uint32_t index, uint32_t type, const uint8_t *asked, size_t asked_len, bool ignore_payloads, size_t at, uint8_t *out, size_t out_len, palqytun_told *returned);
const char *pq_status_name(uint32_t status);
const char *pq_status_text(uint32_t status);
const char *pq_code_name(uint32_t code);
uint32_t pq_abi(void);
const char *pq_version(void);
const char *pq_build(void);
bool pq_is_proved(void);

#endif
