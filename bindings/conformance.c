/* Plays the conformance suite through the typed calls: docs/CONFORMANCE.md has its form. It reads rows on standard input, a row a line, and
   prints 'ok ROW', or what differs and then 'not ok ROW'. Exit status 0: all rows fit. 1: one doesn't. 2: a row can't be read. */
#define _POSIX_C_SOURCE 200809L /* getline */
#include "palqytun.h"

#include <inttypes.h>
#include <json.h>
#include <stdio.h>
#include <stdlib.h>
#include <string.h>

typedef struct json_object json;

/* What is lent for a step: it is freed once the step is made. */
enum { MOST_LENT = 64, MOST_NODES = 256, MOST_PAIRS = 16 };
static void *lent[MOST_LENT];
static size_t lent_len;

static void fail(const char *why, const char *what)
{
    fprintf(stderr, "%s: %s\n", why, what);
    exit(2);
}

static void *lend(size_t len)
{
    void *made = malloc(len ? len : 1);
    if (!made || lent_len == MOST_LENT)
        fail("no room for an argument", "");
    return lent[lent_len++] = made;
}

static void end_of_loan(void)
{
    while (lent_len > 0)
        free(lent[--lent_len]);
}

/* ---- Arguments */

/* A field of an object, or NULL. */
static json *field(json *of, const char *name)
{
    json *found = NULL;
    return json_object_object_get_ex(of, name, &found) ? found : NULL;
}

static palqytun_bytes text_of(json *it)
{
    const char *at = it ? json_object_get_string(it) : "";
    return (palqytun_bytes){(const uint8_t *)at, it ? (size_t)json_object_get_string_len(it) : 0};
}

static palqytun_bytes text(json *of, const char *name)
{
    return text_of(field(of, name));
}

static palqytun_optional optional(json *of, const char *name)
{
    return (palqytun_optional){field(of, name) != NULL, text(of, name)};
}

static uint64_t number(json *of, const char *name)
{
    json *it = field(of, name);
    return it ? json_object_get_uint64(it) : 0;
}

static bool flag(json *of, const char *name)
{
    return json_object_get_boolean(field(of, name));
}

static bool is_word(json *of, const char *name, const char *word)
{
    json *it = field(of, name);
    return it && strcmp(json_object_get_string(it), word) == 0;
}

/* The place of a field's word among these, the last of which is NULL; the first if the field isn't there. */
static uint32_t place(json *of, const char *name, const char *const words[])
{
    if (!field(of, name))
        return 0;
    for (uint32_t at = 0; words[at]; at++)
        if (is_word(of, name, words[at]))
            return at;
    fail("no such word", name);
    return 0;
}

static int digit(char c)
{
    return c <= '9' ? c - '0' : c - 'a' + 10;
}

/* The bytes that stand in hex. */
static palqytun_bytes octets_of(palqytun_bytes hex)
{
    uint8_t *made = lend(hex.len / 2);
    for (size_t at = 0; at < hex.len / 2; at++)
        made[at] = (uint8_t)(digit((char)hex.at[2 * at]) << 4 | digit((char)hex.at[2 * at + 1]));
    return (palqytun_bytes){made, hex.len / 2};
}

/* The bytes that a field has in hex. */
static palqytun_bytes octets(json *of, const char *name)
{
    return octets_of(text(of, name));
}

/* Pairs of texts; their number is written too. */
static const palqytun_pair *pairs(json *of, const char *name, size_t *len)
{
    json *those = field(of, name);
    *len = those ? json_object_array_length(those) : 0;
    palqytun_pair *made = lend(sizeof *made * *len);
    for (size_t at = 0; at < *len; at++) {
        json *pair = json_object_array_get_idx(those, at);
        made[at].key = text_of(json_object_array_get_idx(pair, 0));
        made[at].value = text_of(json_object_array_get_idx(pair, 1));
    }
    return made;
}

static palqytun_value value(json *it)
{
    palqytun_value made = {0};
    json *failure = field(it, "failure");
    made.is_failure = failure != NULL;
    made.code = (uint16_t)number(failure, "code");
    made.bytes = failure ? text(failure, "message") : octets(it, "success");
    made.metadata = pairs(failure, "metadata", &made.metadata_len);
    return made;
}

static palqytun_target target(json *of)
{
    palqytun_target made = {text(of, "service"), text(of, "handler"), optional(of, "key"), optional(of, "idempotency_key"),
        optional(of, "scope"), optional(of, "limit_key"), NULL, 0};
    made.headers = pairs(of, "headers", &made.headers_len);
    return made;
}

static palqytun_invocation invocation(json *of)
{
    json *workflow = field(of, "workflow"), *idempotency = field(of, "idempotency");
    palqytun_invocation made = {0};
    json *it = workflow ? workflow : idempotency;
    made.kind = workflow ? 1 : idempotency ? 2 : 0;
    made.name = it ? text(it, workflow ? "name" : "service") : text(of, "invocation_id");
    made.key = text(it, workflow ? "key" : "idempotency_key");
    made.handler = text(it, "handler");
    made.service_key = optional(it, "service_key");
    made.scope = optional(it, "scope");
    return made;
}

static const char *const BEHAVIOURS[] = {"retry", "pause", "fail", NULL};

static palqytun_error error(json *of)
{
    return (palqytun_error){(uint16_t)number(of, "code"), place(of, "behaviour", BEHAVIOURS), text(of, "message"),
        text(of, "stacktrace"), field(of, "delay") != NULL, number(of, "delay")};
}

static const char *const COMMANDS[] = {"Input", "Output", "GetState", "GetStateKeys", "SetState", "ClearState", "ClearAllState",
    "GetPromise", "PeekPromise", "CompletePromise", "Sleep", "Call", "OneWayCall", "SendSignal", "Run", "AttachInvocation",
    "GetInvocationOutput", "CompleteAwakeable", "CancelInvocation", NULL};

static palqytun_command related(json *of)
{
    json *it = field(of, "related");
    palqytun_command made = {0};
    made.name = optional(it, "name");
    if (!it)
        return made;
    if (json_object_is_type(it, json_type_string))
        made.kind = 1;
    else {
        made.kind = is_word(it, "kind", "next") ? 2 : 3;
        made.index = (uint32_t)number(it, "index");
        made.type = place(it, "type", COMMANDS);
    }
    return made;
}

static const char *const POLICIES[] = {"infinite", "none", "fixed", "exp", NULL};

static palqytun_policy policy(json *of)
{
    json *it = field(of, "policy"), *factor = field(it, "factor");
    palqytun_policy made = {0};
    made.kind = it ? place(it, "kind", POLICIES) : 0;
    made.initial_millis = number(it, "initial");
    made.numerator = factor ? (uint32_t)json_object_get_uint64(json_object_array_get_idx(factor, 0)) : 0;
    made.denominator = factor ? (uint32_t)json_object_get_uint64(json_object_array_get_idx(factor, 1)) : 0;
    made.has_interval = field(it, "interval") != NULL;
    made.interval_millis = number(it, "interval");
    made.has_attempts = field(it, "attempts") != NULL;
    made.attempts = (uint32_t)number(it, "attempts");
    made.has_duration = field(it, "duration") != NULL;
    made.duration_millis = number(it, "duration");
    made.pauses = flag(it, "pause");
    return made;
}

static const char *const KINDS[] = {"", "first_completed", "all_completed", "first_succeeded_or_all_failed",
    "all_succeeded_or_first_failed", "unknown"};

/* Writes the nodes of a tree, each after those of its children. */
static void add_nodes(json *it, palqytun_node *nodes, size_t *len)
{
    palqytun_node made = {PALQYTUN_SINGLE, 0};
    if (json_object_is_type(it, json_type_object)) {
        for (uint32_t kind = PALQYTUN_FIRST_COMPLETED; kind <= PALQYTUN_UNKNOWN; kind++) {
            json *children = field(it, KINDS[kind]);
            if (!children)
                continue;
            made = (palqytun_node){kind, (uint32_t)json_object_array_length(children)};
            for (size_t at = 0; at < made.number; at++)
                add_nodes(json_object_array_get_idx(children, at), nodes, len);
        }
    } else
        made.number = (uint32_t)json_object_get_uint64(it);
    if (*len == MOST_NODES)
        fail("a tree has too many nodes", json_object_get_string(it));
    nodes[(*len)++] = made;
}

/* ---- Calls */

typedef palqytun_replied call_of(palqytun_vm *vm, json *step);

/* What the VM of a row was fed. */
static uint8_t fed[1 << 22];
static size_t fed_len;

static palqytun_replied make(palqytun_vm *vm, json *step)
{
    static const char *const cancel[] = {"calls", "none", "sends", "both", "off", NULL}, *const checks[] = {"on", "off", NULL};
    static const char *const awaiting[] = {"norun", "always", "never", NULL}, *const mismatch[] = {"follow", "pause", "fail", NULL};
    static const char *const replay[] = {"on", "off", NULL}, *const delivery[] = {"queued", "overwrite", NULL};
    json *those = field(step, "options");
    palqytun_options options = {place(those, "cancel", cancel), place(those, "checks", checks), place(those, "awaiting", awaiting),
        place(those, "mismatch", mismatch), place(those, "replay", replay), place(those, "delivery", delivery), number(those, "seed")};
    return palqytun_make(vm, optional(step, "content_type"), &options);
}

static palqytun_replied notify_input(palqytun_vm *vm, json *step)
{
    palqytun_bytes data = octets(step, "data");
    if (sizeof fed - fed_len < data.len)
        fail("a journal is too long", "");
    memcpy(fed + fed_len, data.at, data.len);
    fed_len += data.len;
    return (palqytun_replied){.status = palqytun_feed(vm, data.at, data.len)};
}

static palqytun_replied notify_error(palqytun_vm *vm, json *step)
{
    palqytun_error of = error(step);
    palqytun_command command = related(step);
    return palqytun_report_error(vm, &of, &command);
}

static palqytun_replied do_await(palqytun_vm *vm, json *step)
{
    json *future = field(step, "future");
    if (!json_object_is_type(future, json_type_object))
        return palqytun_await(vm, (uint32_t)number(step, "future"));
    palqytun_node nodes[MOST_NODES];
    size_t len = 0;
    add_nodes(future, nodes, &len);
    return palqytun_await_tree(vm, nodes, len);
}

static palqytun_replied propose(palqytun_vm *vm, json *step)
{
    uint32_t handle = (uint32_t)number(step, "handle");
    palqytun_policy under = policy(step);
    json *result = field(step, "result"), *retryable = field(result, "retryable");
    if (retryable) {
        palqytun_error of = error(retryable);
        return palqytun_propose_retryable(vm, handle, number(retryable, "duration"), &of, &under);
    }
    palqytun_value given = value(result);
    return palqytun_propose(vm, handle, &given, &under);
}

static palqytun_replied sys_call(palqytun_vm *vm, json *step)
{
    palqytun_target of = target(step);
    return palqytun_call(vm, &of, octets(step, "value"), text(step, "name"), flag(step, "unstable"));
}

static palqytun_replied sys_call_with_deadline(palqytun_vm *vm, json *step)
{
    palqytun_target of = target(step);
    return palqytun_call_with_deadline(
        vm, &of, octets(step, "value"), number(step, "wake_up_time"), text(step, "name"), flag(step, "unstable"));
}

static palqytun_replied sys_send(palqytun_vm *vm, json *step)
{
    palqytun_target of = target(step);
    return palqytun_send(vm, &of, octets(step, "value"), number(step, "at"), text(step, "name"), flag(step, "unstable"));
}

static palqytun_replied sys_state_set(palqytun_vm *vm, json *step)
{
    return palqytun_state_set(vm, text(step, "key"), octets(step, "value"), text(step, "name"), flag(step, "unstable"));
}

static palqytun_replied sys_complete_awakeable(palqytun_vm *vm, json *step)
{
    palqytun_value given = value(field(step, "value"));
    return palqytun_complete_awakeable(vm, text(step, "id"), &given, flag(step, "unstable"));
}

static palqytun_replied sys_complete_signal(palqytun_vm *vm, json *step)
{
    palqytun_value given = value(field(step, "value"));
    return palqytun_complete_signal(vm, text(step, "invocation_id"), text(step, "name"), &given);
}

static palqytun_replied sys_complete_promise(palqytun_vm *vm, json *step)
{
    palqytun_value given = value(field(step, "value"));
    return palqytun_complete_promise(vm, text(step, "key"), &given, flag(step, "unstable"));
}

static palqytun_replied sys_attach_invocation(palqytun_vm *vm, json *step)
{
    palqytun_invocation of = invocation(field(step, "target"));
    return palqytun_attach(vm, &of);
}

static palqytun_replied sys_get_invocation_output(palqytun_vm *vm, json *step)
{
    palqytun_invocation of = invocation(field(step, "target"));
    return palqytun_get_output(vm, &of);
}

static palqytun_replied sys_write_output(palqytun_vm *vm, json *step)
{
    palqytun_value given = value(field(step, "value"));
    return palqytun_write_output(vm, &given, flag(step, "unstable"));
}

/* A call with these arguments alone. */
#define PLAIN(NAME, CALL) \
    static palqytun_replied NAME(palqytun_vm *vm, json *step) \
    { \
        (void)step; \
        return CALL; \
    }
PLAIN(get_response_head, palqytun_head(vm))
PLAIN(notify_input_closed, palqytun_close_input(vm))
PLAIN(take_output, palqytun_output(vm))
PLAIN(is_ready_to_execute, palqytun_is_ready(vm))
PLAIN(is_completed, palqytun_is_completed(vm, (uint32_t)number(step, "handle")))
PLAIN(state, palqytun_state(vm))
PLAIN(last_command_index, palqytun_last_command_index(vm))
PLAIN(take_notification, palqytun_take(vm, (uint32_t)number(step, "handle")))
PLAIN(sys_input, palqytun_input(vm))
PLAIN(sys_sleep, palqytun_sleep(vm, text(step, "name"), number(step, "wake_up_time")))
PLAIN(sys_state_get, palqytun_state_get(vm, text(step, "key"), text(step, "name")))
PLAIN(sys_state_get_keys, palqytun_state_get_keys(vm, text(step, "name")))
PLAIN(ephemeral_state_get, palqytun_ephemeral_state_get(vm, text(step, "key")))
PLAIN(take_ephemeral_notification, palqytun_take_ephemeral(vm, (uint32_t)number(step, "id")))
PLAIN(sys_state_clear, palqytun_state_clear(vm, text(step, "key"), text(step, "name")))
PLAIN(sys_state_clear_all, palqytun_state_clear_all(vm, text(step, "name")))
PLAIN(sys_awakeable, palqytun_awakeable(vm))
PLAIN(create_signal_handle, palqytun_signal(vm, text(step, "name")))
PLAIN(sys_cancel_invocation, palqytun_cancel_invocation(vm, text(step, "invocation_id")))
PLAIN(sys_get_promise, palqytun_get_promise(vm, text(step, "key")))
PLAIN(sys_peek_promise, palqytun_peek_promise(vm, text(step, "key")))
PLAIN(sys_run, palqytun_run(vm, text(step, "name")))
PLAIN(sys_end, palqytun_end(vm))

static const struct {
    const char *name;
    call_of *call;
} CALLS[] = {{"new", make}, {"get_response_head", get_response_head}, {"notify_input", notify_input},
    {"notify_input_closed", notify_input_closed}, {"take_output", take_output}, {"is_ready_to_execute", is_ready_to_execute},
    {"is_completed", is_completed}, {"state", state}, {"last_command_index", last_command_index}, {"notify_error", notify_error},
    {"do_await", do_await}, {"take_notification", take_notification}, {"sys_input", sys_input}, {"sys_sleep", sys_sleep},
    {"sys_state_get", sys_state_get}, {"sys_state_get_keys", sys_state_get_keys}, {"ephemeral_state_get", ephemeral_state_get},
    {"take_ephemeral_notification", take_ephemeral_notification}, {"sys_state_set", sys_state_set},
    {"sys_state_clear", sys_state_clear}, {"sys_state_clear_all", sys_state_clear_all}, {"sys_call", sys_call},
    {"sys_call_with_deadline", sys_call_with_deadline}, {"sys_send", sys_send}, {"sys_awakeable", sys_awakeable},
    {"create_signal_handle", create_signal_handle}, {"sys_complete_awakeable", sys_complete_awakeable},
    {"sys_complete_signal", sys_complete_signal}, {"sys_cancel_invocation", sys_cancel_invocation},
    {"sys_get_promise", sys_get_promise}, {"sys_peek_promise", sys_peek_promise}, {"sys_complete_promise", sys_complete_promise},
    {"sys_run", sys_run}, {"propose_run_completion", propose}, {"sys_attach_invocation", sys_attach_invocation},
    {"sys_get_invocation_output", sys_get_invocation_output}, {"sys_write_output", sys_write_output}, {"sys_end", sys_end}};

/* ---- What a call returned, as the suite has it */

/* A part of the reply, or NULL; the caller frees it. */
static uint8_t *part(palqytun_vm *vm, size_t at, size_t *len)
{
    palqytun_told told = palqytun_part(vm, at, NULL, 0);
    if (told.status == PALQYTUN_NO_PART)
        return NULL;
    uint8_t *made = malloc(told.len + 1);
    if (!made)
        fail("no memory", "");
    told = palqytun_part(vm, at, made, told.len + 1);
    if (told.status != PALQYTUN_DONE)
        fail("a part can't be read", "");
    *len = told.len;
    return made;
}

static json *text_part(palqytun_vm *vm, size_t at)
{
    size_t len = 0;
    uint8_t *bytes = part(vm, at, &len);
    json *made = bytes ? json_object_new_string_len((const char *)bytes, (int)len) : NULL;
    free(bytes);
    return made;
}

static json *hex_part(palqytun_vm *vm, size_t at)
{
    size_t len = 0;
    uint8_t *bytes = part(vm, at, &len);
    char *hex = malloc(2 * len + 1);
    if (!hex)
        fail("no memory", "");
    hex[0] = 0;
    for (size_t place = 0; place < len; place++)
        sprintf(hex + 2 * place, "%02x", bytes[place]);
    json *made = json_object_new_string(hex);
    free(bytes);
    free(hex);
    return made;
}

static json *pairs_from(palqytun_vm *vm, size_t first, size_t rows)
{
    json *made = json_object_new_array();
    for (size_t at = 0; at < rows; at++) {
        json *pair = json_object_new_array();
        json_object_array_add(pair, text_part(vm, first + 2 * at));
        json_object_array_add(pair, text_part(vm, first + 2 * at + 1));
        json_object_array_add(made, pair);
    }
    return made;
}

/* A number, or a string of digits if not every reader of JSON has it whole. */
static json *exact(uint64_t it)
{
    char digits[24];
    if (it < UINT64_C(1) << 53)
        return json_object_new_uint64(it);
    snprintf(digits, sizeof digits, "%" PRIu64, it);
    return json_object_new_string(digits);
}

static json *one(const char *name, json *it)
{
    json *made = json_object_new_object();
    json_object_object_add(made, name, it);
    return made;
}

static json *handles(palqytun_replied it)
{
    json *first = json_object_new_uint64(it.first);
    if (it.second == 0)
        return first;
    json *made = json_object_new_array();
    json_object_array_add(made, first);
    json_object_array_add(made, json_object_new_uint64(it.second));
    if (it.third != 0)
        json_object_array_add(made, json_object_new_uint64(it.third));
    return made;
}

static json *failure(palqytun_vm *vm, palqytun_replied it)
{
    json *made = one("code", json_object_new_uint64(it.number));
    json_object_object_add(made, "message", text_part(vm, 0));
    json_object_object_add(made, "metadata", pairs_from(vm, 1, it.rows));
    return one("failure", made);
}

static json *keys(palqytun_vm *vm, palqytun_replied it)
{
    json *made = json_object_new_array();
    for (size_t at = 0; at < it.rows; at++)
        json_object_array_add(made, text_part(vm, at));
    return one("keys", made);
}

static json *input(palqytun_vm *vm, palqytun_replied it)
{
    static const char *const names[] = {"invocation_id", "key", "scope", "limit_key", "idempotency_key"};
    json *made = one("random_seed", exact(it.number));
    for (size_t at = 0; at < 5; at++)
        json_object_object_add(made, names[at], text_part(vm, at + 1));
    json_object_object_add(made, "headers", pairs_from(vm, 6, it.rows));
    json_object_object_add(made, "value", hex_part(vm, 0));
    return made;
}

/* The version is that of the VM, which a head doesn't say. */
static json *head(palqytun_vm *vm, palqytun_replied it, uint32_t version)
{
    json *made = one("status_code", json_object_new_uint64(it.number));
    json_object_object_add(made, "version", json_object_new_uint64(version));
    json_object_object_add(made, "headers", pairs_from(vm, 0, it.rows));
    return made;
}

static json *two(const char *one_name, json *one_of, const char *other_name, json *other)
{
    json *made = one(one_name, one_of);
    json_object_object_add(made, other_name, other);
    return made;
}

static json *result(palqytun_vm *vm, palqytun_replied it)
{
    switch (it.kind) {
    case PALQYTUN_VOID:
        return json_object_new_string("void");
    case PALQYTUN_VALUE:
        return one("success", hex_part(vm, 0));
    case PALQYTUN_FAILURE:
        return failure(vm, it);
    case PALQYTUN_KEYS:
        return keys(vm, it);
    case PALQYTUN_INVOCATION_ID:
        return one("invocation", text_part(vm, 0));
    default:
        return json_object_new_string("none");
    }
}

static json *awaited(palqytun_replied it)
{
    switch (it.kind) {
    case PALQYTUN_AWAKE:
        return json_object_new_string("any");
    case PALQYTUN_CANCELLED:
        return json_object_new_string("cancelled");
    case PALQYTUN_EXECUTE_RUN:
        return one("run", json_object_new_uint64(it.first));
    case PALQYTUN_EPHEMERAL:
        return one("ephemeral", json_object_new_uint64(it.first));
    default:
        return one("wait", two("input", json_object_new_boolean(it.first == 1), "run", json_object_new_boolean(it.second == 1)));
    }
}

static json *returned(palqytun_vm *vm, const char *call, palqytun_replied it, uint32_t version)
{
    static const char *const states[] = {"WaitingPreFlight", "Replaying", "Processing", "Closed"};
    if (strcmp(call, "do_await") == 0)
        return awaited(it);
    if (strncmp(call, "take_", 5) == 0 && it.kind != PALQYTUN_OUTPUT)
        return result(vm, it);
    switch (it.kind) {
    case PALQYTUN_HANDLE:
    case PALQYTUN_EPHEMERAL:
        return handles(it);
    case PALQYTUN_VERSION:
        return json_object_new_uint64(it.first);
    case PALQYTUN_AWAKEABLE:
        return two("handle", json_object_new_uint64(it.first), "id", text_part(vm, 0));
    case PALQYTUN_RUN:
        return two("handle", json_object_new_uint64(it.first), "replayed", json_object_new_boolean(it.second == 1));
    case PALQYTUN_FLAG:
        return json_object_new_boolean(it.first == 1);
    case PALQYTUN_STATE:
        return json_object_new_string(states[it.first]);
    case PALQYTUN_INDEX:
        return json_object_new_uint64(it.number);
    case PALQYTUN_HEAD:
        return head(vm, it, version);
    case PALQYTUN_OUTPUT:
        return hex_part(vm, 0);
    case PALQYTUN_INPUT:
        return input(vm, it);
    default:
        return strcmp(call, "last_command_index") == 0 ? json_object_new_int(-1) : NULL;
    }
}

/* ---- Rows */

/* Whether an output, in hex, is whole frames of these types. */
static bool are_frames(json *output, json *types)
{
    palqytun_bytes left = octets_of(text_of(output));
    size_t at = 0;
    for (; left.len >= 10; at++) {
        uint64_t len = 0;
        for (size_t place = 2; place < 10; place++)
            len = len << 8 | left.at[place];
        json *type = json_object_array_get_idx(types, at);
        if (!type || left.len - 10 < len || json_object_get_uint64(type) != (uint64_t)(left.at[0] << 8 | left.at[1]))
            return false;
        left.at += 10 + len;
        left.len -= 10 + len;
    }
    return left.len == 0 && at == json_object_array_length(types);
}

static call_of *call_named(const char *name)
{
    for (size_t at = 0; at < sizeof CALLS / sizeof *CALLS; at++)
        if (strcmp(CALLS[at].name, name) == 0)
            return CALLS[at].call;
    fail("no such call", name);
    return NULL;
}

/* ---- In what a call isn't as recorded */

enum { SHOWN = 128, OUTPUT = 1 << 21 };

static void feed_line(palqytun_vm *vm, const char *line)
{
    uint8_t frame[256];
    palqytun_told told = palqytun_line_frame((const uint8_t *)line, strlen(line), frame, sizeof frame);
    if (told.status != PALQYTUN_DONE || palqytun_feed(vm, frame, told.len) != PALQYTUN_DONE)
        fail("no frame", line);
}

/* What the call of a step writes on a new VM, over an input alone. */
static size_t made_again(json *step, uint32_t version, bool is_lazy, uint8_t *output)
{
    palqytun_vm *vm;
    char content_type[64];
    snprintf(content_type, sizeof content_type, "application/vnd.restate.invocation.v%" PRIu32, version);
    palqytun_optional asked = {true, {(const uint8_t *)content_type, strlen(content_type)}};
    palqytun_options options = {.awaiting = PALQYTUN_AWAITING_DONT_SEND};
    if (palqytun_open(&vm) != PALQYTUN_DONE || palqytun_make(vm, asked, &options).status != PALQYTUN_DONE)
        fail("no VM", "");
    feed_line(vm, is_lazy ? "Start id=\"-\" debug_id=\"-\" known_entries=1 partial=true" : "Start id=\"-\" debug_id=\"-\" known_entries=1");
    feed_line(vm, "Input");
    palqytun_input(vm);
    call_named(json_object_get_string(field(step, "call")))(vm, step);
    palqytun_told told = palqytun_take_output(vm, output, OUTPUT);
    palqytun_close(vm);
    return told.status == PALQYTUN_DONE ? told.len : 0;
}

/* In what the call of a step isn't as recorded, in words, by its error. */
static json *difference(palqytun_vm *vm, json *step, palqytun_replied it, uint32_t version)
{
    static uint8_t asked[OUTPUT];
    char parts[3][SHOWN] = {"", "nothing", "nothing"}, said[4 * SHOWN];
    uint32_t index = it.first ? it.second : (uint32_t)palqytun_last_command_index(vm).number + 1, type = it.first ? it.third : 0;
    palqytun_compared types = palqytun_mismatch(fed, fed_len, index, type);
    bool is_one = types.is_recorded && types.is_asked && types.recorded == types.asked, is_unstable = flag(step, "unstable");
    size_t len = is_one ? made_again(step, version, types.is_lazy, asked) : 0;
    for (size_t at = 0; at < 3; at++) {
        palqytun_told told = palqytun_mismatch_part(fed, fed_len, index, type, asked, len, is_unstable, at, (uint8_t *)parts[at], SHOWN - 1);
        if (told.status == PALQYTUN_DONE)
            parts[at][told.len] = 0;
    }
    if (is_one)
        snprintf(said, sizeof said, "command %" PRIu32 ", %s, is recorded with %s %s, and the call gives %s", index, COMMANDS[types.recorded], parts[0], parts[1],
            parts[2]);
    else if (!types.is_recorded)
        snprintf(said, sizeof said, "no command is recorded at %" PRIu32 ", and the call makes %s", index, parts[2]);
    else if (!types.is_asked)
        snprintf(said, sizeof said, "command %" PRIu32 " is recorded as %s, and the code awaits what hasn't come", index, parts[1]);
    else
        snprintf(said, sizeof said, "command %" PRIu32 " is recorded as %s, and the call makes %s", index, parts[1], parts[2]);
    return json_object_new_string(said);
}

/* What a step wants, if it isn't frames. */
static json *wanted_of(json *step)
{
    static const char *const names[] = {"returns", "error"};
    json *made = json_object_new_object();
    for (size_t at = 0; at < 2; at++)
        if (json_object_object_get_ex(step, names[at], NULL))
            json_object_object_add(made, names[at], json_object_get(field(step, names[at])));
    return made;
}

/* Makes the call of a step; whether what it returned is wanted. Says so if it isn't. */
static bool fits(palqytun_vm *vm, json *step, uint32_t *version)
{
    const char *name = json_object_get_string(field(step, "call"));
    palqytun_replied it = call_named(name)(vm, step);
    if (it.status != PALQYTUN_DONE && it.status != PALQYTUN_REFUSED) {
        printf("%s ended with status %" PRIu32 "\n", name, it.status);
        return false;
    }
    if (it.kind == PALQYTUN_VERSION)
        *version = it.first;
    json *found = it.status == PALQYTUN_REFUSED
        ? one("error", two("code", json_object_new_uint64(it.number), "message", text_part(vm, 0)))
        : one("returns", returned(vm, name, it, *version));
    if (it.status == PALQYTUN_REFUSED && field(field(step, "error"), "difference"))
        json_object_object_add(field(found, "error"), "difference", difference(vm, step, it, *version));
    json *types = field(step, "frames"), *wanted = wanted_of(step);
    bool is_so = types ? it.status == PALQYTUN_DONE && are_frames(field(found, "returns"), types) : json_object_equal(found, wanted);
    if (!is_so)
        printf("%s: %s, not %s\n", name, json_object_to_json_string(found), json_object_to_json_string(types ? types : wanted));
    json_object_put(found);
    json_object_put(wanted);
    return is_so;
}

static bool play(json *row)
{
    palqytun_vm *vm;
    uint32_t version = 0;
    bool is_well = true;
    if (palqytun_open(&vm) != PALQYTUN_DONE)
        fail("no memory", "");
    json *steps = field(row, "steps");
    fed_len = 0;
    for (size_t at = 0; at < json_object_array_length(steps); at++) {
        is_well = fits(vm, json_object_array_get_idx(steps, at), &version) && is_well;
        end_of_loan();
    }
    return palqytun_close(vm) == PALQYTUN_DONE && is_well;
}

int main(void)
{
    char *line = NULL;
    size_t room = 0;
    int status = 0;
    while (getline(&line, &room, stdin) > 0) {
        json *row = json_tokener_parse(line);
        if (!row)
            fail("not a row", line);
        bool is_well = play(row);
        printf("%s %s\n", is_well ? "ok" : "not ok", json_object_get_string(field(row, "row")));
        status = is_well ? status : 1;
        json_object_put(row);
    }
    free(line);
    return status;
}
