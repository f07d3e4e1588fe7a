/* The functions of palqytun_abi.h, which are those of the library that was loaded. */
/* tools/header --write writes this file, from palqytun.h. */

#define _GNU_SOURCE
#include "palqytun_abi.h"

#include <dlfcn.h>
#include <pthread.h>
#include <stdio.h>
#include <stdlib.h>
#include <string.h>

static struct {
    uint32_t (*open)(void **);
    uint32_t (*open_over)(void **, uint32_t);
    uint32_t (*line)(void *, const uint8_t *, size_t, palqytun_told *);
    uint32_t (*answer)(void *, uint8_t *, size_t, palqytun_told *);
    uint32_t (*feed)(void *, const uint8_t *, size_t);
    uint32_t (*take_output)(void *, uint8_t *, size_t, palqytun_told *);
    uint32_t (*close)(void *);
    uint32_t (*part)(void *, size_t, uint8_t *, size_t, palqytun_told *);
    uint32_t (*next_retry)(void *, palqytun_retry *);
    uint32_t (*lend_output)(void *, palqytun_bytes *);
    uint32_t (*make)(void *, const uint8_t *, size_t, const palqytun_options *, palqytun_replied *);
    uint32_t (*is_ready)(void *, palqytun_replied *);
    uint32_t (*head)(void *, palqytun_replied *);
    uint32_t (*close_input)(void *, palqytun_replied *);
    uint32_t (*output)(void *, palqytun_replied *);
    uint32_t (*state)(void *, palqytun_replied *);
    uint32_t (*last_command_index)(void *, palqytun_replied *);
    uint32_t (*describe)(void *, uint8_t *, size_t, palqytun_told *);
    uint32_t (*report_error)(void *, const palqytun_error *, const palqytun_command *, palqytun_replied *);
    uint32_t (*input)(void *, palqytun_replied *);
    uint32_t (*await)(void *, uint32_t, palqytun_replied *);
    uint32_t (*await_tree)(void *, const palqytun_node *, size_t, palqytun_replied *);
    uint32_t (*take)(void *, uint32_t, palqytun_replied *);
    uint32_t (*is_completed)(void *, uint32_t, palqytun_replied *);
    uint32_t (*sleep)(void *, const uint8_t *, size_t, uint64_t, palqytun_replied *);
    uint32_t (*state_get)(void *, const uint8_t *, size_t, const uint8_t *, size_t, palqytun_replied *);
    uint32_t (*state_get_keys)(void *, const uint8_t *, size_t, palqytun_replied *);
    uint32_t (*state_set)(void *, const uint8_t *, size_t, const uint8_t *, size_t, const uint8_t *, size_t, bool, palqytun_replied *);
    uint32_t (*state_clear)(void *, const uint8_t *, size_t, const uint8_t *, size_t, palqytun_replied *);
    uint32_t (*state_clear_all)(void *, const uint8_t *, size_t, palqytun_replied *);
    uint32_t (*ephemeral_state_get)(void *, const uint8_t *, size_t, palqytun_replied *);
    uint32_t (*take_ephemeral)(void *, uint32_t, palqytun_replied *);
    uint32_t (*call)(void *, const palqytun_target *, const uint8_t *, size_t, const uint8_t *, size_t, bool, palqytun_replied *);
    uint32_t (*call_with_deadline)(void *, const palqytun_target *, const uint8_t *, size_t, uint64_t, const uint8_t *, size_t, bool, palqytun_replied *);
    uint32_t (*send)(void *, const palqytun_target *, const uint8_t *, size_t, uint64_t, const uint8_t *, size_t, bool, palqytun_replied *);
    uint32_t (*cancel_invocation)(void *, const uint8_t *, size_t, palqytun_replied *);
    uint32_t (*attach)(void *, const palqytun_invocation *, palqytun_replied *);
    uint32_t (*get_output)(void *, const palqytun_invocation *, palqytun_replied *);
    uint32_t (*awakeable)(void *, palqytun_replied *);
    uint32_t (*complete_awakeable)(void *, const uint8_t *, size_t, const palqytun_value *, bool, palqytun_replied *);
    uint32_t (*signal)(void *, const uint8_t *, size_t, palqytun_replied *);
    uint32_t (*complete_signal)(void *, const uint8_t *, size_t, const uint8_t *, size_t, const palqytun_value *, palqytun_replied *);
    uint32_t (*get_promise)(void *, const uint8_t *, size_t, palqytun_replied *);
    uint32_t (*peek_promise)(void *, const uint8_t *, size_t, palqytun_replied *);
    uint32_t (*complete_promise)(void *, const uint8_t *, size_t, const palqytun_value *, bool, palqytun_replied *);
    uint32_t (*run)(void *, const uint8_t *, size_t, palqytun_replied *);
    uint32_t (*propose)(void *, uint32_t, const palqytun_value *, const palqytun_policy *, palqytun_replied *);
    uint32_t (*propose_retryable)(void *, uint32_t, uint64_t, const palqytun_error *, const palqytun_policy *, palqytun_replied *);
    uint32_t (*write_output)(void *, const palqytun_value *, bool, palqytun_replied *);
    uint32_t (*end)(void *, palqytun_replied *);
    uint32_t (*journal_open)(void **);
    uint32_t (*journal_close)(void *);
    uint32_t (*journal_entries)(void *, palqytun_told *);
    uint32_t (*journal_entry)(void *, const uint8_t *, size_t, palqytun_row *);
    uint32_t (*journal_arrive)(void *, const uint8_t *, size_t, palqytun_row *);
    uint32_t (*journal_store)(void *, uint32_t, const uint8_t *, size_t, palqytun_stored *);
    uint32_t (*journal_row)(void *, size_t, palqytun_row *);
    uint32_t (*journal_frame)(void *, size_t, uint8_t *, size_t, palqytun_told *);
    uint32_t (*journal_effect)(void *, size_t, palqytun_effect *);
    uint32_t (*journal_effect_part)(void *, size_t, size_t, uint8_t *, size_t, palqytun_told *);
    uint32_t (*journal_answer)(void *, uint8_t *, size_t, palqytun_told *);
    uint32_t (*journal_keep)(void *);
    uint32_t (*journal_undo)(void *);
    uint32_t (*frame_line)(const uint8_t *, size_t, uint8_t *, size_t, palqytun_told *);
    uint32_t (*line_frame)(const uint8_t *, size_t, uint8_t *, size_t, palqytun_told *);
    uint32_t (*notification)(uint32_t, uint32_t, const uint8_t *, size_t, const uint8_t *, size_t, uint8_t *, size_t, palqytun_told *);
    uint32_t (*is_awake)(const uint8_t *, size_t, const uint8_t *, size_t, palqytun_judged *);
    uint32_t (*frame_read)(const uint8_t *, size_t, palqytun_frame_row *);
    uint32_t (*frame_part)(const uint8_t *, size_t, size_t, uint8_t *, size_t, palqytun_told *);
    uint32_t (*value_frame)(const uint8_t *, size_t, uint8_t *, size_t, palqytun_told *);
    uint32_t (*input_frame)(const uint8_t *, size_t, const uint8_t *, size_t, uint8_t *, size_t, palqytun_told *);
    uint32_t (*difference)(const uint8_t *, size_t, const uint8_t *, size_t, bool, uint8_t *, size_t, palqytun_told *);
    uint32_t (*mismatch)(const uint8_t *, size_t, uint32_t, uint32_t, palqytun_compared *);
    uint32_t (*mismatch_part)(const uint8_t *, size_t, uint32_t, uint32_t, const uint8_t *, size_t, bool, size_t, uint8_t *, size_t, palqytun_told *);
    const char * (*status_name)(uint32_t);
    const char * (*status_text)(uint32_t);
    const char * (*code_name)(uint32_t);
    uint32_t (*abi)(void);
    const char * (*version)(void);
    const char * (*build)(void);
    bool (*is_proved)(void);
} it;

static bool loads(void *object, const char **lacks)
{
    bool is_whole = true;
    if ((*(void **)&it.open = dlsym(object, "palqytun_open")) == NULL)
        is_whole = false, *lacks = "palqytun_open";
    if ((*(void **)&it.open_over = dlsym(object, "palqytun_open_over")) == NULL)
        is_whole = false, *lacks = "palqytun_open_over";
    if ((*(void **)&it.line = dlsym(object, "palqytun_flat_line")) == NULL)
        is_whole = false, *lacks = "palqytun_flat_line";
    if ((*(void **)&it.answer = dlsym(object, "palqytun_flat_answer")) == NULL)
        is_whole = false, *lacks = "palqytun_flat_answer";
    if ((*(void **)&it.feed = dlsym(object, "palqytun_feed")) == NULL)
        is_whole = false, *lacks = "palqytun_feed";
    if ((*(void **)&it.take_output = dlsym(object, "palqytun_flat_take_output")) == NULL)
        is_whole = false, *lacks = "palqytun_flat_take_output";
    if ((*(void **)&it.close = dlsym(object, "palqytun_close")) == NULL)
        is_whole = false, *lacks = "palqytun_close";
    if ((*(void **)&it.part = dlsym(object, "palqytun_flat_part")) == NULL)
        is_whole = false, *lacks = "palqytun_flat_part";
    if ((*(void **)&it.next_retry = dlsym(object, "palqytun_flat_next_retry")) == NULL)
        is_whole = false, *lacks = "palqytun_flat_next_retry";
    if ((*(void **)&it.lend_output = dlsym(object, "palqytun_lend_output")) == NULL)
        is_whole = false, *lacks = "palqytun_lend_output";
    if ((*(void **)&it.make = dlsym(object, "palqytun_flat_make")) == NULL)
        is_whole = false, *lacks = "palqytun_flat_make";
    if ((*(void **)&it.is_ready = dlsym(object, "palqytun_flat_is_ready")) == NULL)
        is_whole = false, *lacks = "palqytun_flat_is_ready";
    if ((*(void **)&it.head = dlsym(object, "palqytun_flat_head")) == NULL)
        is_whole = false, *lacks = "palqytun_flat_head";
    if ((*(void **)&it.close_input = dlsym(object, "palqytun_flat_close_input")) == NULL)
        is_whole = false, *lacks = "palqytun_flat_close_input";
    if ((*(void **)&it.output = dlsym(object, "palqytun_flat_output")) == NULL)
        is_whole = false, *lacks = "palqytun_flat_output";
    if ((*(void **)&it.state = dlsym(object, "palqytun_flat_state")) == NULL)
        is_whole = false, *lacks = "palqytun_flat_state";
    if ((*(void **)&it.last_command_index = dlsym(object, "palqytun_flat_last_command_index")) == NULL)
        is_whole = false, *lacks = "palqytun_flat_last_command_index";
    if ((*(void **)&it.describe = dlsym(object, "palqytun_flat_describe")) == NULL)
        is_whole = false, *lacks = "palqytun_flat_describe";
    if ((*(void **)&it.report_error = dlsym(object, "palqytun_flat_report_error")) == NULL)
        is_whole = false, *lacks = "palqytun_flat_report_error";
    if ((*(void **)&it.input = dlsym(object, "palqytun_flat_input")) == NULL)
        is_whole = false, *lacks = "palqytun_flat_input";
    if ((*(void **)&it.await = dlsym(object, "palqytun_flat_await")) == NULL)
        is_whole = false, *lacks = "palqytun_flat_await";
    if ((*(void **)&it.await_tree = dlsym(object, "palqytun_flat_await_tree")) == NULL)
        is_whole = false, *lacks = "palqytun_flat_await_tree";
    if ((*(void **)&it.take = dlsym(object, "palqytun_flat_take")) == NULL)
        is_whole = false, *lacks = "palqytun_flat_take";
    if ((*(void **)&it.is_completed = dlsym(object, "palqytun_flat_is_completed")) == NULL)
        is_whole = false, *lacks = "palqytun_flat_is_completed";
    if ((*(void **)&it.sleep = dlsym(object, "palqytun_flat_sleep")) == NULL)
        is_whole = false, *lacks = "palqytun_flat_sleep";
    if ((*(void **)&it.state_get = dlsym(object, "palqytun_flat_state_get")) == NULL)
        is_whole = false, *lacks = "palqytun_flat_state_get";
    if ((*(void **)&it.state_get_keys = dlsym(object, "palqytun_flat_state_get_keys")) == NULL)
        is_whole = false, *lacks = "palqytun_flat_state_get_keys";
    if ((*(void **)&it.state_set = dlsym(object, "palqytun_flat_state_set")) == NULL)
        is_whole = false, *lacks = "palqytun_flat_state_set";
    if ((*(void **)&it.state_clear = dlsym(object, "palqytun_flat_state_clear")) == NULL)
        is_whole = false, *lacks = "palqytun_flat_state_clear";
    if ((*(void **)&it.state_clear_all = dlsym(object, "palqytun_flat_state_clear_all")) == NULL)
        is_whole = false, *lacks = "palqytun_flat_state_clear_all";
    if ((*(void **)&it.ephemeral_state_get = dlsym(object, "palqytun_flat_ephemeral_state_get")) == NULL)
        is_whole = false, *lacks = "palqytun_flat_ephemeral_state_get";
    if ((*(void **)&it.take_ephemeral = dlsym(object, "palqytun_flat_take_ephemeral")) == NULL)
        is_whole = false, *lacks = "palqytun_flat_take_ephemeral";
    if ((*(void **)&it.call = dlsym(object, "palqytun_flat_call")) == NULL)
        is_whole = false, *lacks = "palqytun_flat_call";
    if ((*(void **)&it.call_with_deadline = dlsym(object, "palqytun_flat_call_with_deadline")) == NULL)
        is_whole = false, *lacks = "palqytun_flat_call_with_deadline";
    if ((*(void **)&it.send = dlsym(object, "palqytun_flat_send")) == NULL)
        is_whole = false, *lacks = "palqytun_flat_send";
    if ((*(void **)&it.cancel_invocation = dlsym(object, "palqytun_flat_cancel_invocation")) == NULL)
        is_whole = false, *lacks = "palqytun_flat_cancel_invocation";
    if ((*(void **)&it.attach = dlsym(object, "palqytun_flat_attach")) == NULL)
        is_whole = false, *lacks = "palqytun_flat_attach";
    if ((*(void **)&it.get_output = dlsym(object, "palqytun_flat_get_output")) == NULL)
        is_whole = false, *lacks = "palqytun_flat_get_output";
    if ((*(void **)&it.awakeable = dlsym(object, "palqytun_flat_awakeable")) == NULL)
        is_whole = false, *lacks = "palqytun_flat_awakeable";
    if ((*(void **)&it.complete_awakeable = dlsym(object, "palqytun_flat_complete_awakeable")) == NULL)
        is_whole = false, *lacks = "palqytun_flat_complete_awakeable";
    if ((*(void **)&it.signal = dlsym(object, "palqytun_flat_signal")) == NULL)
        is_whole = false, *lacks = "palqytun_flat_signal";
    if ((*(void **)&it.complete_signal = dlsym(object, "palqytun_flat_complete_signal")) == NULL)
        is_whole = false, *lacks = "palqytun_flat_complete_signal";
    if ((*(void **)&it.get_promise = dlsym(object, "palqytun_flat_get_promise")) == NULL)
        is_whole = false, *lacks = "palqytun_flat_get_promise";
    if ((*(void **)&it.peek_promise = dlsym(object, "palqytun_flat_peek_promise")) == NULL)
        is_whole = false, *lacks = "palqytun_flat_peek_promise";
    if ((*(void **)&it.complete_promise = dlsym(object, "palqytun_flat_complete_promise")) == NULL)
        is_whole = false, *lacks = "palqytun_flat_complete_promise";
    if ((*(void **)&it.run = dlsym(object, "palqytun_flat_run")) == NULL)
        is_whole = false, *lacks = "palqytun_flat_run";
    if ((*(void **)&it.propose = dlsym(object, "palqytun_flat_propose")) == NULL)
        is_whole = false, *lacks = "palqytun_flat_propose";
    if ((*(void **)&it.propose_retryable = dlsym(object, "palqytun_flat_propose_retryable")) == NULL)
        is_whole = false, *lacks = "palqytun_flat_propose_retryable";
    if ((*(void **)&it.write_output = dlsym(object, "palqytun_flat_write_output")) == NULL)
        is_whole = false, *lacks = "palqytun_flat_write_output";
    if ((*(void **)&it.end = dlsym(object, "palqytun_flat_end")) == NULL)
        is_whole = false, *lacks = "palqytun_flat_end";
    if ((*(void **)&it.journal_open = dlsym(object, "palqytun_journal_open")) == NULL)
        is_whole = false, *lacks = "palqytun_journal_open";
    if ((*(void **)&it.journal_close = dlsym(object, "palqytun_journal_close")) == NULL)
        is_whole = false, *lacks = "palqytun_journal_close";
    if ((*(void **)&it.journal_entries = dlsym(object, "palqytun_flat_journal_entries")) == NULL)
        is_whole = false, *lacks = "palqytun_flat_journal_entries";
    if ((*(void **)&it.journal_entry = dlsym(object, "palqytun_flat_journal_entry")) == NULL)
        is_whole = false, *lacks = "palqytun_flat_journal_entry";
    if ((*(void **)&it.journal_arrive = dlsym(object, "palqytun_flat_journal_arrive")) == NULL)
        is_whole = false, *lacks = "palqytun_flat_journal_arrive";
    if ((*(void **)&it.journal_store = dlsym(object, "palqytun_flat_journal_store")) == NULL)
        is_whole = false, *lacks = "palqytun_flat_journal_store";
    if ((*(void **)&it.journal_row = dlsym(object, "palqytun_flat_journal_row")) == NULL)
        is_whole = false, *lacks = "palqytun_flat_journal_row";
    if ((*(void **)&it.journal_frame = dlsym(object, "palqytun_flat_journal_frame")) == NULL)
        is_whole = false, *lacks = "palqytun_flat_journal_frame";
    if ((*(void **)&it.journal_effect = dlsym(object, "palqytun_flat_journal_effect")) == NULL)
        is_whole = false, *lacks = "palqytun_flat_journal_effect";
    if ((*(void **)&it.journal_effect_part = dlsym(object, "palqytun_flat_journal_effect_part")) == NULL)
        is_whole = false, *lacks = "palqytun_flat_journal_effect_part";
    if ((*(void **)&it.journal_answer = dlsym(object, "palqytun_flat_journal_answer")) == NULL)
        is_whole = false, *lacks = "palqytun_flat_journal_answer";
    if ((*(void **)&it.journal_keep = dlsym(object, "palqytun_journal_keep")) == NULL)
        is_whole = false, *lacks = "palqytun_journal_keep";
    if ((*(void **)&it.journal_undo = dlsym(object, "palqytun_journal_undo")) == NULL)
        is_whole = false, *lacks = "palqytun_journal_undo";
    if ((*(void **)&it.frame_line = dlsym(object, "palqytun_flat_frame_line")) == NULL)
        is_whole = false, *lacks = "palqytun_flat_frame_line";
    if ((*(void **)&it.line_frame = dlsym(object, "palqytun_flat_line_frame")) == NULL)
        is_whole = false, *lacks = "palqytun_flat_line_frame";
    if ((*(void **)&it.notification = dlsym(object, "palqytun_flat_notification")) == NULL)
        is_whole = false, *lacks = "palqytun_flat_notification";
    if ((*(void **)&it.is_awake = dlsym(object, "palqytun_flat_is_awake")) == NULL)
        is_whole = false, *lacks = "palqytun_flat_is_awake";
    if ((*(void **)&it.frame_read = dlsym(object, "palqytun_flat_frame_read")) == NULL)
        is_whole = false, *lacks = "palqytun_flat_frame_read";
    if ((*(void **)&it.frame_part = dlsym(object, "palqytun_flat_frame_part")) == NULL)
        is_whole = false, *lacks = "palqytun_flat_frame_part";
    if ((*(void **)&it.value_frame = dlsym(object, "palqytun_flat_value_frame")) == NULL)
        is_whole = false, *lacks = "palqytun_flat_value_frame";
    if ((*(void **)&it.input_frame = dlsym(object, "palqytun_flat_input_frame")) == NULL)
        is_whole = false, *lacks = "palqytun_flat_input_frame";
    if ((*(void **)&it.difference = dlsym(object, "palqytun_flat_difference")) == NULL)
        is_whole = false, *lacks = "palqytun_flat_difference";
    if ((*(void **)&it.mismatch = dlsym(object, "palqytun_flat_mismatch")) == NULL)
        is_whole = false, *lacks = "palqytun_flat_mismatch";
    if ((*(void **)&it.mismatch_part = dlsym(object, "palqytun_flat_mismatch_part")) == NULL)
        is_whole = false, *lacks = "palqytun_flat_mismatch_part";
    if ((*(void **)&it.status_name = dlsym(object, "palqytun_status_name")) == NULL)
        is_whole = false, *lacks = "palqytun_status_name";
    if ((*(void **)&it.status_text = dlsym(object, "palqytun_status_text")) == NULL)
        is_whole = false, *lacks = "palqytun_status_text";
    if ((*(void **)&it.code_name = dlsym(object, "palqytun_code_name")) == NULL)
        is_whole = false, *lacks = "palqytun_code_name";
    if ((*(void **)&it.abi = dlsym(object, "palqytun_abi")) == NULL)
        is_whole = false, *lacks = "palqytun_abi";
    if ((*(void **)&it.version = dlsym(object, "palqytun_version")) == NULL)
        is_whole = false, *lacks = "palqytun_version";
    if ((*(void **)&it.build = dlsym(object, "palqytun_build")) == NULL)
        is_whole = false, *lacks = "palqytun_build";
    if ((*(void **)&it.is_proved = dlsym(object, "palqytun_is_proved")) == NULL)
        is_whole = false, *lacks = "palqytun_is_proved";
    return is_whole;
}

/* Says why a library can't be used, and what to do. */
static bool refused(const char *path, const char *why, char *said, size_t said_len)
{
    size_t len = strlen(path);
    if (strncmp(why, path, len) == 0 && strncmp(why + len, ": ", 2) == 0)
        why += len + 2;
    snprintf(said, said_len, "%s: %s: ./bindings/build makes it, at the top of the repository, or, in some minutes and without a proof, ./bindings/build --unproved; PALQYTUN_LIBRARY may name another", path, why);
    return false;
}

static bool load(const char *path, char *said, size_t said_len)
{
    char why[128];
    void *object = dlopen(path, RTLD_NOW | RTLD_LOCAL);
    if (object == NULL)
        return refused(path, dlerror(), said, said_len);
    uint32_t (*abi)(void) = NULL;
    *(void **)&abi = dlsym(object, "palqytun_abi");
    if (abi == NULL)
        return refused(path, "its interface has no number, and this package wants 1", said, said_len);
    if (abi() != 1) {
        snprintf(why, sizeof why, "its interface has the number %u, and this package wants 1", (unsigned)abi());
        return refused(path, why, said, said_len);
    }
    const char *lacks = NULL;
    if (loads(object, &lacks))
        return true;
    snprintf(why, sizeof why, "it has no %s", lacks);
    return refused(path, why, said, said_len);
}

static pthread_mutex_t guard = PTHREAD_MUTEX_INITIALIZER;
static bool is_loaded;

bool pq_load(const char *path, char *said, size_t said_len)
{
    pthread_mutex_lock(&guard);
    if (path == NULL || *path == 0)
        path = getenv("PALQYTUN_LIBRARY");
    if (path == NULL || *path == 0)
        path = "libpalqytun.so.1";
    is_loaded = is_loaded || load(path, said, said_len);
    bool is_well = is_loaded;
    pthread_mutex_unlock(&guard);
    return is_well;
}

uint32_t pq_open(uintptr_t *vm)
{
    return it.open((void **)vm);
}

uint32_t pq_open_over(uintptr_t *vm, uint32_t layer)
{
    return it.open_over((void **)vm, layer);
}

uint32_t pq_line(uintptr_t vm, const uint8_t *line, size_t line_len, palqytun_told *returned)
{
    return it.line((void *)vm, line, line_len, returned);
}

uint32_t pq_answer(uintptr_t vm, uint8_t *out, size_t out_len, palqytun_told *returned)
{
    return it.answer((void *)vm, out, out_len, returned);
}

uint32_t pq_feed(uintptr_t vm, const uint8_t *bytes, size_t bytes_len)
{
    return it.feed((void *)vm, bytes, bytes_len);
}

uint32_t pq_take_output(uintptr_t vm, uint8_t *out, size_t out_len, palqytun_told *returned)
{
    return it.take_output((void *)vm, out, out_len, returned);
}

uint32_t pq_close(uintptr_t vm)
{
    return it.close((void *)vm);
}

uint32_t pq_part(uintptr_t vm, size_t at, uint8_t *out, size_t out_len, palqytun_told *returned)
{
    return it.part((void *)vm, at, out, out_len, returned);
}

uint32_t pq_next_retry(uintptr_t vm, palqytun_retry *returned)
{
    return it.next_retry((void *)vm, returned);
}

uint32_t pq_lend_output(uintptr_t vm, palqytun_bytes *output)
{
    return it.lend_output((void *)vm, output);
}

uint32_t pq_make(uintptr_t vm, const uint8_t *content_type, size_t content_type_len, const palqytun_options *options, palqytun_replied *returned)
{
    return it.make((void *)vm, content_type, content_type_len, options, returned);
}

uint32_t pq_is_ready(uintptr_t vm, palqytun_replied *returned)
{
    return it.is_ready((void *)vm, returned);
}

uint32_t pq_head(uintptr_t vm, palqytun_replied *returned)
{
    return it.head((void *)vm, returned);
}

uint32_t pq_close_input(uintptr_t vm, palqytun_replied *returned)
{
    return it.close_input((void *)vm, returned);
}

uint32_t pq_output(uintptr_t vm, palqytun_replied *returned)
{
    return it.output((void *)vm, returned);
}

uint32_t pq_state(uintptr_t vm, palqytun_replied *returned)
{
    return it.state((void *)vm, returned);
}

uint32_t pq_last_command_index(uintptr_t vm, palqytun_replied *returned)
{
    return it.last_command_index((void *)vm, returned);
}

uint32_t pq_describe(uintptr_t vm, uint8_t *out, size_t out_len, palqytun_told *returned)
{
    return it.describe((void *)vm, out, out_len, returned);
}

uint32_t pq_report_error(uintptr_t vm, const palqytun_error *error, const palqytun_command *related, palqytun_replied *returned)
{
    return it.report_error((void *)vm, error, related, returned);
}

uint32_t pq_input(uintptr_t vm, palqytun_replied *returned)
{
    return it.input((void *)vm, returned);
}

uint32_t pq_await(uintptr_t vm, uint32_t handle, palqytun_replied *returned)
{
    return it.await((void *)vm, handle, returned);
}

uint32_t pq_await_tree(uintptr_t vm, const palqytun_node *nodes, size_t nodes_len, palqytun_replied *returned)
{
    return it.await_tree((void *)vm, nodes, nodes_len, returned);
}

uint32_t pq_take(uintptr_t vm, uint32_t handle, palqytun_replied *returned)
{
    return it.take((void *)vm, handle, returned);
}

uint32_t pq_is_completed(uintptr_t vm, uint32_t handle, palqytun_replied *returned)
{
    return it.is_completed((void *)vm, handle, returned);
}

uint32_t pq_sleep(uintptr_t vm, const uint8_t *name, size_t name_len, uint64_t wake_up_millis, palqytun_replied *returned)
{
    return it.sleep((void *)vm, name, name_len, wake_up_millis, returned);
}

uint32_t pq_state_get(uintptr_t vm, const uint8_t *key, size_t key_len, const uint8_t *name, size_t name_len, palqytun_replied *returned)
{
    return it.state_get((void *)vm, key, key_len, name, name_len, returned);
}

uint32_t pq_state_get_keys(uintptr_t vm, const uint8_t *name, size_t name_len, palqytun_replied *returned)
{
    return it.state_get_keys((void *)vm, name, name_len, returned);
}

uint32_t pq_state_set(uintptr_t vm, const uint8_t *key, size_t key_len, const uint8_t *value, size_t value_len, const uint8_t *name, size_t name_len, bool unstable, palqytun_replied *returned)
{
    return it.state_set((void *)vm, key, key_len, value, value_len, name, name_len, unstable, returned);
}

uint32_t pq_state_clear(uintptr_t vm, const uint8_t *key, size_t key_len, const uint8_t *name, size_t name_len, palqytun_replied *returned)
{
    return it.state_clear((void *)vm, key, key_len, name, name_len, returned);
}

uint32_t pq_state_clear_all(uintptr_t vm, const uint8_t *name, size_t name_len, palqytun_replied *returned)
{
    return it.state_clear_all((void *)vm, name, name_len, returned);
}

uint32_t pq_ephemeral_state_get(uintptr_t vm, const uint8_t *key, size_t key_len, palqytun_replied *returned)
{
    return it.ephemeral_state_get((void *)vm, key, key_len, returned);
}

uint32_t pq_take_ephemeral(uintptr_t vm, uint32_t id, palqytun_replied *returned)
{
    return it.take_ephemeral((void *)vm, id, returned);
}

uint32_t pq_call(uintptr_t vm, const palqytun_target *target, const uint8_t *input, size_t input_len, const uint8_t *name, size_t name_len, bool unstable, palqytun_replied *returned)
{
    return it.call((void *)vm, target, input, input_len, name, name_len, unstable, returned);
}

uint32_t pq_call_with_deadline(uintptr_t vm, const palqytun_target *target, const uint8_t *input, size_t input_len, uint64_t deadline_millis, const uint8_t *name, size_t name_len, bool unstable, palqytun_replied *returned)
{
    return it.call_with_deadline((void *)vm, target, input, input_len, deadline_millis, name, name_len, unstable, returned);
}

uint32_t pq_send(uintptr_t vm, const palqytun_target *target, const uint8_t *input, size_t input_len, uint64_t at_millis, const uint8_t *name, size_t name_len, bool unstable, palqytun_replied *returned)
{
    return it.send((void *)vm, target, input, input_len, at_millis, name, name_len, unstable, returned);
}

uint32_t pq_cancel_invocation(uintptr_t vm, const uint8_t *invocation_id, size_t invocation_id_len, palqytun_replied *returned)
{
    return it.cancel_invocation((void *)vm, invocation_id, invocation_id_len, returned);
}

uint32_t pq_attach(uintptr_t vm, const palqytun_invocation *invocation, palqytun_replied *returned)
{
    return it.attach((void *)vm, invocation, returned);
}

uint32_t pq_get_output(uintptr_t vm, const palqytun_invocation *invocation, palqytun_replied *returned)
{
    return it.get_output((void *)vm, invocation, returned);
}

uint32_t pq_awakeable(uintptr_t vm, palqytun_replied *returned)
{
    return it.awakeable((void *)vm, returned);
}

uint32_t pq_complete_awakeable(uintptr_t vm, const uint8_t *id, size_t id_len, const palqytun_value *value, bool unstable, palqytun_replied *returned)
{
    return it.complete_awakeable((void *)vm, id, id_len, value, unstable, returned);
}

uint32_t pq_signal(uintptr_t vm, const uint8_t *name, size_t name_len, palqytun_replied *returned)
{
    return it.signal((void *)vm, name, name_len, returned);
}

uint32_t pq_complete_signal(uintptr_t vm, const uint8_t *invocation_id, size_t invocation_id_len, const uint8_t *name, size_t name_len, const palqytun_value *value, palqytun_replied *returned)
{
    return it.complete_signal((void *)vm, invocation_id, invocation_id_len, name, name_len, value, returned);
}

uint32_t pq_get_promise(uintptr_t vm, const uint8_t *key, size_t key_len, palqytun_replied *returned)
{
    return it.get_promise((void *)vm, key, key_len, returned);
}

uint32_t pq_peek_promise(uintptr_t vm, const uint8_t *key, size_t key_len, palqytun_replied *returned)
{
    return it.peek_promise((void *)vm, key, key_len, returned);
}

uint32_t pq_complete_promise(uintptr_t vm, const uint8_t *key, size_t key_len, const palqytun_value *value, bool unstable, palqytun_replied *returned)
{
    return it.complete_promise((void *)vm, key, key_len, value, unstable, returned);
}

uint32_t pq_run(uintptr_t vm, const uint8_t *name, size_t name_len, palqytun_replied *returned)
{
    return it.run((void *)vm, name, name_len, returned);
}

uint32_t pq_propose(uintptr_t vm, uint32_t handle, const palqytun_value *value, const palqytun_policy *policy, palqytun_replied *returned)
{
    return it.propose((void *)vm, handle, value, policy, returned);
}

uint32_t pq_propose_retryable(uintptr_t vm, uint32_t handle, uint64_t duration_millis, const palqytun_error *error, const palqytun_policy *policy, palqytun_replied *returned)
{
    return it.propose_retryable((void *)vm, handle, duration_millis, error, policy, returned);
}

uint32_t pq_write_output(uintptr_t vm, const palqytun_value *value, bool unstable, palqytun_replied *returned)
{
    return it.write_output((void *)vm, value, unstable, returned);
}

uint32_t pq_end(uintptr_t vm, palqytun_replied *returned)
{
    return it.end((void *)vm, returned);
}

uint32_t pq_journal_open(uintptr_t *journal)
{
    return it.journal_open((void **)journal);
}

uint32_t pq_journal_close(uintptr_t journal)
{
    return it.journal_close((void *)journal);
}

uint32_t pq_journal_entries(uintptr_t journal, palqytun_told *returned)
{
    return it.journal_entries((void *)journal, returned);
}

uint32_t pq_journal_entry(uintptr_t journal, const uint8_t *entry, size_t entry_len, palqytun_row *returned)
{
    return it.journal_entry((void *)journal, entry, entry_len, returned);
}

uint32_t pq_journal_arrive(uintptr_t journal, const uint8_t *entry, size_t entry_len, palqytun_row *returned)
{
    return it.journal_arrive((void *)journal, entry, entry_len, returned);
}

uint32_t pq_journal_store(uintptr_t journal, uint32_t version, const uint8_t *output, size_t output_len, palqytun_stored *returned)
{
    return it.journal_store((void *)journal, version, output, output_len, returned);
}

uint32_t pq_journal_row(uintptr_t journal, size_t at, palqytun_row *returned)
{
    return it.journal_row((void *)journal, at, returned);
}

uint32_t pq_journal_frame(uintptr_t journal, size_t at, uint8_t *out, size_t out_len, palqytun_told *returned)
{
    return it.journal_frame((void *)journal, at, out, out_len, returned);
}

uint32_t pq_journal_effect(uintptr_t journal, size_t at, palqytun_effect *returned)
{
    return it.journal_effect((void *)journal, at, returned);
}

uint32_t pq_journal_effect_part(uintptr_t journal, size_t at, size_t place, uint8_t *out, size_t out_len, palqytun_told *returned)
{
    return it.journal_effect_part((void *)journal, at, place, out, out_len, returned);
}

uint32_t pq_journal_answer(uintptr_t journal, uint8_t *out, size_t out_len, palqytun_told *returned)
{
    return it.journal_answer((void *)journal, out, out_len, returned);
}

uint32_t pq_journal_keep(uintptr_t journal)
{
    return it.journal_keep((void *)journal);
}

uint32_t pq_journal_undo(uintptr_t journal)
{
    return it.journal_undo((void *)journal);
}

uint32_t pq_frame_line(const uint8_t *frame, size_t frame_len, uint8_t *out, size_t out_len, palqytun_told *returned)
{
    return it.frame_line(frame, frame_len, out, out_len, returned);
}

uint32_t pq_line_frame(const uint8_t *line, size_t line_len, uint8_t *out, size_t out_len, palqytun_told *returned)
{
    return it.line_frame(line, line_len, out, out_len, returned);
}

uint32_t pq_notification(uint32_t kind, uint32_t id, const uint8_t *name, size_t name_len, const uint8_t *frame, size_t frame_len, uint8_t *out, size_t out_len, palqytun_told *returned)
{
    return it.notification(kind, id, name, name_len, frame, frame_len, out, out_len, returned);
}

uint32_t pq_is_awake(const uint8_t *suspension, size_t suspension_len, const uint8_t *notifications, size_t notifications_len, palqytun_judged *returned)
{
    return it.is_awake(suspension, suspension_len, notifications, notifications_len, returned);
}

uint32_t pq_frame_read(const uint8_t *frame, size_t frame_len, palqytun_frame_row *returned)
{
    return it.frame_read(frame, frame_len, returned);
}

uint32_t pq_frame_part(const uint8_t *frame, size_t frame_len, size_t at, uint8_t *out, size_t out_len, palqytun_told *returned)
{
    return it.frame_part(frame, frame_len, at, out, out_len, returned);
}

uint32_t pq_value_frame(const uint8_t *value, size_t value_len, uint8_t *out, size_t out_len, palqytun_told *returned)
{
    return it.value_frame(value, value_len, out, out_len, returned);
}

uint32_t pq_input_frame(const uint8_t *frame, size_t frame_len, const uint8_t *value, size_t value_len, uint8_t *out, size_t out_len, palqytun_told *returned)
{
    return it.input_frame(frame, frame_len, value, value_len, out, out_len, returned);
}

uint32_t pq_difference(const uint8_t *recorded, size_t recorded_len, const uint8_t *asked, size_t asked_len, bool ignore_payloads, uint8_t *out, size_t out_len, palqytun_told *returned)
{
    return it.difference(recorded, recorded_len, asked, asked_len, ignore_payloads, out, out_len, returned);
}

uint32_t pq_mismatch(const uint8_t *fed, size_t fed_len, uint32_t index, uint32_t type, palqytun_compared *returned)
{
    return it.mismatch(fed, fed_len, index, type, returned);
}

uint32_t pq_mismatch_part(const uint8_t *fed, size_t fed_len, uint32_t index, uint32_t type, const uint8_t *asked, size_t asked_len, bool ignore_payloads, size_t at, uint8_t *out, size_t out_len, palqytun_told *returned)
{
    return it.mismatch_part(fed, fed_len, index, type, asked, asked_len, ignore_payloads, at, out, out_len, returned);
}

const char *pq_status_name(uint32_t status)
{
    return it.status_name(status);
}

const char *pq_status_text(uint32_t status)
{
    return it.status_text(status);
}

const char *pq_code_name(uint32_t code)
{
    return it.code_name(code);
}

uint32_t pq_abi(void)
{
    return it.abi();
}

const char *pq_version(void)
{
    return it.version();
}

const char *pq_build(void)
{
    return it.build();
}

bool pq_is_proved(void)
{
    return it.is_proved();
}
