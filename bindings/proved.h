/* The proved calls, which the crate `ffi` exports. They stand behind bindings/calls.c, and aren't shown to callers. */
/* tools/header --write writes this file, from crates/ffi. */
#ifndef PALQYTUN_PROVED_H
#define PALQYTUN_PROVED_H

#include "handles.h"

palqytun_told proved_describe(palqytun_held *vm, uint8_t *out, size_t out_len);
palqytun_frame_row proved_frame_read(const uint8_t *frame, size_t frame_len);
palqytun_told proved_frame_part(const uint8_t *frame, size_t frame_len, size_t at, uint8_t *out, size_t out_len);
palqytun_told proved_value_frame(const uint8_t *value, size_t value_len, uint8_t *out, size_t out_len);
palqytun_told proved_input_frame(const uint8_t *frame, size_t frame_len, const uint8_t *value, size_t value_len, uint8_t *out, size_t out_len);
palqytun_told proved_notification(uint32_t kind, uint32_t id, const uint8_t *name, size_t name_len, const uint8_t *frame, size_t frame_len, uint8_t *out, size_t out_len);
palqytun_judged proved_is_awake(const uint8_t *suspension, size_t suspension_len, const uint8_t *notifications, size_t notifications_len);
palqytun_told proved_difference(const uint8_t *recorded, size_t recorded_len, const uint8_t *asked, size_t asked_len, bool ignore_payloads, uint8_t *out, size_t out_len);
uint32_t proved_journal_new(palqytun_held *journal);
void proved_journal_free(palqytun_held *journal);
palqytun_told proved_journal_entries(palqytun_held *journal);
palqytun_row proved_journal_entry(palqytun_held *journal, const uint8_t *entry, size_t entry_len);
palqytun_row proved_journal_arrive(palqytun_held *journal, const uint8_t *entry, size_t entry_len);
palqytun_stored proved_journal_store(palqytun_held *journal, uint32_t version, const uint8_t *output, size_t output_len);
palqytun_row proved_journal_row(palqytun_held *journal, size_t at);
palqytun_effect proved_journal_effect(palqytun_held *journal, size_t at);
palqytun_told proved_journal_effect_part(palqytun_held *journal, size_t at, size_t place, uint8_t *out, size_t out_len);
palqytun_told proved_journal_frame(palqytun_held *journal, size_t at, uint8_t *out, size_t out_len);
palqytun_told proved_journal_answer(palqytun_held *journal, uint8_t *out, size_t out_len);
uint32_t proved_journal_keep(palqytun_held *journal);
uint32_t proved_journal_undo(palqytun_held *journal);
uint32_t proved_new(palqytun_held *vm, uint32_t layer);
palqytun_told proved_answer(palqytun_held *vm, uint8_t *out, size_t out_len);
uint32_t proved_feed(palqytun_held *vm, const uint8_t *bytes, size_t bytes_len);
palqytun_told proved_take_output(palqytun_held *vm, uint8_t *out, size_t out_len);
uint32_t proved_lend_output(palqytun_held *vm, palqytun_bytes *output);
void proved_free(palqytun_held *vm);
palqytun_told proved_line(palqytun_held *vm, const uint8_t *line, size_t line_len);
palqytun_told proved_frame_line(const uint8_t *frame, size_t frame_len, uint8_t *out, size_t out_len);
palqytun_told proved_line_frame(const uint8_t *line, size_t line_len, uint8_t *out, size_t out_len);
palqytun_told proved_part(palqytun_held *vm, size_t at, uint8_t *out, size_t out_len);
palqytun_retry proved_next_retry(palqytun_held *vm);
palqytun_replied proved_make(palqytun_held *vm, palqytun_optional content_type, const palqytun_options *options);
palqytun_replied proved_report_error(palqytun_held *vm, const palqytun_error *error, const palqytun_command *related);
palqytun_replied proved_attach(palqytun_held *vm, const palqytun_invocation *invocation);
palqytun_replied proved_get_output(palqytun_held *vm, const palqytun_invocation *invocation);
palqytun_replied proved_sleep(palqytun_held *vm, palqytun_bytes name, uint64_t wake_up_millis);
palqytun_replied proved_awakeable(palqytun_held *vm);
palqytun_replied proved_signal(palqytun_held *vm, palqytun_bytes name);
palqytun_replied proved_get_promise(palqytun_held *vm, palqytun_bytes key);
palqytun_replied proved_peek_promise(palqytun_held *vm, palqytun_bytes key);
palqytun_replied proved_complete_promise(palqytun_held *vm, palqytun_bytes key, const palqytun_value *value, bool unstable);
palqytun_replied proved_complete_awakeable(palqytun_held *vm, palqytun_bytes id, const palqytun_value *value, bool unstable);
palqytun_replied proved_complete_signal(palqytun_held *vm, palqytun_bytes target, palqytun_bytes name, const palqytun_value *value);
palqytun_replied proved_cancel_invocation(palqytun_held *vm, palqytun_bytes target);
palqytun_replied proved_write_output(palqytun_held *vm, const palqytun_value *value, bool unstable);
palqytun_replied proved_end(palqytun_held *vm);
palqytun_replied proved_state_set(palqytun_held *vm, palqytun_bytes key, palqytun_bytes value, palqytun_bytes name, bool unstable);
palqytun_replied proved_state_clear(palqytun_held *vm, palqytun_bytes key, palqytun_bytes name);
palqytun_replied proved_state_clear_all(palqytun_held *vm, palqytun_bytes name);
palqytun_replied proved_state_get(palqytun_held *vm, palqytun_bytes key, palqytun_bytes name);
palqytun_replied proved_state_get_keys(palqytun_held *vm, palqytun_bytes name);
palqytun_replied proved_ephemeral_state_get(palqytun_held *vm, palqytun_bytes key);
palqytun_replied proved_take_ephemeral(palqytun_held *vm, uint32_t id);
palqytun_replied proved_await(palqytun_held *vm, uint32_t handle);
palqytun_replied proved_await_tree(palqytun_held *vm, const palqytun_node *nodes, size_t nodes_len);
palqytun_replied proved_take(palqytun_held *vm, uint32_t handle);
palqytun_replied proved_head(palqytun_held *vm);
palqytun_replied proved_close_input(palqytun_held *vm);
palqytun_replied proved_output(palqytun_held *vm);
palqytun_replied proved_is_ready(palqytun_held *vm);
palqytun_replied proved_is_completed(palqytun_held *vm, uint32_t handle);
palqytun_replied proved_state(palqytun_held *vm);
palqytun_replied proved_last_command_index(palqytun_held *vm);
palqytun_replied proved_input(palqytun_held *vm);
palqytun_replied proved_run(palqytun_held *vm, palqytun_bytes name);
palqytun_replied proved_propose(palqytun_held *vm, uint32_t handle, const palqytun_value *value, const palqytun_policy *policy);
palqytun_replied proved_propose_retryable(palqytun_held *vm, uint32_t handle, uint64_t duration_millis, const palqytun_error *error, const palqytun_policy *policy);
palqytun_replied proved_call(palqytun_held *vm, const palqytun_target *target, palqytun_bytes input, palqytun_bytes name, bool unstable);
palqytun_replied proved_call_with_deadline(palqytun_held *vm, const palqytun_target *target, palqytun_bytes input, uint64_t deadline_millis, palqytun_bytes name, bool unstable);
palqytun_replied proved_send(palqytun_held *vm, const palqytun_target *target, palqytun_bytes input, uint64_t at_millis, palqytun_bytes name, bool unstable);

#endif
