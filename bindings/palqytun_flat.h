/* The calls of palqytun.h without structs by value, for foreign functions that take and return numbers and pointers alone.

   Each is named as the call of palqytun.h that it makes, and differs in this: bytes are a pointer and a length; so are optional bytes, of
   which there are none if the pointer is NULL; and what the call returns is written to returned, which may be NULL. The status is returned too. */
/* tools/header --write writes this file, from palqytun.h. */
#ifndef PALQYTUN_FLAT_H
#define PALQYTUN_FLAT_H

#include "palqytun.h"

#ifdef __cplusplus
extern "C" {
#endif

uint32_t palqytun_flat_line(palqytun_vm *vm, const uint8_t *line, size_t line_len, palqytun_told *returned);
uint32_t palqytun_flat_answer(palqytun_vm *vm, uint8_t *out, size_t out_len, palqytun_told *returned);
uint32_t palqytun_flat_take_output(palqytun_vm *vm, uint8_t *out, size_t out_len, palqytun_told *returned);
uint32_t palqytun_flat_part(palqytun_vm *vm, size_t at, uint8_t *out, size_t out_len, palqytun_told *returned);
uint32_t palqytun_flat_next_retry(palqytun_vm *vm, palqytun_retry *returned);
uint32_t palqytun_flat_make(palqytun_vm *vm, const uint8_t *content_type, size_t content_type_len, const palqytun_options *options, palqytun_replied *returned);
uint32_t palqytun_flat_is_ready(palqytun_vm *vm, palqytun_replied *returned);
uint32_t palqytun_flat_head(palqytun_vm *vm, palqytun_replied *returned);
uint32_t palqytun_flat_close_input(palqytun_vm *vm, palqytun_replied *returned);
uint32_t palqytun_flat_output(palqytun_vm *vm, palqytun_replied *returned);
uint32_t palqytun_flat_state(palqytun_vm *vm, palqytun_replied *returned);
uint32_t palqytun_flat_last_command_index(palqytun_vm *vm, palqytun_replied *returned);
uint32_t palqytun_flat_describe(palqytun_vm *vm, uint8_t *out, size_t out_len, palqytun_told *returned);
uint32_t palqytun_flat_report_error(palqytun_vm *vm, const palqytun_error *error, const palqytun_command *related, palqytun_replied *returned);
uint32_t palqytun_flat_input(palqytun_vm *vm, palqytun_replied *returned);
uint32_t palqytun_flat_await(palqytun_vm *vm, uint32_t handle, palqytun_replied *returned);
uint32_t palqytun_flat_await_tree(palqytun_vm *vm, const palqytun_node *nodes, size_t nodes_len, palqytun_replied *returned);
uint32_t palqytun_flat_take(palqytun_vm *vm, uint32_t handle, palqytun_replied *returned);
uint32_t palqytun_flat_is_completed(palqytun_vm *vm, uint32_t handle, palqytun_replied *returned);
uint32_t palqytun_flat_sleep(palqytun_vm *vm, const uint8_t *name, size_t name_len, uint64_t wake_up_millis, palqytun_replied *returned);
uint32_t palqytun_flat_state_get(palqytun_vm *vm, const uint8_t *key, size_t key_len, const uint8_t *name, size_t name_len, palqytun_replied *returned);
uint32_t palqytun_flat_state_get_keys(palqytun_vm *vm, const uint8_t *name, size_t name_len, palqytun_replied *returned);
uint32_t palqytun_flat_state_set(palqytun_vm *vm, const uint8_t *key, size_t key_len, const uint8_t *value, size_t value_len, const uint8_t *name, size_t name_len, bool unstable, palqytun_replied *returned);
uint32_t palqytun_flat_state_clear(palqytun_vm *vm, const uint8_t *key, size_t key_len, const uint8_t *name, size_t name_len, palqytun_replied *returned);
uint32_t palqytun_flat_state_clear_all(palqytun_vm *vm, const uint8_t *name, size_t name_len, palqytun_replied *returned);
uint32_t palqytun_flat_ephemeral_state_get(palqytun_vm *vm, const uint8_t *key, size_t key_len, palqytun_replied *returned);
uint32_t palqytun_flat_take_ephemeral(palqytun_vm *vm, uint32_t id, palqytun_replied *returned);
uint32_t palqytun_flat_call(palqytun_vm *vm, const palqytun_target *target, const uint8_t *input, size_t input_len, const uint8_t *name, size_t name_len, bool unstable, palqytun_replied *returned);
uint32_t palqytun_flat_call_with_deadline(palqytun_vm *vm, const palqytun_target *target, const uint8_t *input, size_t input_len, uint64_t deadline_millis, const uint8_t *name, size_t name_len, bool unstable, palqytun_replied *returned);
uint32_t palqytun_flat_send(palqytun_vm *vm, const palqytun_target *target, const uint8_t *input, size_t input_len, uint64_t at_millis, const uint8_t *name, size_t name_len, bool unstable, palqytun_replied *returned);
uint32_t palqytun_flat_cancel_invocation(palqytun_vm *vm, const uint8_t *invocation_id, size_t invocation_id_len, palqytun_replied *returned);
uint32_t palqytun_flat_attach(palqytun_vm *vm, const palqytun_invocation *invocation, palqytun_replied *returned);
uint32_t palqytun_flat_get_output(palqytun_vm *vm, const palqytun_invocation *invocation, palqytun_replied *returned);
uint32_t palqytun_flat_awakeable(palqytun_vm *vm, palqytun_replied *returned);
uint32_t palqytun_flat_complete_awakeable(palqytun_vm *vm, const uint8_t *id, size_t id_len, const palqytun_value *value, bool unstable, palqytun_replied *returned);
uint32_t palqytun_flat_signal(palqytun_vm *vm, const uint8_t *name, size_t name_len, palqytun_replied *returned);
uint32_t palqytun_flat_complete_signal(palqytun_vm *vm, const uint8_t *invocation_id, size_t invocation_id_len, const uint8_t *name, size_t name_len, const palqytun_value *value, palqytun_replied *returned);
uint32_t palqytun_flat_get_promise(palqytun_vm *vm, const uint8_t *key, size_t key_len, palqytun_replied *returned);
uint32_t palqytun_flat_peek_promise(palqytun_vm *vm, const uint8_t *key, size_t key_len, palqytun_replied *returned);
uint32_t palqytun_flat_complete_promise(palqytun_vm *vm, const uint8_t *key, size_t key_len, const palqytun_value *value, bool unstable, palqytun_replied *returned);
uint32_t palqytun_flat_run(palqytun_vm *vm, const uint8_t *name, size_t name_len, palqytun_replied *returned);
uint32_t palqytun_flat_propose(palqytun_vm *vm, uint32_t handle, const palqytun_value *value, const palqytun_policy *policy, palqytun_replied *returned);
uint32_t palqytun_flat_propose_retryable(palqytun_vm *vm, uint32_t handle, uint64_t duration_millis, const palqytun_error *error, const palqytun_policy *policy, palqytun_replied *returned);
uint32_t palqytun_flat_write_output(palqytun_vm *vm, const palqytun_value *value, bool unstable, palqytun_replied *returned);
uint32_t palqytun_flat_end(palqytun_vm *vm, palqytun_replied *returned);
uint32_t palqytun_flat_journal_entries(palqytun_journal *journal, palqytun_told *returned);
uint32_t palqytun_flat_journal_entry(palqytun_journal *journal, const uint8_t *entry, size_t entry_len, palqytun_row *returned);
uint32_t palqytun_flat_journal_arrive(palqytun_journal *journal, const uint8_t *entry, size_t entry_len, palqytun_row *returned);
uint32_t palqytun_flat_journal_store(palqytun_journal *journal, uint32_t version, const uint8_t *output, size_t output_len, palqytun_stored *returned);
uint32_t palqytun_flat_journal_row(palqytun_journal *journal, size_t at, palqytun_row *returned);
uint32_t palqytun_flat_journal_frame(palqytun_journal *journal, size_t at, uint8_t *out, size_t out_len, palqytun_told *returned);
uint32_t palqytun_flat_journal_effect(palqytun_journal *journal, size_t at, palqytun_effect *returned);
uint32_t palqytun_flat_journal_effect_part(palqytun_journal *journal, size_t at, size_t place, uint8_t *out, size_t out_len, palqytun_told *returned);
uint32_t palqytun_flat_journal_answer(palqytun_journal *journal, uint8_t *out, size_t out_len, palqytun_told *returned);
uint32_t palqytun_flat_frame_line(const uint8_t *frame, size_t frame_len, uint8_t *out, size_t out_len, palqytun_told *returned);
uint32_t palqytun_flat_line_frame(const uint8_t *line, size_t line_len, uint8_t *out, size_t out_len, palqytun_told *returned);
uint32_t palqytun_flat_notification(uint32_t kind, uint32_t id, const uint8_t *name, size_t name_len, const uint8_t *frame, size_t frame_len, uint8_t *out, size_t out_len, palqytun_told *returned);
uint32_t palqytun_flat_is_awake(const uint8_t *suspension, size_t suspension_len, const uint8_t *notifications, size_t notifications_len, palqytun_judged *returned);
uint32_t palqytun_flat_frame_read(const uint8_t *frame, size_t frame_len, palqytun_frame_row *returned);
uint32_t palqytun_flat_frame_part(const uint8_t *frame, size_t frame_len, size_t at, uint8_t *out, size_t out_len, palqytun_told *returned);
uint32_t palqytun_flat_value_frame(const uint8_t *value, size_t value_len, uint8_t *out, size_t out_len, palqytun_told *returned);
uint32_t palqytun_flat_input_frame(const uint8_t *frame, size_t frame_len, const uint8_t *value, size_t value_len, uint8_t *out, size_t out_len, palqytun_told *returned);
uint32_t palqytun_flat_difference(const uint8_t *recorded, size_t recorded_len, const uint8_t *asked, size_t asked_len, bool ignore_payloads, uint8_t *out, size_t out_len, palqytun_told *returned);
uint32_t palqytun_flat_mismatch(const uint8_t *fed, size_t fed_len, uint32_t index, uint32_t type, palqytun_compared *returned);
uint32_t palqytun_flat_mismatch_part(const uint8_t *fed, size_t fed_len, uint32_t index, uint32_t type, const uint8_t *asked, size_t asked_len, bool ignore_payloads, size_t at, uint8_t *out, size_t out_len, palqytun_told *returned);

#ifdef __cplusplus
}
#endif

#endif
