/* The functions of the header, each over the proved call of its name: what the caller lends is made fit for it (bindings/lending.c),
   the handle is taken and given back (bindings/handles.c), and the call is made. */
/* tools/header --write writes this file, from crates/ffi. */
#include "proved.h"

palqytun_told palqytun_describe(palqytun_vm *vm, uint8_t *out, size_t out_len)
{
    uint32_t status = PALQYTUN_DONE;
    out = lend_room(&status, out, out_len);
    palqytun_held *held = handle_take(&status, vm, A_VM);
    if (status != PALQYTUN_DONE)
        return (palqytun_told){.status = status};
    palqytun_told made = proved_describe(held, out, out_len);
    handle_give(held);
    return made;
}

palqytun_frame_row palqytun_frame_read(const uint8_t *frame, size_t frame_len)
{
    uint32_t status = PALQYTUN_DONE;
    frame = lend_items(&status, frame, frame_len, sizeof *frame);
    if (status != PALQYTUN_DONE)
        return (palqytun_frame_row){.status = status};
    palqytun_frame_row made = proved_frame_read(frame, frame_len);
    return made;
}

palqytun_told palqytun_frame_part(const uint8_t *frame, size_t frame_len, size_t at, uint8_t *out, size_t out_len)
{
    uint32_t status = PALQYTUN_DONE;
    frame = lend_items(&status, frame, frame_len, sizeof *frame);
    out = lend_room(&status, out, out_len);
    if (status != PALQYTUN_DONE)
        return (palqytun_told){.status = status};
    palqytun_told made = proved_frame_part(frame, frame_len, at, out, out_len);
    return made;
}

palqytun_told palqytun_value_frame(const uint8_t *value, size_t value_len, uint8_t *out, size_t out_len)
{
    uint32_t status = PALQYTUN_DONE;
    value = lend_items(&status, value, value_len, sizeof *value);
    out = lend_room(&status, out, out_len);
    if (status != PALQYTUN_DONE)
        return (palqytun_told){.status = status};
    palqytun_told made = proved_value_frame(value, value_len, out, out_len);
    return made;
}

palqytun_told palqytun_input_frame(const uint8_t *frame, size_t frame_len, const uint8_t *value, size_t value_len, uint8_t *out, size_t out_len)
{
    uint32_t status = PALQYTUN_DONE;
    frame = lend_items(&status, frame, frame_len, sizeof *frame);
    value = lend_items(&status, value, value_len, sizeof *value);
    out = lend_room(&status, out, out_len);
    if (status != PALQYTUN_DONE)
        return (palqytun_told){.status = status};
    palqytun_told made = proved_input_frame(frame, frame_len, value, value_len, out, out_len);
    return made;
}

palqytun_told palqytun_notification(uint32_t kind, uint32_t id, const uint8_t *name, size_t name_len, const uint8_t *frame, size_t frame_len, uint8_t *out, size_t out_len)
{
    uint32_t status = PALQYTUN_DONE;
    name = lend_items(&status, name, name_len, sizeof *name);
    frame = lend_items(&status, frame, frame_len, sizeof *frame);
    out = lend_room(&status, out, out_len);
    if (status != PALQYTUN_DONE)
        return (palqytun_told){.status = status};
    palqytun_told made = proved_notification(kind, id, name, name_len, frame, frame_len, out, out_len);
    return made;
}

palqytun_judged palqytun_is_awake(const uint8_t *suspension, size_t suspension_len, const uint8_t *notifications, size_t notifications_len)
{
    uint32_t status = PALQYTUN_DONE;
    suspension = lend_items(&status, suspension, suspension_len, sizeof *suspension);
    notifications = lend_items(&status, notifications, notifications_len, sizeof *notifications);
    if (status != PALQYTUN_DONE)
        return (palqytun_judged){.status = status};
    palqytun_judged made = proved_is_awake(suspension, suspension_len, notifications, notifications_len);
    return made;
}

palqytun_told palqytun_difference(const uint8_t *recorded, size_t recorded_len, const uint8_t *asked, size_t asked_len, bool ignore_payloads, uint8_t *out, size_t out_len)
{
    uint32_t status = PALQYTUN_DONE;
    recorded = lend_items(&status, recorded, recorded_len, sizeof *recorded);
    asked = lend_items(&status, asked, asked_len, sizeof *asked);
    out = lend_room(&status, out, out_len);
    if (status != PALQYTUN_DONE)
        return (palqytun_told){.status = status};
    palqytun_told made = proved_difference(recorded, recorded_len, asked, asked_len, ignore_payloads, out, out_len);
    return made;
}

palqytun_told palqytun_journal_entries(palqytun_journal *journal)
{
    uint32_t status = PALQYTUN_DONE;
    palqytun_held *held = handle_take(&status, journal, A_JOURNAL);
    if (status != PALQYTUN_DONE)
        return (palqytun_told){.status = status};
    palqytun_told made = proved_journal_entries(held);
    handle_give(held);
    return made;
}

palqytun_row palqytun_journal_entry(palqytun_journal *journal, const uint8_t *entry, size_t entry_len)
{
    uint32_t status = PALQYTUN_DONE;
    entry = lend_items(&status, entry, entry_len, sizeof *entry);
    palqytun_held *held = handle_take(&status, journal, A_JOURNAL);
    if (status != PALQYTUN_DONE)
        return (palqytun_row){.status = status};
    palqytun_row made = proved_journal_entry(held, entry, entry_len);
    handle_give(held);
    return made;
}

palqytun_row palqytun_journal_arrive(palqytun_journal *journal, const uint8_t *entry, size_t entry_len)
{
    uint32_t status = PALQYTUN_DONE;
    entry = lend_items(&status, entry, entry_len, sizeof *entry);
    palqytun_held *held = handle_take(&status, journal, A_JOURNAL);
    if (status != PALQYTUN_DONE)
        return (palqytun_row){.status = status};
    palqytun_row made = proved_journal_arrive(held, entry, entry_len);
    handle_give(held);
    return made;
}

palqytun_stored palqytun_journal_store(palqytun_journal *journal, uint32_t version, const uint8_t *output, size_t output_len)
{
    uint32_t status = PALQYTUN_DONE;
    output = lend_items(&status, output, output_len, sizeof *output);
    palqytun_held *held = handle_take(&status, journal, A_JOURNAL);
    if (status != PALQYTUN_DONE)
        return (palqytun_stored){.status = status};
    palqytun_stored made = proved_journal_store(held, version, output, output_len);
    handle_give(held);
    return made;
}

palqytun_row palqytun_journal_row(palqytun_journal *journal, size_t at)
{
    uint32_t status = PALQYTUN_DONE;
    palqytun_held *held = handle_take(&status, journal, A_JOURNAL);
    if (status != PALQYTUN_DONE)
        return (palqytun_row){.status = status};
    palqytun_row made = proved_journal_row(held, at);
    handle_give(held);
    return made;
}

palqytun_effect palqytun_journal_effect(palqytun_journal *journal, size_t at)
{
    uint32_t status = PALQYTUN_DONE;
    palqytun_held *held = handle_take(&status, journal, A_JOURNAL);
    if (status != PALQYTUN_DONE)
        return (palqytun_effect){.status = status};
    palqytun_effect made = proved_journal_effect(held, at);
    handle_give(held);
    return made;
}

palqytun_told palqytun_journal_effect_part(palqytun_journal *journal, size_t at, size_t place, uint8_t *out, size_t out_len)
{
    uint32_t status = PALQYTUN_DONE;
    out = lend_room(&status, out, out_len);
    palqytun_held *held = handle_take(&status, journal, A_JOURNAL);
    if (status != PALQYTUN_DONE)
        return (palqytun_told){.status = status};
    palqytun_told made = proved_journal_effect_part(held, at, place, out, out_len);
    handle_give(held);
    return made;
}

palqytun_told palqytun_journal_frame(palqytun_journal *journal, size_t at, uint8_t *out, size_t out_len)
{
    uint32_t status = PALQYTUN_DONE;
    out = lend_room(&status, out, out_len);
    palqytun_held *held = handle_take(&status, journal, A_JOURNAL);
    if (status != PALQYTUN_DONE)
        return (palqytun_told){.status = status};
    palqytun_told made = proved_journal_frame(held, at, out, out_len);
    handle_give(held);
    return made;
}

palqytun_told palqytun_journal_answer(palqytun_journal *journal, uint8_t *out, size_t out_len)
{
    uint32_t status = PALQYTUN_DONE;
    out = lend_room(&status, out, out_len);
    palqytun_held *held = handle_take(&status, journal, A_JOURNAL);
    if (status != PALQYTUN_DONE)
        return (palqytun_told){.status = status};
    palqytun_told made = proved_journal_answer(held, out, out_len);
    handle_give(held);
    return made;
}

uint32_t palqytun_journal_keep(palqytun_journal *journal)
{
    uint32_t status = PALQYTUN_DONE;
    palqytun_held *held = handle_take(&status, journal, A_JOURNAL);
    if (status != PALQYTUN_DONE)
        return status;
    uint32_t made = proved_journal_keep(held);
    handle_give(held);
    return made;
}

uint32_t palqytun_journal_undo(palqytun_journal *journal)
{
    uint32_t status = PALQYTUN_DONE;
    palqytun_held *held = handle_take(&status, journal, A_JOURNAL);
    if (status != PALQYTUN_DONE)
        return status;
    uint32_t made = proved_journal_undo(held);
    handle_give(held);
    return made;
}

palqytun_told palqytun_answer(palqytun_vm *vm, uint8_t *out, size_t out_len)
{
    uint32_t status = PALQYTUN_DONE;
    out = lend_room(&status, out, out_len);
    palqytun_held *held = handle_take(&status, vm, A_VM);
    if (status != PALQYTUN_DONE)
        return (palqytun_told){.status = status};
    palqytun_told made = proved_answer(held, out, out_len);
    handle_give(held);
    return made;
}

uint32_t palqytun_feed(palqytun_vm *vm, const uint8_t *bytes, size_t bytes_len)
{
    uint32_t status = PALQYTUN_DONE;
    bytes = lend_items(&status, bytes, bytes_len, sizeof *bytes);
    palqytun_held *held = handle_take(&status, vm, A_VM);
    if (status != PALQYTUN_DONE)
        return status;
    uint32_t made = proved_feed(held, bytes, bytes_len);
    handle_give(held);
    return made;
}

palqytun_told palqytun_take_output(palqytun_vm *vm, uint8_t *out, size_t out_len)
{
    uint32_t status = PALQYTUN_DONE;
    out = lend_room(&status, out, out_len);
    palqytun_held *held = handle_take(&status, vm, A_VM);
    if (status != PALQYTUN_DONE)
        return (palqytun_told){.status = status};
    palqytun_told made = proved_take_output(held, out, out_len);
    handle_give(held);
    return made;
}

uint32_t palqytun_lend_output(palqytun_vm *vm, palqytun_bytes *output)
{
    uint32_t status = PALQYTUN_DONE;
    lend_out(&status, output);
    palqytun_held *held = handle_take(&status, vm, A_VM);
    if (status != PALQYTUN_DONE)
        return status;
    uint32_t made = proved_lend_output(held, output);
    handle_give(held);
    return made;
}

palqytun_told palqytun_line(palqytun_vm *vm, const uint8_t *line, size_t line_len)
{
    uint32_t status = PALQYTUN_DONE;
    line = lend_items(&status, line, line_len, sizeof *line);
    palqytun_held *held = handle_take(&status, vm, A_VM);
    if (status != PALQYTUN_DONE)
        return (palqytun_told){.status = status};
    palqytun_told made = proved_line(held, line, line_len);
    handle_give(held);
    return made;
}

palqytun_told palqytun_frame_line(const uint8_t *frame, size_t frame_len, uint8_t *out, size_t out_len)
{
    uint32_t status = PALQYTUN_DONE;
    frame = lend_items(&status, frame, frame_len, sizeof *frame);
    out = lend_room(&status, out, out_len);
    if (status != PALQYTUN_DONE)
        return (palqytun_told){.status = status};
    palqytun_told made = proved_frame_line(frame, frame_len, out, out_len);
    return made;
}

palqytun_told palqytun_line_frame(const uint8_t *line, size_t line_len, uint8_t *out, size_t out_len)
{
    uint32_t status = PALQYTUN_DONE;
    line = lend_items(&status, line, line_len, sizeof *line);
    out = lend_room(&status, out, out_len);
    if (status != PALQYTUN_DONE)
        return (palqytun_told){.status = status};
    palqytun_told made = proved_line_frame(line, line_len, out, out_len);
    return made;
}

palqytun_told palqytun_part(palqytun_vm *vm, size_t at, uint8_t *out, size_t out_len)
{
    uint32_t status = PALQYTUN_DONE;
    out = lend_room(&status, out, out_len);
    palqytun_held *held = handle_take(&status, vm, A_VM);
    if (status != PALQYTUN_DONE)
        return (palqytun_told){.status = status};
    palqytun_told made = proved_part(held, at, out, out_len);
    handle_give(held);
    return made;
}

palqytun_retry palqytun_next_retry(palqytun_vm *vm)
{
    uint32_t status = PALQYTUN_DONE;
    palqytun_held *held = handle_take(&status, vm, A_VM);
    if (status != PALQYTUN_DONE)
        return (palqytun_retry){.status = status};
    palqytun_retry made = proved_next_retry(held);
    handle_give(held);
    return made;
}

palqytun_replied palqytun_make(palqytun_vm *vm, palqytun_optional content_type, const palqytun_options *options)
{
    uint32_t status = PALQYTUN_DONE;
    palqytun_options lent_options = {0};
    lend_optional(&status, &content_type);
    lend_options(&status, options, &lent_options);
    palqytun_held *held = handle_take(&status, vm, A_VM);
    if (status != PALQYTUN_DONE)
        return (palqytun_replied){.status = status};
    palqytun_replied made = proved_make(held, content_type, &lent_options);
    handle_give(held);
    return made;
}

palqytun_replied palqytun_report_error(palqytun_vm *vm, const palqytun_error *error, const palqytun_command *related)
{
    uint32_t status = PALQYTUN_DONE;
    palqytun_error lent_error = {0};
    palqytun_command lent_related = {0};
    lend_error(&status, error, &lent_error);
    lend_command(&status, related, &lent_related);
    palqytun_held *held = handle_take(&status, vm, A_VM);
    if (status != PALQYTUN_DONE)
        return (palqytun_replied){.status = status};
    palqytun_replied made = proved_report_error(held, &lent_error, &lent_related);
    handle_give(held);
    return made;
}

palqytun_replied palqytun_attach(palqytun_vm *vm, const palqytun_invocation *invocation)
{
    uint32_t status = PALQYTUN_DONE;
    palqytun_invocation lent_invocation = {0};
    lend_invocation(&status, invocation, &lent_invocation);
    palqytun_held *held = handle_take(&status, vm, A_VM);
    if (status != PALQYTUN_DONE)
        return (palqytun_replied){.status = status};
    palqytun_replied made = proved_attach(held, &lent_invocation);
    handle_give(held);
    return made;
}

palqytun_replied palqytun_get_output(palqytun_vm *vm, const palqytun_invocation *invocation)
{
    uint32_t status = PALQYTUN_DONE;
    palqytun_invocation lent_invocation = {0};
    lend_invocation(&status, invocation, &lent_invocation);
    palqytun_held *held = handle_take(&status, vm, A_VM);
    if (status != PALQYTUN_DONE)
        return (palqytun_replied){.status = status};
    palqytun_replied made = proved_get_output(held, &lent_invocation);
    handle_give(held);
    return made;
}

palqytun_replied palqytun_sleep(palqytun_vm *vm, palqytun_bytes name, uint64_t wake_up_millis)
{
    uint32_t status = PALQYTUN_DONE;
    lend_bytes(&status, &name);
    palqytun_held *held = handle_take(&status, vm, A_VM);
    if (status != PALQYTUN_DONE)
        return (palqytun_replied){.status = status};
    palqytun_replied made = proved_sleep(held, name, wake_up_millis);
    handle_give(held);
    return made;
}

palqytun_replied palqytun_awakeable(palqytun_vm *vm)
{
    uint32_t status = PALQYTUN_DONE;
    palqytun_held *held = handle_take(&status, vm, A_VM);
    if (status != PALQYTUN_DONE)
        return (palqytun_replied){.status = status};
    palqytun_replied made = proved_awakeable(held);
    handle_give(held);
    return made;
}

palqytun_replied palqytun_signal(palqytun_vm *vm, palqytun_bytes name)
{
    uint32_t status = PALQYTUN_DONE;
    lend_bytes(&status, &name);
    palqytun_held *held = handle_take(&status, vm, A_VM);
    if (status != PALQYTUN_DONE)
        return (palqytun_replied){.status = status};
    palqytun_replied made = proved_signal(held, name);
    handle_give(held);
    return made;
}

palqytun_replied palqytun_get_promise(palqytun_vm *vm, palqytun_bytes key)
{
    uint32_t status = PALQYTUN_DONE;
    lend_bytes(&status, &key);
    palqytun_held *held = handle_take(&status, vm, A_VM);
    if (status != PALQYTUN_DONE)
        return (palqytun_replied){.status = status};
    palqytun_replied made = proved_get_promise(held, key);
    handle_give(held);
    return made;
}

palqytun_replied palqytun_peek_promise(palqytun_vm *vm, palqytun_bytes key)
{
    uint32_t status = PALQYTUN_DONE;
    lend_bytes(&status, &key);
    palqytun_held *held = handle_take(&status, vm, A_VM);
    if (status != PALQYTUN_DONE)
        return (palqytun_replied){.status = status};
    palqytun_replied made = proved_peek_promise(held, key);
    handle_give(held);
    return made;
}

palqytun_replied palqytun_complete_promise(palqytun_vm *vm, palqytun_bytes key, const palqytun_value *value, bool unstable)
{
    uint32_t status = PALQYTUN_DONE;
    lent_arrays arrays = {0};
    palqytun_value lent_value = {0};
    lend_bytes(&status, &key);
    lend_value(&status, value, &lent_value, &arrays);
    palqytun_held *held = handle_take(&status, vm, A_VM);
    if (status != PALQYTUN_DONE) {
        lend_end(&arrays);
        return (palqytun_replied){.status = status};
    }
    palqytun_replied made = proved_complete_promise(held, key, &lent_value, unstable);
    handle_give(held);
    lend_end(&arrays);
    return made;
}

palqytun_replied palqytun_complete_awakeable(palqytun_vm *vm, palqytun_bytes id, const palqytun_value *value, bool unstable)
{
    uint32_t status = PALQYTUN_DONE;
    lent_arrays arrays = {0};
    palqytun_value lent_value = {0};
    lend_bytes(&status, &id);
    lend_value(&status, value, &lent_value, &arrays);
    palqytun_held *held = handle_take(&status, vm, A_VM);
    if (status != PALQYTUN_DONE) {
        lend_end(&arrays);
        return (palqytun_replied){.status = status};
    }
    palqytun_replied made = proved_complete_awakeable(held, id, &lent_value, unstable);
    handle_give(held);
    lend_end(&arrays);
    return made;
}

palqytun_replied palqytun_complete_signal(palqytun_vm *vm, palqytun_bytes target, palqytun_bytes name, const palqytun_value *value)
{
    uint32_t status = PALQYTUN_DONE;
    lent_arrays arrays = {0};
    palqytun_value lent_value = {0};
    lend_bytes(&status, &target);
    lend_bytes(&status, &name);
    lend_value(&status, value, &lent_value, &arrays);
    palqytun_held *held = handle_take(&status, vm, A_VM);
    if (status != PALQYTUN_DONE) {
        lend_end(&arrays);
        return (palqytun_replied){.status = status};
    }
    palqytun_replied made = proved_complete_signal(held, target, name, &lent_value);
    handle_give(held);
    lend_end(&arrays);
    return made;
}

palqytun_replied palqytun_cancel_invocation(palqytun_vm *vm, palqytun_bytes target)
{
    uint32_t status = PALQYTUN_DONE;
    lend_bytes(&status, &target);
    palqytun_held *held = handle_take(&status, vm, A_VM);
    if (status != PALQYTUN_DONE)
        return (palqytun_replied){.status = status};
    palqytun_replied made = proved_cancel_invocation(held, target);
    handle_give(held);
    return made;
}

palqytun_replied palqytun_write_output(palqytun_vm *vm, const palqytun_value *value, bool unstable)
{
    uint32_t status = PALQYTUN_DONE;
    lent_arrays arrays = {0};
    palqytun_value lent_value = {0};
    lend_value(&status, value, &lent_value, &arrays);
    palqytun_held *held = handle_take(&status, vm, A_VM);
    if (status != PALQYTUN_DONE) {
        lend_end(&arrays);
        return (palqytun_replied){.status = status};
    }
    palqytun_replied made = proved_write_output(held, &lent_value, unstable);
    handle_give(held);
    lend_end(&arrays);
    return made;
}

palqytun_replied palqytun_end(palqytun_vm *vm)
{
    uint32_t status = PALQYTUN_DONE;
    palqytun_held *held = handle_take(&status, vm, A_VM);
    if (status != PALQYTUN_DONE)
        return (palqytun_replied){.status = status};
    palqytun_replied made = proved_end(held);
    handle_give(held);
    return made;
}

palqytun_replied palqytun_state_set(palqytun_vm *vm, palqytun_bytes key, palqytun_bytes value, palqytun_bytes name, bool unstable)
{
    uint32_t status = PALQYTUN_DONE;
    lend_bytes(&status, &key);
    lend_bytes(&status, &value);
    lend_bytes(&status, &name);
    palqytun_held *held = handle_take(&status, vm, A_VM);
    if (status != PALQYTUN_DONE)
        return (palqytun_replied){.status = status};
    palqytun_replied made = proved_state_set(held, key, value, name, unstable);
    handle_give(held);
    return made;
}

palqytun_replied palqytun_state_clear(palqytun_vm *vm, palqytun_bytes key, palqytun_bytes name)
{
    uint32_t status = PALQYTUN_DONE;
    lend_bytes(&status, &key);
    lend_bytes(&status, &name);
    palqytun_held *held = handle_take(&status, vm, A_VM);
    if (status != PALQYTUN_DONE)
        return (palqytun_replied){.status = status};
    palqytun_replied made = proved_state_clear(held, key, name);
    handle_give(held);
    return made;
}

palqytun_replied palqytun_state_clear_all(palqytun_vm *vm, palqytun_bytes name)
{
    uint32_t status = PALQYTUN_DONE;
    lend_bytes(&status, &name);
    palqytun_held *held = handle_take(&status, vm, A_VM);
    if (status != PALQYTUN_DONE)
        return (palqytun_replied){.status = status};
    palqytun_replied made = proved_state_clear_all(held, name);
    handle_give(held);
    return made;
}

palqytun_replied palqytun_state_get(palqytun_vm *vm, palqytun_bytes key, palqytun_bytes name)
{
    uint32_t status = PALQYTUN_DONE;
    lend_bytes(&status, &key);
    lend_bytes(&status, &name);
    palqytun_held *held = handle_take(&status, vm, A_VM);
    if (status != PALQYTUN_DONE)
        return (palqytun_replied){.status = status};
    palqytun_replied made = proved_state_get(held, key, name);
    handle_give(held);
    return made;
}

palqytun_replied palqytun_state_get_keys(palqytun_vm *vm, palqytun_bytes name)
{
    uint32_t status = PALQYTUN_DONE;
    lend_bytes(&status, &name);
    palqytun_held *held = handle_take(&status, vm, A_VM);
    if (status != PALQYTUN_DONE)
        return (palqytun_replied){.status = status};
    palqytun_replied made = proved_state_get_keys(held, name);
    handle_give(held);
    return made;
}

palqytun_replied palqytun_ephemeral_state_get(palqytun_vm *vm, palqytun_bytes key)
{
    uint32_t status = PALQYTUN_DONE;
    lend_bytes(&status, &key);
    palqytun_held *held = handle_take(&status, vm, A_VM);
    if (status != PALQYTUN_DONE)
        return (palqytun_replied){.status = status};
    palqytun_replied made = proved_ephemeral_state_get(held, key);
    handle_give(held);
    return made;
}

palqytun_replied palqytun_take_ephemeral(palqytun_vm *vm, uint32_t id)
{
    uint32_t status = PALQYTUN_DONE;
    palqytun_held *held = handle_take(&status, vm, A_VM);
    if (status != PALQYTUN_DONE)
        return (palqytun_replied){.status = status};
    palqytun_replied made = proved_take_ephemeral(held, id);
    handle_give(held);
    return made;
}

palqytun_replied palqytun_await(palqytun_vm *vm, uint32_t handle)
{
    uint32_t status = PALQYTUN_DONE;
    palqytun_held *held = handle_take(&status, vm, A_VM);
    if (status != PALQYTUN_DONE)
        return (palqytun_replied){.status = status};
    palqytun_replied made = proved_await(held, handle);
    handle_give(held);
    return made;
}

palqytun_replied palqytun_await_tree(palqytun_vm *vm, const palqytun_node *nodes, size_t nodes_len)
{
    uint32_t status = PALQYTUN_DONE;
    nodes = lend_items(&status, nodes, nodes_len, sizeof *nodes);
    palqytun_held *held = handle_take(&status, vm, A_VM);
    if (status != PALQYTUN_DONE)
        return (palqytun_replied){.status = status};
    palqytun_replied made = proved_await_tree(held, nodes, nodes_len);
    handle_give(held);
    return made;
}

palqytun_replied palqytun_take(palqytun_vm *vm, uint32_t handle)
{
    uint32_t status = PALQYTUN_DONE;
    palqytun_held *held = handle_take(&status, vm, A_VM);
    if (status != PALQYTUN_DONE)
        return (palqytun_replied){.status = status};
    palqytun_replied made = proved_take(held, handle);
    handle_give(held);
    return made;
}

palqytun_replied palqytun_head(palqytun_vm *vm)
{
    uint32_t status = PALQYTUN_DONE;
    palqytun_held *held = handle_take(&status, vm, A_VM);
    if (status != PALQYTUN_DONE)
        return (palqytun_replied){.status = status};
    palqytun_replied made = proved_head(held);
    handle_give(held);
    return made;
}

palqytun_replied palqytun_close_input(palqytun_vm *vm)
{
    uint32_t status = PALQYTUN_DONE;
    palqytun_held *held = handle_take(&status, vm, A_VM);
    if (status != PALQYTUN_DONE)
        return (palqytun_replied){.status = status};
    palqytun_replied made = proved_close_input(held);
    handle_give(held);
    return made;
}

palqytun_replied palqytun_output(palqytun_vm *vm)
{
    uint32_t status = PALQYTUN_DONE;
    palqytun_held *held = handle_take(&status, vm, A_VM);
    if (status != PALQYTUN_DONE)
        return (palqytun_replied){.status = status};
    palqytun_replied made = proved_output(held);
    handle_give(held);
    return made;
}

palqytun_replied palqytun_is_ready(palqytun_vm *vm)
{
    uint32_t status = PALQYTUN_DONE;
    palqytun_held *held = handle_take(&status, vm, A_VM);
    if (status != PALQYTUN_DONE)
        return (palqytun_replied){.status = status};
    palqytun_replied made = proved_is_ready(held);
    handle_give(held);
    return made;
}

palqytun_replied palqytun_is_completed(palqytun_vm *vm, uint32_t handle)
{
    uint32_t status = PALQYTUN_DONE;
    palqytun_held *held = handle_take(&status, vm, A_VM);
    if (status != PALQYTUN_DONE)
        return (palqytun_replied){.status = status};
    palqytun_replied made = proved_is_completed(held, handle);
    handle_give(held);
    return made;
}

palqytun_replied palqytun_state(palqytun_vm *vm)
{
    uint32_t status = PALQYTUN_DONE;
    palqytun_held *held = handle_take(&status, vm, A_VM);
    if (status != PALQYTUN_DONE)
        return (palqytun_replied){.status = status};
    palqytun_replied made = proved_state(held);
    handle_give(held);
    return made;
}

palqytun_replied palqytun_last_command_index(palqytun_vm *vm)
{
    uint32_t status = PALQYTUN_DONE;
    palqytun_held *held = handle_take(&status, vm, A_VM);
    if (status != PALQYTUN_DONE)
        return (palqytun_replied){.status = status};
    palqytun_replied made = proved_last_command_index(held);
    handle_give(held);
    return made;
}

palqytun_replied palqytun_input(palqytun_vm *vm)
{
    uint32_t status = PALQYTUN_DONE;
    palqytun_held *held = handle_take(&status, vm, A_VM);
    if (status != PALQYTUN_DONE)
        return (palqytun_replied){.status = status};
    palqytun_replied made = proved_input(held);
    handle_give(held);
    return made;
}

palqytun_replied palqytun_run(palqytun_vm *vm, palqytun_bytes name)
{
    uint32_t status = PALQYTUN_DONE;
    lend_bytes(&status, &name);
    palqytun_held *held = handle_take(&status, vm, A_VM);
    if (status != PALQYTUN_DONE)
        return (palqytun_replied){.status = status};
    palqytun_replied made = proved_run(held, name);
    handle_give(held);
    return made;
}

palqytun_replied palqytun_propose(palqytun_vm *vm, uint32_t handle, const palqytun_value *value, const palqytun_policy *policy)
{
    uint32_t status = PALQYTUN_DONE;
    lent_arrays arrays = {0};
    palqytun_value lent_value = {0};
    palqytun_policy lent_policy = {0};
    lend_value(&status, value, &lent_value, &arrays);
    lend_policy(&status, policy, &lent_policy);
    palqytun_held *held = handle_take(&status, vm, A_VM);
    if (status != PALQYTUN_DONE) {
        lend_end(&arrays);
        return (palqytun_replied){.status = status};
    }
    palqytun_replied made = proved_propose(held, handle, &lent_value, &lent_policy);
    handle_give(held);
    lend_end(&arrays);
    return made;
}

palqytun_replied palqytun_propose_retryable(palqytun_vm *vm, uint32_t handle, uint64_t duration_millis, const palqytun_error *error, const palqytun_policy *policy)
{
    uint32_t status = PALQYTUN_DONE;
    palqytun_error lent_error = {0};
    palqytun_policy lent_policy = {0};
    lend_error(&status, error, &lent_error);
    lend_policy(&status, policy, &lent_policy);
    palqytun_held *held = handle_take(&status, vm, A_VM);
    if (status != PALQYTUN_DONE)
        return (palqytun_replied){.status = status};
    palqytun_replied made = proved_propose_retryable(held, handle, duration_millis, &lent_error, &lent_policy);
    handle_give(held);
    return made;
}

palqytun_replied palqytun_call(palqytun_vm *vm, const palqytun_target *target, palqytun_bytes input, palqytun_bytes name, bool unstable)
{
    uint32_t status = PALQYTUN_DONE;
    lent_arrays arrays = {0};
    palqytun_target lent_target = {0};
    lend_target(&status, target, &lent_target, &arrays);
    lend_bytes(&status, &input);
    lend_bytes(&status, &name);
    palqytun_held *held = handle_take(&status, vm, A_VM);
    if (status != PALQYTUN_DONE) {
        lend_end(&arrays);
        return (palqytun_replied){.status = status};
    }
    palqytun_replied made = proved_call(held, &lent_target, input, name, unstable);
    handle_give(held);
    lend_end(&arrays);
    return made;
}

palqytun_replied palqytun_call_with_deadline(palqytun_vm *vm, const palqytun_target *target, palqytun_bytes input, uint64_t deadline_millis, palqytun_bytes name, bool unstable)
{
    uint32_t status = PALQYTUN_DONE;
    lent_arrays arrays = {0};
    palqytun_target lent_target = {0};
    lend_target(&status, target, &lent_target, &arrays);
    lend_bytes(&status, &input);
    lend_bytes(&status, &name);
    palqytun_held *held = handle_take(&status, vm, A_VM);
    if (status != PALQYTUN_DONE) {
        lend_end(&arrays);
        return (palqytun_replied){.status = status};
    }
    palqytun_replied made = proved_call_with_deadline(held, &lent_target, input, deadline_millis, name, unstable);
    handle_give(held);
    lend_end(&arrays);
    return made;
}

palqytun_replied palqytun_send(palqytun_vm *vm, const palqytun_target *target, palqytun_bytes input, uint64_t at_millis, palqytun_bytes name, bool unstable)
{
    uint32_t status = PALQYTUN_DONE;
    lent_arrays arrays = {0};
    palqytun_target lent_target = {0};
    lend_target(&status, target, &lent_target, &arrays);
    lend_bytes(&status, &input);
    lend_bytes(&status, &name);
    palqytun_held *held = handle_take(&status, vm, A_VM);
    if (status != PALQYTUN_DONE) {
        lend_end(&arrays);
        return (palqytun_replied){.status = status};
    }
    palqytun_replied made = proved_send(held, &lent_target, input, at_millis, name, unstable);
    handle_give(held);
    lend_end(&arrays);
    return made;
}
