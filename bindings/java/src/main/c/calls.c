/* The calls of palqytun_abi.h with values of the language. */
/* tools/header --write writes this file, from palqytun.h. */
#include "glue.h"

static palqytun_options read_options(struct lent *lent, it_value of)
{
    palqytun_options made = {0};
    made.cancellation = read_u32(lent, field(lent, of, "cancellation"));
    made.checks = read_u32(lent, field(lent, of, "checks"));
    made.awaiting = read_u32(lent, field(lent, of, "awaiting"));
    made.mismatch = read_u32(lent, field(lent, of, "mismatch"));
    made.replay = read_u32(lent, field(lent, of, "replay"));
    made.delivery = read_u32(lent, field(lent, of, "delivery"));
    made.seed = read_u64(lent, field(lent, of, "seed"));
    return made;
}

static palqytun_target read_target(struct lent *lent, it_value of)
{
    palqytun_target made = {0};
    made.service = read_bytes(lent, field(lent, of, "service"));
    made.handler = read_bytes(lent, field(lent, of, "handler"));
    made.key = read_optional(lent, field(lent, of, "key"));
    made.idempotency_key = read_optional(lent, field(lent, of, "idempotency_key"));
    made.scope = read_optional(lent, field(lent, of, "scope"));
    made.limit_key = read_optional(lent, field(lent, of, "limit_key"));
    made.headers = read_pairs(lent, field(lent, of, "headers"), &made.headers_len);
    return made;
}

static palqytun_value read_value(struct lent *lent, it_value of)
{
    palqytun_value made = {0};
    made.is_failure = read_bool(lent, field(lent, of, "is_failure"));
    made.code = read_u16(lent, field(lent, of, "code"));
    made.bytes = read_bytes(lent, field(lent, of, "bytes"));
    made.metadata = read_pairs(lent, field(lent, of, "metadata"), &made.metadata_len);
    return made;
}

static palqytun_error read_error(struct lent *lent, it_value of)
{
    palqytun_error made = {0};
    made.code = read_u16(lent, field(lent, of, "code"));
    made.behavior = read_u32(lent, field(lent, of, "behavior"));
    made.message = read_bytes(lent, field(lent, of, "message"));
    made.stacktrace = read_bytes(lent, field(lent, of, "stacktrace"));
    made.has_delay = read_bool(lent, field(lent, of, "has_delay"));
    made.delay_millis = read_u64(lent, field(lent, of, "delay_millis"));
    return made;
}

static palqytun_command read_command(struct lent *lent, it_value of)
{
    palqytun_command made = {0};
    made.kind = read_u32(lent, field(lent, of, "kind"));
    made.index = read_u32(lent, field(lent, of, "index"));
    made.type = read_u32(lent, field(lent, of, "type"));
    made.name = read_optional(lent, field(lent, of, "name"));
    return made;
}

static palqytun_invocation read_invocation(struct lent *lent, it_value of)
{
    palqytun_invocation made = {0};
    made.kind = read_u32(lent, field(lent, of, "kind"));
    made.name = read_bytes(lent, field(lent, of, "name"));
    made.key = read_bytes(lent, field(lent, of, "key"));
    made.handler = read_bytes(lent, field(lent, of, "handler"));
    made.service_key = read_optional(lent, field(lent, of, "service_key"));
    made.scope = read_optional(lent, field(lent, of, "scope"));
    return made;
}

static palqytun_policy read_policy(struct lent *lent, it_value of)
{
    palqytun_policy made = {0};
    made.kind = read_u32(lent, field(lent, of, "kind"));
    made.initial_millis = read_u64(lent, field(lent, of, "initial_millis"));
    made.numerator = read_u32(lent, field(lent, of, "numerator"));
    made.denominator = read_u32(lent, field(lent, of, "denominator"));
    made.has_interval = read_bool(lent, field(lent, of, "has_interval"));
    made.interval_millis = read_u64(lent, field(lent, of, "interval_millis"));
    made.has_attempts = read_bool(lent, field(lent, of, "has_attempts"));
    made.attempts = read_u32(lent, field(lent, of, "attempts"));
    made.has_duration = read_bool(lent, field(lent, of, "has_duration"));
    made.duration_millis = read_u64(lent, field(lent, of, "duration_millis"));
    made.pauses = read_bool(lent, field(lent, of, "pauses"));
    return made;
}

CALL(feed)
{
    BEGIN(2);
    uintptr_t vm = read_handle(&lent, ARG(0));
    palqytun_bytes bytes = read_bytes(&lent, ARG(1));
    uint32_t status = 0;
    if (is_read(&lent))
        status = pq_feed(vm, bytes.at, bytes.len);
    return give_status(&lent, status);
}

CALL(take_output)
{
    BEGIN(1);
    uintptr_t vm = read_handle(&lent, ARG(0));
    struct out out = {0};
    do
        if (is_read(&lent))
            pq_take_output(vm, out_at(&out), out_len(&out), &out.told);
    while (is_short(&out));
    return give_bytes(&lent, &out);
}

CALL(part)
{
    BEGIN(2);
    uintptr_t vm = read_handle(&lent, ARG(0));
    size_t at = read_size(&lent, ARG(1));
    struct out out = {0};
    do
        if (is_read(&lent))
            pq_part(vm, at, out_at(&out), out_len(&out), &out.told);
    while (is_short(&out));
    return give_bytes(&lent, &out);
}

CALL(next_retry)
{
    BEGIN(1);
    uintptr_t vm = read_handle(&lent, ARG(0));
    palqytun_retry returned = {0};
    if (is_read(&lent))
        pq_next_retry(vm, &returned);
    static const char *const names[] = {"status", "behavior", "has_delay", "delay_millis"};
    const uint64_t values[] = {returned.status, returned.behavior, returned.has_delay, returned.delay_millis};
    return give_row(&lent, names, values, 4);
}

CALL(make)
{
    BEGIN(3);
    uintptr_t vm = read_handle(&lent, ARG(0));
    palqytun_bytes content_type = read_lent(&lent, ARG(1));
    palqytun_options options = read_options(&lent, ARG(2));
    palqytun_replied returned = {0};
    if (is_read(&lent))
        pq_make(vm, content_type.at, content_type.len, &options, &returned);
    return give_replied(&lent, &returned);
}

CALL(is_ready)
{
    BEGIN(1);
    uintptr_t vm = read_handle(&lent, ARG(0));
    palqytun_replied returned = {0};
    if (is_read(&lent))
        pq_is_ready(vm, &returned);
    return give_replied(&lent, &returned);
}

CALL(head)
{
    BEGIN(1);
    uintptr_t vm = read_handle(&lent, ARG(0));
    palqytun_replied returned = {0};
    if (is_read(&lent))
        pq_head(vm, &returned);
    return give_replied(&lent, &returned);
}

CALL(close_input)
{
    BEGIN(1);
    uintptr_t vm = read_handle(&lent, ARG(0));
    palqytun_replied returned = {0};
    if (is_read(&lent))
        pq_close_input(vm, &returned);
    return give_replied(&lent, &returned);
}

CALL(output)
{
    BEGIN(1);
    uintptr_t vm = read_handle(&lent, ARG(0));
    palqytun_replied returned = {0};
    if (is_read(&lent))
        pq_output(vm, &returned);
    return give_replied(&lent, &returned);
}

CALL(state)
{
    BEGIN(1);
    uintptr_t vm = read_handle(&lent, ARG(0));
    palqytun_replied returned = {0};
    if (is_read(&lent))
        pq_state(vm, &returned);
    return give_replied(&lent, &returned);
}

CALL(last_command_index)
{
    BEGIN(1);
    uintptr_t vm = read_handle(&lent, ARG(0));
    palqytun_replied returned = {0};
    if (is_read(&lent))
        pq_last_command_index(vm, &returned);
    return give_replied(&lent, &returned);
}

CALL(describe)
{
    BEGIN(1);
    uintptr_t vm = read_handle(&lent, ARG(0));
    struct out out = {0};
    do
        if (is_read(&lent))
            pq_describe(vm, out_at(&out), out_len(&out), &out.told);
    while (is_short(&out));
    return give_bytes(&lent, &out);
}

CALL(report_error)
{
    BEGIN(3);
    uintptr_t vm = read_handle(&lent, ARG(0));
    palqytun_error error = read_error(&lent, ARG(1));
    palqytun_command related = read_command(&lent, ARG(2));
    palqytun_replied returned = {0};
    if (is_read(&lent))
        pq_report_error(vm, &error, &related, &returned);
    return give_replied(&lent, &returned);
}

CALL(input)
{
    BEGIN(1);
    uintptr_t vm = read_handle(&lent, ARG(0));
    palqytun_replied returned = {0};
    if (is_read(&lent))
        pq_input(vm, &returned);
    return give_replied(&lent, &returned);
}

CALL(await)
{
    BEGIN(2);
    uintptr_t vm = read_handle(&lent, ARG(0));
    uint32_t handle = read_u32(&lent, ARG(1));
    palqytun_replied returned = {0};
    if (is_read(&lent))
        pq_await(vm, handle, &returned);
    return give_replied(&lent, &returned);
}

CALL(await_tree)
{
    BEGIN(2);
    uintptr_t vm = read_handle(&lent, ARG(0));
    size_t nodes_len = 0;
    const palqytun_node *nodes = read_nodes(&lent, ARG(1), &nodes_len);
    palqytun_replied returned = {0};
    if (is_read(&lent))
        pq_await_tree(vm, nodes, nodes_len, &returned);
    return give_replied(&lent, &returned);
}

CALL(take)
{
    BEGIN(2);
    uintptr_t vm = read_handle(&lent, ARG(0));
    uint32_t handle = read_u32(&lent, ARG(1));
    palqytun_replied returned = {0};
    if (is_read(&lent))
        pq_take(vm, handle, &returned);
    return give_replied(&lent, &returned);
}

CALL(is_completed)
{
    BEGIN(2);
    uintptr_t vm = read_handle(&lent, ARG(0));
    uint32_t handle = read_u32(&lent, ARG(1));
    palqytun_replied returned = {0};
    if (is_read(&lent))
        pq_is_completed(vm, handle, &returned);
    return give_replied(&lent, &returned);
}

CALL(sleep)
{
    BEGIN(3);
    uintptr_t vm = read_handle(&lent, ARG(0));
    palqytun_bytes name = read_bytes(&lent, ARG(1));
    uint64_t wake_up_millis = read_u64(&lent, ARG(2));
    palqytun_replied returned = {0};
    if (is_read(&lent))
        pq_sleep(vm, name.at, name.len, wake_up_millis, &returned);
    return give_replied(&lent, &returned);
}

CALL(state_get)
{
    BEGIN(3);
    uintptr_t vm = read_handle(&lent, ARG(0));
    palqytun_bytes key = read_bytes(&lent, ARG(1));
    palqytun_bytes name = read_bytes(&lent, ARG(2));
    palqytun_replied returned = {0};
    if (is_read(&lent))
        pq_state_get(vm, key.at, key.len, name.at, name.len, &returned);
    return give_replied(&lent, &returned);
}

CALL(state_get_keys)
{
    BEGIN(2);
    uintptr_t vm = read_handle(&lent, ARG(0));
    palqytun_bytes name = read_bytes(&lent, ARG(1));
    palqytun_replied returned = {0};
    if (is_read(&lent))
        pq_state_get_keys(vm, name.at, name.len, &returned);
    return give_replied(&lent, &returned);
}

CALL(state_set)
{
    BEGIN(5);
    uintptr_t vm = read_handle(&lent, ARG(0));
    palqytun_bytes key = read_bytes(&lent, ARG(1));
    palqytun_bytes value = read_bytes(&lent, ARG(2));
    palqytun_bytes name = read_bytes(&lent, ARG(3));
    bool unstable = read_bool(&lent, ARG(4));
    palqytun_replied returned = {0};
    if (is_read(&lent))
        pq_state_set(vm, key.at, key.len, value.at, value.len, name.at, name.len, unstable, &returned);
    return give_replied(&lent, &returned);
}

CALL(state_clear)
{
    BEGIN(3);
    uintptr_t vm = read_handle(&lent, ARG(0));
    palqytun_bytes key = read_bytes(&lent, ARG(1));
    palqytun_bytes name = read_bytes(&lent, ARG(2));
    palqytun_replied returned = {0};
    if (is_read(&lent))
        pq_state_clear(vm, key.at, key.len, name.at, name.len, &returned);
    return give_replied(&lent, &returned);
}

CALL(state_clear_all)
{
    BEGIN(2);
    uintptr_t vm = read_handle(&lent, ARG(0));
    palqytun_bytes name = read_bytes(&lent, ARG(1));
    palqytun_replied returned = {0};
    if (is_read(&lent))
        pq_state_clear_all(vm, name.at, name.len, &returned);
    return give_replied(&lent, &returned);
}

CALL(ephemeral_state_get)
{
    BEGIN(2);
    uintptr_t vm = read_handle(&lent, ARG(0));
    palqytun_bytes key = read_bytes(&lent, ARG(1));
    palqytun_replied returned = {0};
    if (is_read(&lent))
        pq_ephemeral_state_get(vm, key.at, key.len, &returned);
    return give_replied(&lent, &returned);
}

CALL(take_ephemeral)
{
    BEGIN(2);
    uintptr_t vm = read_handle(&lent, ARG(0));
    uint32_t id = read_u32(&lent, ARG(1));
    palqytun_replied returned = {0};
    if (is_read(&lent))
        pq_take_ephemeral(vm, id, &returned);
    return give_replied(&lent, &returned);
}

CALL(call)
{
    BEGIN(5);
    uintptr_t vm = read_handle(&lent, ARG(0));
    palqytun_target target = read_target(&lent, ARG(1));
    palqytun_bytes input = read_bytes(&lent, ARG(2));
    palqytun_bytes name = read_bytes(&lent, ARG(3));
    bool unstable = read_bool(&lent, ARG(4));
    palqytun_replied returned = {0};
    if (is_read(&lent))
        pq_call(vm, &target, input.at, input.len, name.at, name.len, unstable, &returned);
    return give_replied(&lent, &returned);
}

CALL(call_with_deadline)
{
    BEGIN(6);
    uintptr_t vm = read_handle(&lent, ARG(0));
    palqytun_target target = read_target(&lent, ARG(1));
    palqytun_bytes input = read_bytes(&lent, ARG(2));
    uint64_t deadline_millis = read_u64(&lent, ARG(3));
    palqytun_bytes name = read_bytes(&lent, ARG(4));
    bool unstable = read_bool(&lent, ARG(5));
    palqytun_replied returned = {0};
    if (is_read(&lent))
        pq_call_with_deadline(vm, &target, input.at, input.len, deadline_millis, name.at, name.len, unstable, &returned);
    return give_replied(&lent, &returned);
}

CALL(send)
{
    BEGIN(6);
    uintptr_t vm = read_handle(&lent, ARG(0));
    palqytun_target target = read_target(&lent, ARG(1));
    palqytun_bytes input = read_bytes(&lent, ARG(2));
    uint64_t at_millis = read_u64(&lent, ARG(3));
    palqytun_bytes name = read_bytes(&lent, ARG(4));
    bool unstable = read_bool(&lent, ARG(5));
    palqytun_replied returned = {0};
    if (is_read(&lent))
        pq_send(vm, &target, input.at, input.len, at_millis, name.at, name.len, unstable, &returned);
    return give_replied(&lent, &returned);
}

CALL(cancel_invocation)
{
    BEGIN(2);
    uintptr_t vm = read_handle(&lent, ARG(0));
    palqytun_bytes invocation_id = read_bytes(&lent, ARG(1));
    palqytun_replied returned = {0};
    if (is_read(&lent))
        pq_cancel_invocation(vm, invocation_id.at, invocation_id.len, &returned);
    return give_replied(&lent, &returned);
}

CALL(attach)
{
    BEGIN(2);
    uintptr_t vm = read_handle(&lent, ARG(0));
    palqytun_invocation invocation = read_invocation(&lent, ARG(1));
    palqytun_replied returned = {0};
    if (is_read(&lent))
        pq_attach(vm, &invocation, &returned);
    return give_replied(&lent, &returned);
}

CALL(get_output)
{
    BEGIN(2);
    uintptr_t vm = read_handle(&lent, ARG(0));
    palqytun_invocation invocation = read_invocation(&lent, ARG(1));
    palqytun_replied returned = {0};
    if (is_read(&lent))
        pq_get_output(vm, &invocation, &returned);
    return give_replied(&lent, &returned);
}

CALL(awakeable)
{
    BEGIN(1);
    uintptr_t vm = read_handle(&lent, ARG(0));
    palqytun_replied returned = {0};
    if (is_read(&lent))
        pq_awakeable(vm, &returned);
    return give_replied(&lent, &returned);
}

CALL(complete_awakeable)
{
    BEGIN(4);
    uintptr_t vm = read_handle(&lent, ARG(0));
    palqytun_bytes id = read_bytes(&lent, ARG(1));
    palqytun_value value = read_value(&lent, ARG(2));
    bool unstable = read_bool(&lent, ARG(3));
    palqytun_replied returned = {0};
    if (is_read(&lent))
        pq_complete_awakeable(vm, id.at, id.len, &value, unstable, &returned);
    return give_replied(&lent, &returned);
}

CALL(signal)
{
    BEGIN(2);
    uintptr_t vm = read_handle(&lent, ARG(0));
    palqytun_bytes name = read_bytes(&lent, ARG(1));
    palqytun_replied returned = {0};
    if (is_read(&lent))
        pq_signal(vm, name.at, name.len, &returned);
    return give_replied(&lent, &returned);
}

CALL(complete_signal)
{
    BEGIN(4);
    uintptr_t vm = read_handle(&lent, ARG(0));
    palqytun_bytes invocation_id = read_bytes(&lent, ARG(1));
    palqytun_bytes name = read_bytes(&lent, ARG(2));
    palqytun_value value = read_value(&lent, ARG(3));
    palqytun_replied returned = {0};
    if (is_read(&lent))
        pq_complete_signal(vm, invocation_id.at, invocation_id.len, name.at, name.len, &value, &returned);
    return give_replied(&lent, &returned);
}

CALL(get_promise)
{
    BEGIN(2);
    uintptr_t vm = read_handle(&lent, ARG(0));
    palqytun_bytes key = read_bytes(&lent, ARG(1));
    palqytun_replied returned = {0};
    if (is_read(&lent))
        pq_get_promise(vm, key.at, key.len, &returned);
    return give_replied(&lent, &returned);
}

CALL(peek_promise)
{
    BEGIN(2);
    uintptr_t vm = read_handle(&lent, ARG(0));
    palqytun_bytes key = read_bytes(&lent, ARG(1));
    palqytun_replied returned = {0};
    if (is_read(&lent))
        pq_peek_promise(vm, key.at, key.len, &returned);
    return give_replied(&lent, &returned);
}

CALL(complete_promise)
{
    BEGIN(4);
    uintptr_t vm = read_handle(&lent, ARG(0));
    palqytun_bytes key = read_bytes(&lent, ARG(1));
    palqytun_value value = read_value(&lent, ARG(2));
    bool unstable = read_bool(&lent, ARG(3));
    palqytun_replied returned = {0};
    if (is_read(&lent))
        pq_complete_promise(vm, key.at, key.len, &value, unstable, &returned);
    return give_replied(&lent, &returned);
}

CALL(run)
{
    BEGIN(2);
    uintptr_t vm = read_handle(&lent, ARG(0));
    palqytun_bytes name = read_bytes(&lent, ARG(1));
    palqytun_replied returned = {0};
    if (is_read(&lent))
        pq_run(vm, name.at, name.len, &returned);
    return give_replied(&lent, &returned);
}

CALL(propose)
{
    BEGIN(4);
    uintptr_t vm = read_handle(&lent, ARG(0));
    uint32_t handle = read_u32(&lent, ARG(1));
    palqytun_value value = read_value(&lent, ARG(2));
    palqytun_policy policy = read_policy(&lent, ARG(3));
    palqytun_replied returned = {0};
    if (is_read(&lent))
        pq_propose(vm, handle, &value, &policy, &returned);
    return give_replied(&lent, &returned);
}

CALL(propose_retryable)
{
    BEGIN(5);
    uintptr_t vm = read_handle(&lent, ARG(0));
    uint32_t handle = read_u32(&lent, ARG(1));
    uint64_t duration_millis = read_u64(&lent, ARG(2));
    palqytun_error error = read_error(&lent, ARG(3));
    palqytun_policy policy = read_policy(&lent, ARG(4));
    palqytun_replied returned = {0};
    if (is_read(&lent))
        pq_propose_retryable(vm, handle, duration_millis, &error, &policy, &returned);
    return give_replied(&lent, &returned);
}

CALL(write_output)
{
    BEGIN(3);
    uintptr_t vm = read_handle(&lent, ARG(0));
    palqytun_value value = read_value(&lent, ARG(1));
    bool unstable = read_bool(&lent, ARG(2));
    palqytun_replied returned = {0};
    if (is_read(&lent))
        pq_write_output(vm, &value, unstable, &returned);
    return give_replied(&lent, &returned);
}

CALL(end)
{
    BEGIN(1);
    uintptr_t vm = read_handle(&lent, ARG(0));
    palqytun_replied returned = {0};
    if (is_read(&lent))
        pq_end(vm, &returned);
    return give_replied(&lent, &returned);
}

CALL(journal_entries)
{
    BEGIN(1);
    uintptr_t journal = read_handle(&lent, ARG(0));
    palqytun_told returned = {0};
    if (is_read(&lent))
        pq_journal_entries(journal, &returned);
    static const char *const names[] = {"status", "len"};
    const uint64_t values[] = {returned.status, returned.len};
    return give_row(&lent, names, values, 2);
}

CALL(journal_entry)
{
    BEGIN(2);
    uintptr_t journal = read_handle(&lent, ARG(0));
    palqytun_bytes entry = read_bytes(&lent, ARG(1));
    palqytun_row returned = {0};
    if (is_read(&lent))
        pq_journal_entry(journal, entry.at, entry.len, &returned);
    static const char *const names[] = {"status", "type", "is_completion", "completes", "len"};
    const uint64_t values[] = {returned.status, returned.type, returned.is_completion, returned.completes, returned.len};
    return give_row(&lent, names, values, 5);
}

CALL(journal_arrive)
{
    BEGIN(2);
    uintptr_t journal = read_handle(&lent, ARG(0));
    palqytun_bytes entry = read_bytes(&lent, ARG(1));
    palqytun_row returned = {0};
    if (is_read(&lent))
        pq_journal_arrive(journal, entry.at, entry.len, &returned);
    static const char *const names[] = {"status", "type", "is_completion", "completes", "len"};
    const uint64_t values[] = {returned.status, returned.type, returned.is_completion, returned.completes, returned.len};
    return give_row(&lent, names, values, 5);
}

CALL(journal_store)
{
    BEGIN(3);
    uintptr_t journal = read_handle(&lent, ARG(0));
    uint32_t version = read_u32(&lent, ARG(1));
    palqytun_bytes output = read_bytes(&lent, ARG(2));
    palqytun_stored returned = {0};
    if (is_read(&lent))
        pq_journal_store(journal, version, output.at, output.len, &returned);
    static const char *const names[] = {"status", "rows", "feed"};
    const uint64_t values[] = {returned.status, returned.rows, returned.feed};
    return give_row(&lent, names, values, 3);
}

CALL(journal_row)
{
    BEGIN(2);
    uintptr_t journal = read_handle(&lent, ARG(0));
    size_t at = read_size(&lent, ARG(1));
    palqytun_row returned = {0};
    if (is_read(&lent))
        pq_journal_row(journal, at, &returned);
    static const char *const names[] = {"status", "type", "is_completion", "completes", "len"};
    const uint64_t values[] = {returned.status, returned.type, returned.is_completion, returned.completes, returned.len};
    return give_row(&lent, names, values, 5);
}

CALL(journal_frame)
{
    BEGIN(2);
    uintptr_t journal = read_handle(&lent, ARG(0));
    size_t at = read_size(&lent, ARG(1));
    struct out out = {0};
    do
        if (is_read(&lent))
            pq_journal_frame(journal, at, out_at(&out), out_len(&out), &out.told);
    while (is_short(&out));
    return give_bytes(&lent, &out);
}

CALL(journal_effect)
{
    BEGIN(2);
    uintptr_t journal = read_handle(&lent, ARG(0));
    size_t at = read_size(&lent, ARG(1));
    palqytun_effect returned = {0};
    if (is_read(&lent))
        pq_journal_effect(journal, at, &returned);
    static const char *const names[] = {"status", "kind", "is_awaited", "completes", "id_completes", "target", "time", "headers"};
    const uint64_t values[] = {returned.status, returned.kind, returned.is_awaited, returned.completes, returned.id_completes, returned.target, returned.time, returned.headers};
    return give_row(&lent, names, values, 8);
}

CALL(journal_effect_part)
{
    BEGIN(3);
    uintptr_t journal = read_handle(&lent, ARG(0));
    size_t at = read_size(&lent, ARG(1));
    size_t place = read_size(&lent, ARG(2));
    struct out out = {0};
    do
        if (is_read(&lent))
            pq_journal_effect_part(journal, at, place, out_at(&out), out_len(&out), &out.told);
    while (is_short(&out));
    return give_bytes(&lent, &out);
}

CALL(journal_answer)
{
    BEGIN(1);
    uintptr_t journal = read_handle(&lent, ARG(0));
    struct out out = {0};
    do
        if (is_read(&lent))
            pq_journal_answer(journal, out_at(&out), out_len(&out), &out.told);
    while (is_short(&out));
    return give_bytes(&lent, &out);
}

CALL(journal_keep)
{
    BEGIN(1);
    uintptr_t journal = read_handle(&lent, ARG(0));
    uint32_t status = 0;
    if (is_read(&lent))
        status = pq_journal_keep(journal);
    return give_status(&lent, status);
}

CALL(journal_undo)
{
    BEGIN(1);
    uintptr_t journal = read_handle(&lent, ARG(0));
    uint32_t status = 0;
    if (is_read(&lent))
        status = pq_journal_undo(journal);
    return give_status(&lent, status);
}

CALL(frame_line)
{
    BEGIN(1);
    palqytun_bytes frame = read_bytes(&lent, ARG(0));
    struct out out = {0};
    do
        if (is_read(&lent))
            pq_frame_line(frame.at, frame.len, out_at(&out), out_len(&out), &out.told);
    while (is_short(&out));
    return give_bytes(&lent, &out);
}

CALL(line_frame)
{
    BEGIN(1);
    palqytun_bytes line = read_bytes(&lent, ARG(0));
    struct out out = {0};
    do
        if (is_read(&lent))
            pq_line_frame(line.at, line.len, out_at(&out), out_len(&out), &out.told);
    while (is_short(&out));
    return give_bytes(&lent, &out);
}

CALL(notification)
{
    BEGIN(4);
    uint32_t kind = read_u32(&lent, ARG(0));
    uint32_t id = read_u32(&lent, ARG(1));
    palqytun_bytes name = read_bytes(&lent, ARG(2));
    palqytun_bytes frame = read_bytes(&lent, ARG(3));
    struct out out = {0};
    do
        if (is_read(&lent))
            pq_notification(kind, id, name.at, name.len, frame.at, frame.len, out_at(&out), out_len(&out), &out.told);
    while (is_short(&out));
    return give_bytes(&lent, &out);
}

CALL(is_awake)
{
    BEGIN(2);
    palqytun_bytes suspension = read_bytes(&lent, ARG(0));
    palqytun_bytes notifications = read_bytes(&lent, ARG(1));
    palqytun_judged returned = {0};
    if (is_read(&lent))
        pq_is_awake(suspension.at, suspension.len, notifications.at, notifications.len, &returned);
    static const char *const names[] = {"status", "is_awake"};
    const uint64_t values[] = {returned.status, returned.is_awake};
    return give_row(&lent, names, values, 2);
}

CALL(frame_read)
{
    BEGIN(1);
    palqytun_bytes frame = read_bytes(&lent, ARG(0));
    palqytun_frame_row returned = {0};
    if (is_read(&lent))
        pq_frame_read(frame.at, frame.len, &returned);
    static const char *const names[] = {"status", "type", "kind", "result", "id", "second", "number", "rows"};
    const uint64_t values[] = {returned.status, returned.type, returned.kind, returned.result, returned.id, returned.second, returned.number, returned.rows};
    return give_row(&lent, names, values, 8);
}

CALL(frame_part)
{
    BEGIN(2);
    palqytun_bytes frame = read_bytes(&lent, ARG(0));
    size_t at = read_size(&lent, ARG(1));
    struct out out = {0};
    do
        if (is_read(&lent))
            pq_frame_part(frame.at, frame.len, at, out_at(&out), out_len(&out), &out.told);
    while (is_short(&out));
    return give_bytes(&lent, &out);
}

CALL(value_frame)
{
    BEGIN(1);
    palqytun_bytes value = read_bytes(&lent, ARG(0));
    struct out out = {0};
    do
        if (is_read(&lent))
            pq_value_frame(value.at, value.len, out_at(&out), out_len(&out), &out.told);
    while (is_short(&out));
    return give_bytes(&lent, &out);
}

CALL(input_frame)
{
    BEGIN(2);
    palqytun_bytes frame = read_bytes(&lent, ARG(0));
    palqytun_bytes value = read_bytes(&lent, ARG(1));
    struct out out = {0};
    do
        if (is_read(&lent))
            pq_input_frame(frame.at, frame.len, value.at, value.len, out_at(&out), out_len(&out), &out.told);
    while (is_short(&out));
    return give_bytes(&lent, &out);
}

CALL(difference)
{
    BEGIN(3);
    palqytun_bytes recorded = read_bytes(&lent, ARG(0));
    palqytun_bytes asked = read_bytes(&lent, ARG(1));
    bool ignore_payloads = read_bool(&lent, ARG(2));
    struct out out = {0};
    do
        if (is_read(&lent))
            pq_difference(recorded.at, recorded.len, asked.at, asked.len, ignore_payloads, out_at(&out), out_len(&out), &out.told);
    while (is_short(&out));
    return give_bytes(&lent, &out);
}

CALL(mismatch)
{
    BEGIN(3);
    palqytun_bytes fed = read_bytes(&lent, ARG(0));
    uint32_t index = read_u32(&lent, ARG(1));
    uint32_t type = read_u32(&lent, ARG(2));
    palqytun_compared returned = {0};
    if (is_read(&lent))
        pq_mismatch(fed.at, fed.len, index, type, &returned);
    static const char *const names[] = {"status", "is_recorded", "recorded", "is_asked", "asked", "is_lazy"};
    const uint64_t values[] = {returned.status, returned.is_recorded, returned.recorded, returned.is_asked, returned.asked, returned.is_lazy};
    return give_row(&lent, names, values, 6);
}

CALL(mismatch_part)
{
    BEGIN(6);
    palqytun_bytes fed = read_bytes(&lent, ARG(0));
    uint32_t index = read_u32(&lent, ARG(1));
    uint32_t type = read_u32(&lent, ARG(2));
    palqytun_bytes asked = read_bytes(&lent, ARG(3));
    bool ignore_payloads = read_bool(&lent, ARG(4));
    size_t at = read_size(&lent, ARG(5));
    struct out out = {0};
    do
        if (is_read(&lent))
            pq_mismatch_part(fed.at, fed.len, index, type, asked.at, asked.len, ignore_payloads, at, out_at(&out), out_len(&out), &out.told);
    while (is_short(&out));
    return give_bytes(&lent, &out);
}

const struct made CALLS[] = {
    MAKES(feed)
    MAKES(take_output)
    MAKES(part)
    MAKES(next_retry)
    MAKES(make)
    MAKES(is_ready)
    MAKES(head)
    MAKES(close_input)
    MAKES(output)
    MAKES(state)
    MAKES(last_command_index)
    MAKES(describe)
    MAKES(report_error)
    MAKES(input)
    MAKES(await)
    MAKES(await_tree)
    MAKES(take)
    MAKES(is_completed)
    MAKES(sleep)
    MAKES(state_get)
    MAKES(state_get_keys)
    MAKES(state_set)
    MAKES(state_clear)
    MAKES(state_clear_all)
    MAKES(ephemeral_state_get)
    MAKES(take_ephemeral)
    MAKES(call)
    MAKES(call_with_deadline)
    MAKES(send)
    MAKES(cancel_invocation)
    MAKES(attach)
    MAKES(get_output)
    MAKES(awakeable)
    MAKES(complete_awakeable)
    MAKES(signal)
    MAKES(complete_signal)
    MAKES(get_promise)
    MAKES(peek_promise)
    MAKES(complete_promise)
    MAKES(run)
    MAKES(propose)
    MAKES(propose_retryable)
    MAKES(write_output)
    MAKES(end)
    MAKES(journal_entries)
    MAKES(journal_entry)
    MAKES(journal_arrive)
    MAKES(journal_store)
    MAKES(journal_row)
    MAKES(journal_frame)
    MAKES(journal_effect)
    MAKES(journal_effect_part)
    MAKES(journal_answer)
    MAKES(journal_keep)
    MAKES(journal_undo)
    MAKES(frame_line)
    MAKES(line_frame)
    MAKES(notification)
    MAKES(is_awake)
    MAKES(frame_read)
    MAKES(frame_part)
    MAKES(value_frame)
    MAKES(input_frame)
    MAKES(difference)
    MAKES(mismatch)
    MAKES(mismatch_part)
    {0},
};
