// tools/header --write writes this file, from palqytun.h.
package palqytun;

/** The calls of palqytun.h, by their names and with their arguments there. */
final class Calls {
    static native Object feed(Object... given);
    static native Object take_output(Object... given);
    static native Object part(Object... given);
    static native Object next_retry(Object... given);
    static native Object make(Object... given);
    static native Object is_ready(Object... given);
    static native Object head(Object... given);
    static native Object close_input(Object... given);
    static native Object output(Object... given);
    static native Object state(Object... given);
    static native Object last_command_index(Object... given);
    static native Object describe(Object... given);
    static native Object report_error(Object... given);
    static native Object input(Object... given);
    static native Object await(Object... given);
    static native Object await_tree(Object... given);
    static native Object take(Object... given);
    static native Object is_completed(Object... given);
    static native Object sleep(Object... given);
    static native Object state_get(Object... given);
    static native Object state_get_keys(Object... given);
    static native Object state_set(Object... given);
    static native Object state_clear(Object... given);
    static native Object state_clear_all(Object... given);
    static native Object ephemeral_state_get(Object... given);
    static native Object take_ephemeral(Object... given);
    static native Object call(Object... given);
    static native Object call_with_deadline(Object... given);
    static native Object send(Object... given);
    static native Object cancel_invocation(Object... given);
    static native Object attach(Object... given);
    static native Object get_output(Object... given);
    static native Object awakeable(Object... given);
    static native Object complete_awakeable(Object... given);
    static native Object signal(Object... given);
    static native Object complete_signal(Object... given);
    static native Object get_promise(Object... given);
    static native Object peek_promise(Object... given);
    static native Object complete_promise(Object... given);
    static native Object run(Object... given);
    static native Object propose(Object... given);
    static native Object propose_retryable(Object... given);
    static native Object write_output(Object... given);
    static native Object end(Object... given);
    static native Object journal_entries(Object... given);
    static native Object journal_entry(Object... given);
    static native Object journal_arrive(Object... given);
    static native Object journal_store(Object... given);
    static native Object journal_row(Object... given);
    static native Object journal_frame(Object... given);
    static native Object journal_effect(Object... given);
    static native Object journal_effect_part(Object... given);
    static native Object journal_answer(Object... given);
    static native Object journal_keep(Object... given);
    static native Object journal_undo(Object... given);
    static native Object frame_line(Object... given);
    static native Object line_frame(Object... given);
    static native Object notification(Object... given);
    static native Object is_awake(Object... given);
    static native Object frame_read(Object... given);
    static native Object frame_part(Object... given);
    static native Object value_frame(Object... given);
    static native Object input_frame(Object... given);
    static native Object difference(Object... given);
    static native Object mismatch(Object... given);
    static native Object mismatch_part(Object... given);

    private Calls() {}
}
