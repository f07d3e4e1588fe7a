package palqytun;

/** An invocation to attach to. A part that is null isn't given. */
public sealed interface InvocationTarget permits InvocationTarget.InvocationId, InvocationTarget.WorkflowId, InvocationTarget.IdempotencyId {
    /** By its id; it is also a result that names an invocation. */
    record InvocationId(String id) implements InvocationTarget, Value {}

    /** By the workflow's name and key. */
    record WorkflowId(String name, String key, String scope) implements InvocationTarget {}

    /** By its idempotency key. */
    record IdempotencyId(String service, String handler, String idempotencyKey, String serviceKey, String scope) implements InvocationTarget {}
}
