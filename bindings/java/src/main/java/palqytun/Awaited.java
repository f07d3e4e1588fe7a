package palqytun;

/** What an await says. */
public sealed interface Awaited permits Awaited.Awake, Awaited.Waiting, Awaited.ExecuteRun, Awaited.EphemeralReady, Awaited.Cancelled {
    /** The future is awake: results of it can be taken. */
    record Awake() implements Awaited {}

    /** Nothing awaited is there yet: whether more input may bring it, and whether the result of a run may. */
    record Waiting(boolean input, boolean run) implements Awaited {}

    /** A run is to be executed now. */
    record ExecuteRun(int handle) implements Awaited {}

    /** The value of an ephemeral read is there. */
    record EphemeralReady(int id) implements Awaited {}

    /** The invocation was cancelled. */
    record Cancelled() implements Awaited {}
}
