package palqytun;

import java.nio.charset.StandardCharsets;
import java.util.ArrayList;
import java.util.List;
import java.util.Optional;

/**
 * One VM, for one attempt of an invocation. Threads may share it: one call is made after the other. It is closed by {@link #close}, or once it is garbage.
 *
 * <p>Times are milliseconds since the Unix epoch. A handle is an int, and numbers of 32 and of 64 bits have no sign in the library.
 *
 * <p>A call that the VM refuses throws a {@link VMException}, and one that wasn't made a {@link StatusException}.
 */
public final class VM implements AutoCloseable {
    private static final int STATUS = 0;
    private static final int KIND = 1;
    private static final int FIRST = 2;
    private static final int SECOND = 3;
    private static final int THIRD = 4;
    private static final int NUMBER = 5;
    private static final int ROWS = 6;
    private static final String NO_NAME = "";

    /** The head of the response to the runtime. */
    public record ResponseHead(int statusCode, List<Pair> headers) {}

    /** A call: the handles of the invocation's id and of its result. */
    public record Call(int invocationId, int result) {}

    /** A call that has a deadline: the handles of the invocation's id, of its result, and of the deadline. */
    public record CallWithDeadline(int invocationId, int result, int deadline) {}

    /** An awakeable: the handle to await, and the id by which others complete it. */
    public record Awakeable(int handle, String id) {}

    /** A run: the handle of its result, and whether the journal has that result already. */
    public record Run(int handle, boolean replayed) {}

    private final Handle handle;
    private final int version;
    /** It has failed by an error that was handed in, which each later call throws. */
    private boolean failedByHandedIn;
    /** An error has failed it, which may say in what a call isn't as recorded. */
    private boolean isRefused;
    private Difference difference;
    private final Replayed replayed;

    /** A VM for the version that the content type names; null stands for an absent header. */
    public VM(String contentType) {
        this(contentType, Options.DEFAULTS);
    }

    /** The same, with options. */
    public VM(String contentType, Options options) {
        byte[] asked = Given.optional("contentType", contentType);
        Object[] given = Given.options(options);
        Library.need();
        handle = new Handle(this, Library.open(), Library::close);
        version = one(vm -> Calls.make(vm, asked, given));
        replayed = new Replayed(version, options);
    }

    /** The version of its messages. */
    public int version() {
        return version;
    }

    /** Frees its memory. It may be called again; each other call then throws a {@link StatusException}. */
    @Override
    public synchronized void close() {
        handle.close();
    }

    /** The VM in a line for a log; or its version, once it was closed. */
    @Override
    public synchronized String toString() {
        try {
            return new String(Library.written(Calls.describe(at())), StandardCharsets.UTF_8);
        } catch (StatusException closed) {
            return "VM of version " + version;
        }
    }

    // ---- The attempt

    /** The head of the response: status 200, and the content type of the version. */
    public synchronized ResponseHead getResponseHead() {
        long[] it = done(vm -> Calls.head(vm));
        return new ResponseHead((int) it[NUMBER], pairs(0, it[ROWS]));
    }

    /** The next bytes of the attempt, cut anywhere. What they spell may fail the VM, which the next call throws. */
    public synchronized void notifyInput(byte[] data) {
        Library.done(Calls.feed(at(), Given.bytes("data", data)));
        replayed.feed(data);
    }

    /** No more bytes come. */
    public synchronized void notifyInputClosed() {
        done(vm -> Calls.close_input(vm));
    }

    /**
     * The handler failed by an error of its own, which fails the VM; one that has failed keeps its first error. Each later call throws it as a
     * {@link VMException} of no other class, with any code.
     */
    public void notifyError(HandlerError error) {
        notifyError(error, new RelatedCommand.None());
    }

    /** The same, with the command that it relates to. */
    public synchronized void notifyError(HandlerError error, RelatedCommand related) {
        handIn(error, vm -> Calls.report_error(vm, Given.error(error), Given.command(related)));
    }

    /** Takes all bytes that wait to be sent: whole frames. */
    public synchronized byte[] takeOutput() {
        byte[] output = Library.written(Calls.take_output(at()));
        if (output.length > 0) {
            replayed.ends();
        }
        return output;
    }

    /** Whether the handler may begin: all known entries were fed. */
    public synchronized boolean isReadyToExecute() {
        return done(vm -> Calls.is_ready(vm))[FIRST] == 1;
    }

    public synchronized State state() {
        return State.of(done(vm -> Calls.state(vm))[FIRST]);
    }

    /** The index of the last command; -1 before any. */
    public synchronized long lastCommandIndex() {
        long[] it = done(vm -> Calls.last_command_index(vm));
        return it[KIND] == Abi.INDEX ? it[NUMBER] : -1;
    }

    // ---- Awaits

    /** Whether a handle is awake, or what to do next. */
    public synchronized Awaited doAwait(int awaited) {
        return awaited(done(vm -> Calls.await(vm, Given.u32(awaited))));
    }

    /** The same for a future. */
    public synchronized Awaited doAwait(Future future) {
        return awaited(done(vm -> Calls.await_tree(vm, Given.present("future", "a Future", future).packed())));
    }

    private Awaited awaited(long[] it) {
        if (it[KIND] != Abi.AWAKE && it[KIND] != Abi.CANCELLED) {
            replayed.ends();
        }
        return switch ((int) it[KIND]) {
            case Abi.WAITING -> new Awaited.Waiting(it[FIRST] == 1, it[SECOND] == 1);
            case Abi.EXECUTE_RUN -> new Awaited.ExecuteRun((int) it[FIRST]);
            case Abi.EPHEMERAL -> new Awaited.EphemeralReady((int) it[FIRST]);
            case Abi.CANCELLED -> new Awaited.Cancelled();
            default -> new Awaited.Awake();
        };
    }

    /** Whether a take of the handle would return a value. */
    public synchronized boolean isCompleted(int asked) {
        return done(vm -> Calls.is_completed(vm, Given.u32(asked)))[FIRST] == 1;
    }

    /** Takes the result of a handle, if it has one. */
    public synchronized Optional<Value> takeNotification(int asked) {
        return taken(done(vm -> Calls.take(vm, Given.u32(asked))));
    }

    /** Takes the value of an ephemeral read, {@link Value#NOTHING} if the key has none; or nothing if it isn't there. */
    public synchronized Optional<Value> takeEphemeralNotification(int id) {
        return taken(done(vm -> Calls.take_ephemeral(vm, Given.u32(id))));
    }

    private Optional<Value> taken(long[] it) {
        return switch ((int) it[KIND]) {
            case Abi.VOID -> Optional.of(Value.NOTHING);
            case Abi.VALUE -> Optional.of(new Result.Success(part(0)));
            case Abi.FAILURE -> Optional.of(new Result.Failure((int) it[NUMBER], text(0), pairs(1, it[ROWS])));
            case Abi.KEYS -> Optional.of(new Value.Keys(texts(it[ROWS])));
            case Abi.INVOCATION_ID -> Optional.of(new InvocationTarget.InvocationId(text(0)));
            default -> Optional.empty();
        };
    }

    // ---- The handler's calls

    /** What the handler was called with; its first call. */
    public synchronized Input sysInput() {
        long[] it = done(vm -> Calls.input(vm));
        replayed.begins();
        return new Input(part(0), text(1), text(2), text(3), text(4), text(5), pairs(6, it[ROWS]), it[NUMBER]);
    }

    /** A sleep until a time; its result is {@link Value#NOTHING}. */
    public int sysSleep(long wakeUpMillis) {
        return sysSleep(wakeUpMillis, NO_NAME);
    }

    /** The same, with a name. */
    public synchronized int sysSleep(long wakeUpMillis, String name) {
        return one(vm -> Calls.sleep(vm, Given.text("name", name), wakeUpMillis));
    }

    /** Reads the value of a state key: a success, or {@link Value#NOTHING}. */
    public int sysStateGet(String key) {
        return sysStateGet(key, NO_NAME);
    }

    /** The same, with a name. */
    public synchronized int sysStateGet(String key, String name) {
        return one(vm -> Calls.state_get(vm, Given.text("key", key), Given.text("name", name)));
    }

    /** Reads the keys that have a value. */
    public int sysStateGetKeys() {
        return sysStateGetKeys(NO_NAME);
    }

    /** The same, with a name. */
    public synchronized int sysStateGetKeys(String name) {
        return one(vm -> Calls.state_get_keys(vm, Given.text("name", name)));
    }

    /** Reads the value of a state key and leaves nothing of it in the journal; returns the read's id. It needs version 8, and is refused in replay. */
    public synchronized int ephemeralStateGet(String key) {
        return one(vm -> Calls.ephemeral_state_get(vm, Given.text("key", key)));
    }

    /** Gives a state key a value. */
    public void sysStateSet(String key, byte[] value) {
        sysStateSet(key, value, NO_NAME, false);
    }

    /** The same, with a name. Replay doesn't compare a value that is unstable. */
    public synchronized void sysStateSet(String key, byte[] value, String name, boolean unstable) {
        done(vm -> Calls.state_set(vm, Given.text("key", key), Given.bytes("value", value), Given.text("name", name), unstable), unstable);
    }

    /** Takes a state key's value away. */
    public void sysStateClear(String key) {
        sysStateClear(key, NO_NAME);
    }

    /** The same, with a name. */
    public synchronized void sysStateClear(String key, String name) {
        done(vm -> Calls.state_clear(vm, Given.text("key", key), Given.text("name", name)));
    }

    /** Takes each state key's value away. */
    public void sysStateClearAll() {
        sysStateClearAll(NO_NAME);
    }

    /** The same, with a name. */
    public synchronized void sysStateClearAll(String name) {
        done(vm -> Calls.state_clear_all(vm, Given.text("name", name)));
    }

    /** Calls another handler. */
    public Call sysCall(Target target, byte[] input) {
        return sysCall(target, input, NO_NAME, false);
    }

    /** The same, with a name. Replay doesn't compare an input that is unstable. */
    public synchronized Call sysCall(Target target, byte[] input, String name, boolean unstable) {
        long[] it = done(vm -> Calls.call(vm, Given.target(target), Given.bytes("input", input), Given.text("name", name), unstable), unstable);
        return new Call((int) it[FIRST], (int) it[SECOND]);
    }

    /** Calls another handler and sleeps until a time, in one call. */
    public CallWithDeadline sysCallWithDeadline(Target target, byte[] input, long deadlineMillis) {
        return sysCallWithDeadline(target, input, deadlineMillis, NO_NAME, false);
    }

    /** The same, with a name. Replay doesn't compare an input that is unstable. */
    public synchronized CallWithDeadline sysCallWithDeadline(Target target, byte[] input, long deadlineMillis, String name, boolean unstable) {
        byte[] named = Given.text("name", name);
        long[] it = done(vm -> Calls.call_with_deadline(vm, Given.target(target), Given.bytes("input", input), deadlineMillis, named, unstable), unstable);
        return new CallWithDeadline((int) it[FIRST], (int) it[SECOND], (int) it[THIRD]);
    }

    /** Calls another handler, and nobody waits for the result; returns the handle of the invocation's id. */
    public int sysSend(Target target, byte[] input) {
        return sysSend(target, input, 0, NO_NAME, false);
    }

    /** The same, at a time; 0 is at once. Replay doesn't compare an input that is unstable. */
    public synchronized int sysSend(Target target, byte[] input, long atMillis, String name, boolean unstable) {
        return one(vm -> Calls.send(vm, Given.target(target), Given.bytes("input", input), atMillis, Given.text("name", name), unstable), unstable);
    }

    /** Sends the cancel signal to another invocation. */
    public synchronized void sysCancelInvocation(String invocationId) {
        done(vm -> Calls.cancel_invocation(vm, Given.text("invocationId", invocationId)));
    }

    /** Attaches to another invocation; returns the handle of its result. */
    public synchronized int sysAttachInvocation(InvocationTarget target) {
        return one(vm -> Calls.attach(vm, Given.invocation(target)));
    }

    /** Looks whether another invocation has an output; returns the handle of it, or of {@link Value#NOTHING}. */
    public synchronized int sysGetInvocationOutput(InvocationTarget target) {
        return one(vm -> Calls.get_output(vm, Given.invocation(target)));
    }

    /** Makes an awakeable. */
    public synchronized Awakeable sysAwakeable() {
        long[] it = done(vm -> Calls.awakeable(vm));
        return new Awakeable((int) it[FIRST], text(0));
    }

    /** Gives the awakeable of this id its result. */
    public void sysCompleteAwakeable(String id, Result value) {
        sysCompleteAwakeable(id, value, false);
    }

    /** The same. Replay doesn't compare a value that is unstable. */
    public synchronized void sysCompleteAwakeable(String id, Result value, boolean unstable) {
        done(vm -> Calls.complete_awakeable(vm, Given.text("id", id), Given.value("value", value), unstable), unstable);
    }

    /** A handle for the signal of this name. */
    public synchronized int createSignalHandle(String name) {
        return one(vm -> Calls.signal(vm, Given.text("name", name)));
    }

    /** Sends a named signal to another invocation. */
    public synchronized void sysCompleteSignal(String invocationId, String name, Result value) {
        done(vm -> Calls.complete_signal(vm, Given.text("invocationId", invocationId), Given.text("name", name), Given.value("value", value)));
    }

    /** Awaits a promise of the workflow; returns the handle of its value. */
    public synchronized int sysGetPromise(String key) {
        return one(vm -> Calls.get_promise(vm, Given.text("key", key)));
    }

    /** Looks whether a promise of the workflow is completed; returns the handle of its value, or of {@link Value#NOTHING}. */
    public synchronized int sysPeekPromise(String key) {
        return one(vm -> Calls.peek_promise(vm, Given.text("key", key)));
    }

    /** Completes a promise of the workflow; returns the handle of {@link Value#NOTHING}, or of a failure if it had been completed before. */
    public int sysCompletePromise(String key, Result value) {
        return sysCompletePromise(key, value, false);
    }

    /** The same. Replay doesn't compare a value that is unstable. */
    public synchronized int sysCompletePromise(String key, Result value, boolean unstable) {
        return one(vm -> Calls.complete_promise(vm, Given.text("key", key), Given.value("value", value), unstable), unstable);
    }

    /** Calls a run, an effect whose result is recorded; an await says when to execute it. */
    public synchronized Run sysRun(String name) {
        long[] it = done(vm -> Calls.run(vm, Given.text("name", name)));
        return new Run((int) it[FIRST], it[SECOND] == 1);
    }

    /** Gives the result of a run that an await asked to execute. */
    public void proposeRunCompletion(int run, Result value) {
        proposeRunCompletion(run, value, RetryPolicy.INFINITE);
    }

    /** The same, with the run's policy. */
    public synchronized void proposeRunCompletion(int run, Result value, RetryPolicy policy) {
        done(vm -> Calls.propose(vm, Given.u32(run), Given.value("value", value), Given.policy(policy)));
    }

    /** A try of a run failed after this many milliseconds, and may be made again. */
    public synchronized void proposeRetryableFailure(int run, long tookMillis, HandlerError error, RetryPolicy policy) {
        handIn(error, vm -> Calls.propose_retryable(vm, Given.u32(run), tookMillis, Given.error(error), Given.policy(policy)));
    }

    /** The handler's result. */
    public void sysWriteOutput(Result value) {
        sysWriteOutput(value, false);
    }

    /** The same. Replay doesn't compare a value that is unstable. */
    public synchronized void sysWriteOutput(Result value, boolean unstable) {
        done(vm -> Calls.write_output(vm, Given.value("value", value), unstable), unstable);
    }

    /** The handler ends; its last call. */
    public synchronized void sysEnd() {
        done(vm -> Calls.end(vm));
    }

    // ---- Replies

    private Long at() {
        return handle.at();
    }

    /** Makes a typed call, and gives its reply. */
    private long[] done(Replayed.Call call) {
        return done(call, false);
    }

    /** The same of one whose payload may be unstable. */
    private long[] done(Replayed.Call call, boolean unstable) {
        return done((long[]) call.on(at()), call, unstable);
    }

    /** The reply of a typed call that was done. */
    private long[] done(long[] it, Replayed.Call call, boolean unstable) {
        if (it[STATUS] == Abi.DONE) {
            return it;
        }
        if (it[STATUS] != Abi.REFUSED) {
            throw new StatusException(Status.of(it[STATUS]));
        }
        VMException.Related related = null;
        if (it[FIRST] == 1) {
            related = new VMException.Related((int) it[SECOND], MessageType.of(it[THIRD]), orEmpty(text(2)));
        }
        String text = orEmpty(text(0));
        String stacktrace = orEmpty(text(1));
        long[] retry = (long[]) Calls.next_retry(at());
        Difference found = isFailure(it) ? differs(text, related, call, unstable) : null;
        throw VMException.of(it[KIND], failedByHandedIn, (int) it[NUMBER], text, stacktrace, related, found)
                .before(ErrorBehavior.of(retry[1]), retry[2] == 1 ? Long.valueOf(retry[3]) : null);
    }

    /** In what the call isn't as recorded that has failed the VM: it is this one, if none had failed it, and the error has this text and related command. */
    private Difference differs(String text, VMException.Related related, Replayed.Call call, boolean unstable) {
        if (!isRefused && replayed != null) { // there is none yet if no VM could be made
            isRefused = true;
            difference = replayed.difference(text, related, this::lastIndex, call, unstable);
        }
        return difference;
    }

    private long lastIndex() {
        long[] it = (long[]) Calls.last_command_index(at());
        return it[KIND] == Abi.INDEX ? it[NUMBER] : -1;
    }

    /** Makes a call of another VM on this one, which is a new one, for what it writes. */
    synchronized byte[] madeAgain(Replayed.Call call) {
        call.on(at());
        return takeOutput();
    }

    /** Makes a call that hands in this error. If the VM fails by it, each later call is refused by it; a VM that had failed keeps its first error. */
    private void handIn(HandlerError given, Replayed.Call call) {
        boolean hadFailed = isFailure(ready());
        long[] it = (long[]) call.on(at());
        if (!hadFailed) {
            failedByHandedIn = hasFailedBy(given, it);
            isRefused |= failedByHandedIn;
        }
        done(it, call, false);
    }

    /**
     * Whether the VM has failed by this error, after a call with this reply that handed it in. It may also have failed by one of its own, which says
     * something else: the version has no such behavior, nobody waits for the run, or no memory was found.
     */
    private boolean hasFailedBy(HandlerError given, long[] replied) {
        long[] it = replied[STATUS] == Abi.REFUSED ? replied : ready();
        return isFailure(it) && it[NUMBER] == given.code() && orEmpty(text(0)).equals(given.message());
    }

    private long[] ready() {
        return (long[]) Calls.is_ready(at());
    }

    /** Whether it is an error by which the VM has failed. */
    private static boolean isFailure(long[] it) {
        return it[STATUS] == Abi.REFUSED && it[KIND] == Abi.ERROR;
    }

    private int one(Replayed.Call call) {
        return one(call, false);
    }

    private int one(Replayed.Call call, boolean unstable) {
        return (int) done(call, unstable)[FIRST];
    }

    private byte[] part(long place) {
        return Library.part(Calls.part(at(), place));
    }

    private String text(long place) {
        byte[] bytes = part(place);
        return bytes == null ? null : new String(bytes, StandardCharsets.UTF_8);
    }

    private static String orEmpty(String text) {
        return text == null ? "" : text;
    }

    private List<String> texts(long rows) {
        List<String> made = new ArrayList<>();
        for (long at = 0; at < rows; at++) {
            made.add(text(at));
        }
        return List.copyOf(made);
    }

    private List<Pair> pairs(long first, long rows) {
        List<Pair> made = new ArrayList<>();
        for (long row = 0; row < rows; row++) {
            made.add(new Pair(text(first + 2 * row), text(first + 2 * row + 1)));
        }
        return List.copyOf(made);
    }
}
