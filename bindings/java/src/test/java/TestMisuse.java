import java.util.ArrayList;
import java.util.Arrays;
import java.util.List;
import java.util.OptionalLong;
import palqytun.*;

/** What a caller may do wrong is an exception, and the VM goes on. */
public final class TestMisuse {
    private static final byte[] EMPTY = {};

    private static void status(Status wanted, Common.Test test) {
        Common.equal(wanted, Common.thrown(StatusException.class, test).status());
    }

    private static void whatWasClosed() {
        VM vm = Common.begun();
        Common.equal("V7 abc Processing, last command 0", vm.toString());
        vm.close();
        vm.close();
        Common.equal("VM of version 7", vm.toString());
        Common.refused(StatusException.class, "NO_SESSION: the VM was closed", () -> vm.sysSleep(1));
        status(Status.NO_SESSION, () -> vm.notifyInput(EMPTY));
        status(Status.NO_SESSION, vm::takeOutput);
        Journal journal = new Journal();
        journal.close();
        journal.close();
        status(Status.NO_JOURNAL, journal::keep);
        VM other;
        try (VM it = Common.begun()) {
            other = it;
        }
        status(Status.NO_SESSION, other::state);
    }

    private static void argumentsAreNamed() {
        VM vm = Common.begun();
        Common.refused(NullPointerException.class, "value must be a byte[], not null", () -> vm.sysStateSet("key", null));
        Common.refused(NullPointerException.class, "key must be a String, not null", () -> vm.sysStateGet(null));
        Common.refused(NullPointerException.class, "value must be a Result, not null", () -> vm.sysWriteOutput(null));
        Common.refused(NullPointerException.class, "target must be an InvocationTarget, not null", () -> vm.sysAttachInvocation(null));
        Common.refused(NullPointerException.class, "target.service must be a String, not null", () -> vm.sysCall(Target.of(null, "h"), EMPTY));
        Common.refused(NullPointerException.class, "each child must be a Future, not null", () -> Future.allCompleted(Future.of(17), null));
        Common.refused(IllegalArgumentException.class, "value.code must be from 0 to 65535, not 65536", () -> vm.sysWriteOutput(Value.failure(65_536, "")));
        Common.refused(IllegalArgumentException.class, "name has half of a surrogate pair, and so no UTF-8", () -> vm.createSignalHandle("\ud800"));
        Common.refused(IllegalArgumentException.class, "name has half of a surrogate pair, and so no UTF-8", () -> vm.createSignalHandle("\udc00x"));
        Common.refused(NullPointerException.class, "future must be a Future, not null", () -> vm.doAwait((Future) null));
        Common.refused(NullPointerException.class, "entries must be a List, not null", () -> new Journal(null));
        Options options = Options.DEFAULTS.with((JournalReplay) null);
        Common.refused(NullPointerException.class, "options.journalReplay must be a JournalReplay, not null", () -> new VM(Palqytun.contentType(7), options));
        Common.equal(0L, vm.lastCommandIndex());
        vm.createSignalHandle("\ud83d\ude00");
    }

    private static void contentTypes() {
        VMException error = Common.thrown(VMException.class, () -> new VM("application/json"));
        Common.equal(415, error.code());
        String allowed = "the content type must be application/vnd.restate.invocation.vN with N from 5 to 8";
        Common.equal("415 UNSUPPORTED_MEDIA_TYPE: BadContentType (" + allowed + ")", error.getMessage());
        Common.equal(415, Common.thrown(VMException.class, () -> new VM(null)).code());
        Common.equal("application/vnd.restate.invocation.v8", Palqytun.contentType(8));
        Common.refused(IllegalArgumentException.class, "version must be from 5 to 8, not 4", () -> Palqytun.contentType(4));
        Common.refused(IllegalArgumentException.class, "version must be from 5 to 8, not 9", () -> Palqytun.contentType(9));
    }

    private static void whatErrorsSay() {
        VM ended = Common.begun();
        ended.sysEnd();
        Common.refused(VMException.Closed.class, "598 CLOSED: ClosedError (command 1: SLEEP_COMMAND \"\")", () -> ended.sysSleep(1));
        VM suspended = Common.begun();
        int slept = suspended.sysSleep(1);
        suspended.notifyInputClosed();
        Common.refused(VMException.Suspended.class, "599 SUSPENDED", () -> suspended.doAwait(slept));
        Common.refused(VMException.Closed.class, "598 CLOSED: ClosedError", suspended::isReadyToExecute);
        VM own = Common.begun();
        own.notifyError(HandlerError.of(570, "no tea"));
        Common.refused(VMException.class, "570 no tea", own::sysEnd);
    }

    private static void threadsShareAVm() throws InterruptedException {
        VM vm = Common.begun();
        List<Throwable> wrong = new ArrayList<>();
        List<Thread> threads = new ArrayList<>();
        for (int at = 0; at < 8; at++) {
            Thread thread = new Thread(() -> {
                for (int turn = 0; turn < 200; turn++) {
                    vm.sysSleep(1000, "nap");
                    Common.holds(vm.sysAwakeable().id(), it -> it.startsWith("sign_"));
                    vm.takeOutput();
                }
            });
            thread.setUncaughtExceptionHandler((it, error) -> wrong.add(error));
            threads.add(thread);
        }
        threads.forEach(Thread::start);
        for (Thread it : threads) {
            it.join();
        }
        Common.equal(List.of(), wrong);
        Common.equal(1600L, vm.lastCommandIndex());
    }

    private static void threadsCloseAVm() throws InterruptedException {
        for (int at = 0; at < 50; at++) {
            VM vm = Common.begun();
            List<Throwable> wrong = new ArrayList<>();
            Thread calls = new Thread(() -> {
                try {
                    while (true) {
                        vm.sysSleep(1000);
                    }
                } catch (StatusException error) {
                    Common.equal(Status.NO_SESSION, error.status());
                }
            });
            calls.setUncaughtExceptionHandler((it, error) -> wrong.add(error));
            calls.start();
            vm.close();
            calls.join();
            Common.equal(List.of(), wrong);
        }
    }

    private static void largeCopies() {
        VM vm = Common.begun();
        byte[] large = new byte[3_000_000];
        Arrays.fill(large, (byte) 'x');
        vm.sysStateSet("key", large);
        Common.holds(vm.takeOutput().length, it -> it > large.length);
        Common.equal(0, vm.takeOutput().length);
        VM other = Common.fed("Start id=\"abc\" debug_id=\"abc\" known_entries=1");
        other.notifyInput(Frames.inputFrame(Frames.frameOf("Input value=\"\""), large));
        Common.holds(other.sysInput().input(), it -> Arrays.equals(it, large));
    }

    private static void aHandleOfAnotherVm() {
        VM one = Common.begun();
        VM other = Common.begun();
        int handle = 0;
        for (int at = 0; at < 5; at++) {
            handle = one.createSignalHandle("go");
        }
        Common.equal(false, other.isCompleted(handle));
        Common.equal(true, other.takeNotification(handle).isEmpty());
        Common.equal(new Awaited.Waiting(true, false), other.doAwait(handle));
        Common.equal(new Awaited.Waiting(true, false), other.doAwait(-1));
    }

    private static void whatNamesNoCase() {
        VM vm = Common.begun();
        VM.Run run = vm.sysRun("charge");
        RetryPolicy policy = RetryPolicy.exponential(1, 3, 0);
        String said = "policy.denominator must be from 1 to 4294967295, not 0";
        Common.refused(IllegalArgumentException.class, said, () -> vm.proposeRetryableFailure(run.handle(), 1, HandlerError.of(503, "later"), policy));
        Common.equal(new Awaited.Awake(), vm.doAwait(Future.allCompleted()));
        Common.equal(State.PROCESSING, vm.state());
    }

    private static void errorsHaveAllTheirFields() {
        VM vm = Common.fed("Start id=\"a\" debug_id=\"a\" known_entries=2", "Input value=\"\"", "Sleep wake_up_time=1000 result_completion_id=1 name=\"nap\"");
        vm.sysInput();
        VMException error = Common.thrown(VMException.JournalMismatch.class, () -> vm.sysCall(Target.of("Greeter", "greet"), EMPTY, "call", false));
        VMException.Related related = error.related().orElseThrow();
        Common.equal(List.of(570, 1, "call"), List.of(error.code(), related.index(), related.name()));
        VM own = Common.begun();
        own.notifyError(HandlerError.of(418, "no tea").withStacktrace("at 1"), new RelatedCommand.Last());
        error = Common.thrown(VMException.class, own::sysEnd);
        Common.equal(List.of(418, "no tea", "at 1"), List.of(error.code(), error.text(), error.stacktrace()));
    }

    private static void aSuspensionAndAnEnd() {
        VM vm = Common.begun();
        int slept = vm.sysSleep(Long.MIN_VALUE); // 2^63 ms: numbers have no sign
        vm.notifyInputClosed();
        Future either = Future.firstCompleted(Future.of(slept), Future.of(Palqytun.CANCEL_HANDLE));
        Common.refused(VMException.Suspended.class, "599 SUSPENDED", () -> vm.doAwait(either));
        VM other = Common.begun();
        other.sysWriteOutput(Value.success("done"));
        other.sysEnd();
        Common.thrown(VMException.Closed.class, () -> other.sysSleep(1));
    }

    private static void aHandlersErrorIsNoSuspension() {
        VM vm = Common.begun();
        vm.notifyError(HandlerError.of(599, "SUSPENDED"));
        VMException error = Common.thrown(VMException.class, () -> vm.doAwait(Palqytun.CANCEL_HANDLE));
        Common.equal(List.of(VMException.class, 599, "SUSPENDED"), List.of(error.getClass(), error.code(), error.text()));
    }

    /** The call throws an error with this code that is none of the VM's own. */
    private static void plain(int code, Common.Test call) {
        VMException error = Common.thrown(VMException.class, call);
        Common.equal(List.of(VMException.class, code), List.of(error.getClass(), error.code()));
    }

    private static void anErrorThatIsHandedInIsPlain(HandlerError given, int code) {
        VM vm = Common.begun();
        vm.notifyError(given);
        vm.notifyError(HandlerError.of(418, "no tea")); // it keeps its first error
        VM ended = Common.begun();
        ended.sysEnd();
        ended.notifyError(given);
        VM ran = Common.begun();
        VM.Run run = ran.sysRun("charge");
        ran.doAwait(run.handle());
        plain(code, () -> ran.proposeRetryableFailure(run.handle(), 1, given, RetryPolicy.INFINITE));
        for (VM it : List.of(vm, ended, ran)) {
            plain(code, () -> it.sysSleep(1));
            plain(code, it::sysEnd);
        }
    }

    private static void errorsThatAreHandedInArePlain() {
        anErrorThatIsHandedInIsPlain(HandlerError.of(570, "CommandTypeMismatchError"), 570);
        anErrorThatIsHandedInIsPlain(HandlerError.of(598, "ClosedError"), 598);
        anErrorThatIsHandedInIsPlain(HandlerError.of(599, "SUSPENDED"), 599);
        anErrorThatIsHandedInIsPlain(HandlerError.of(500, ""), 500);
    }

    private static void anErrorAfterAFailureIsNotHandedIn() {
        VM vm = Common.fed("Start id=\"a\" debug_id=\"a\" known_entries=2", "Input value=\"\"", "Sleep wake_up_time=1000 result_completion_id=1");
        vm.sysInput();
        Common.thrown(VMException.JournalMismatch.class, () -> vm.sysRun("charge"));
        vm.notifyError(HandlerError.of(570, "CommandTypeMismatchError"));
        Common.thrown(VMException.JournalMismatch.class, () -> vm.sysRun("charge"));
    }

    private static void aFailureThatIsTheResultOfARunIsNotHandedIn() {
        VM vm = Common.begun();
        VM.Run run = vm.sysRun("charge");
        vm.doAwait(run.handle());
        vm.proposeRetryableFailure(run.handle(), 1, HandlerError.of(598, ""), RetryPolicy.NONE);
        vm.sysEnd();
        Common.thrown(VMException.Closed.class, () -> vm.sysSleep(1));
    }

    /** The version has no such behavior, and nobody waits for the run. */
    private static void anOwnErrorOfACallThatHandsInIsOwn() {
        for (int code : new int[] {418, 500, 573}) {
            HandlerError given = new HandlerError(code, "mine", "", ErrorBehavior.PAUSE, null);
            VM old = new VM(Palqytun.contentType(6));
            old.notifyError(given);
            Common.refused(VMException.class, "573 UNSUPPORTED_FEATURE: UnsupportedFeatureForNegotiatedVersion", old::sysEnd);
            VM vm = Common.begun();
            Common.refused(VMException.class, "500 INTERNAL: no pending run", () -> vm.proposeRetryableFailure(99, 1, given, RetryPolicy.INFINITE));
            Common.refused(VMException.class, "500 INTERNAL: no pending run", vm::sysEnd);
        }
    }

    private static void aJournalAndItsEffects() {
        Journal journal = new Journal(List.of(Frames.frameOf("Input value=\"Till\""), Frames.frameOf("Sleep wake_up_time=1000 result_completion_id=1")));
        byte[] slept = Frames.frameOf("Notification id=completion(1) result=void");
        Common.equal(OptionalLong.of(1), journal.arrive(slept).completes());
        journal.keep();
        status(Status.SECOND_COMPLETION, () -> journal.arrive(slept));
        byte[] run = Frames.frameOf("Run name=\"a\" result_completion_id=2");
        byte[] proposed = Frames.frameOf("ProposeRunCompletion id=2 result=value(\"x\")");
        byte[] output = Arrays.copyOf(run, run.length + proposed.length);
        System.arraycopy(proposed, 0, output, run.length, proposed.length);
        Journal.Stored stored = journal.store(7, output);
        Common.equal(List.of(OptionalLong.empty(), OptionalLong.of(2)), stored.rows().stream().map(Journal.Row::completes).toList());
        Common.holds(stored.feed().length, it -> it > 0);
        Frames.Message effect = stored.rows().get(0).effect();
        Common.equal(List.of(MessageType.RUN_COMMAND, 2, "a"), List.of(effect.type(), effect.id(), effect.text(0)));
        journal.undo();
        Common.equal(3L, journal.entries());
        Common.refused(IllegalArgumentException.class, "version must be from 5 to 8, not 4", () -> journal.store(4, EMPTY));
        Common.refused(IllegalArgumentException.class, "version must be from 5 to 8, not -1", () -> journal.store(-1, EMPTY));
    }

    private static void frames() {
        byte[] completed = Frames.completion(3, Frames.frameOf("Output result=value(\"Till\")"));
        Common.equal("Notification id=completion(3) result=value(\"Till\")", Frames.lineOf(completed));
        byte[] suspension = Frames.frameOf("Suspension future=(kind=FirstCompleted completions=[3])");
        Common.equal(List.of(false, true), List.of(Frames.isAwake(suspension, EMPTY), Frames.isAwake(suspension, completed)));
        Common.holds(Frames.lineOf(Frames.namedSignal("go", Frames.valueFrame(new byte[100_000]))), it -> it.contains("name(\"go\")"));
        status(Status.NOT_A_FRAME, () -> Frames.lineOf(new byte[] {1}));
        status(Status.BAD_LINE, () -> Frames.frameOf("Sleep soundly"));
    }

    public static void main(String[] arguments) {
        Common.test("what was closed", TestMisuse::whatWasClosed);
        Common.test("arguments are named", TestMisuse::argumentsAreNamed);
        Common.test("content types", TestMisuse::contentTypes);
        Common.test("what errors say", TestMisuse::whatErrorsSay);
        Common.test("threads share a VM", TestMisuse::threadsShareAVm);
        Common.test("threads close a VM", TestMisuse::threadsCloseAVm);
        Common.test("large copies", TestMisuse::largeCopies);
        Common.test("a handle of another VM", TestMisuse::aHandleOfAnotherVm);
        Common.test("what names no case", TestMisuse::whatNamesNoCase);
        Common.test("errors have all their fields", TestMisuse::errorsHaveAllTheirFields);
        Common.test("a suspension and an end", TestMisuse::aSuspensionAndAnEnd);
        Common.test("a handler's error is no suspension", TestMisuse::aHandlersErrorIsNoSuspension);
        Common.test("errors that are handed in are plain", TestMisuse::errorsThatAreHandedInArePlain);
        Common.test("an error after a failure is not handed in", TestMisuse::anErrorAfterAFailureIsNotHandedIn);
        Common.test("a failure that is the result of a run is not handed in", TestMisuse::aFailureThatIsTheResultOfARunIsNotHandedIn);
        Common.test("an own error of a call that hands one in is own", TestMisuse::anOwnErrorOfACallThatHandsInIsOwn);
        Common.test("a journal and its effects", TestMisuse::aJournalAndItsEffects);
        Common.test("frames", TestMisuse::frames);
        Common.end();
    }
}
