import java.nio.charset.StandardCharsets;
import java.util.Arrays;
import java.util.List;
import java.util.Map;
import palqytun.*;

/** A mismatch says in what the call isn't as the journal has it. */
public final class TestDiffering {
    private static final String SLEEP = "Sleep wake_up_time=1000 result_completion_id=1";
    private static final Options UNCHECKED = Options.DEFAULTS.with(NonDeterministicChecks.PAYLOAD_CHECKS_DISABLED);

    private static String ada(int first, int second) {
        return "Call service_name=\"Greeter\" handler_name=\"greet\" parameter=\"Ada\" invocation_id_notification_idx=" + first
                + " result_completion_id=" + second;
    }

    /** A VM of version 7 that has its input, with these lines of frames behind it in the journal. */
    private static VM over(Options options, String... lines) {
        VM vm = new VM(Palqytun.contentType(7), options);
        feed(vm, "Start id=\"abc\" debug_id=\"abc\" known_entries=" + (1 + lines.length));
        feed(vm, "Input");
        for (String line : lines) {
            feed(vm, line);
        }
        vm.sysInput();
        return vm;
    }

    private static void feed(VM vm, String line) {
        byte[] frame = Frames.frameOf(line);
        vm.notifyInput(frame);
        Arrays.fill(frame, (byte) 0xff); // the caller's array is its own again
    }

    private static VMException greet(VM vm, String parameter, String name, boolean unstable) {
        byte[] input = parameter.getBytes(StandardCharsets.UTF_8);
        return Common.thrown(VMException.JournalMismatch.class, () -> vm.sysCall(Target.of("Greeter", "greet"), input, name, unstable));
    }

    private static List<String> values(VMException error) {
        Difference it = error.difference().orElseThrow();
        return Arrays.asList(it.field(), it.recorded(), it.asked());
    }

    private static void anotherArgument() {
        VM vm = over(Options.DEFAULTS, ada(1, 2));
        VMException error = greet(vm, "Bob", "", false);
        Common.equal(new Difference(1, "parameter", "\"Ada\"", "\"Bob\"", CommandType.CALL, CommandType.CALL), error.difference().orElseThrow());
        String text = "570 JOURNAL_MISMATCH: CommandMismatchError: command 1, Call, is recorded with parameter \"Ada\", and the call gives \"Bob\"";
        Common.equal(text, error.getMessage());
        Common.equal(text.replace(", Call,", ", ctx.service,"), error.inWords(Map.of(CommandType.CALL, "ctx.service")));
        Common.refused(VMException.JournalMismatch.class, text, () -> vm.sysSleep(1));
    }

    private static void whatReplayDoesNotCompare() {
        String entry = ada(1, 2) + " name=\"n\"";
        List<String> wanted = List.of("name", "\"n\"", "\"m\"");
        Common.equal(wanted, values(greet(over(Options.DEFAULTS, entry), "Bob", "m", true)));
        Common.equal(wanted, values(greet(over(UNCHECKED, entry), "Bob", "m", false)));
    }

    private static void idsFollowThoseBefore() {
        Map<String, List<String>> wanted = Map.of("Bob", List.of("parameter", "\"Ada\"", "\"Bob\""), "Ada", List.of("result_completion_id", "7", "3"));
        wanted.forEach((parameter, values) -> {
            VM vm = over(Options.DEFAULTS, SLEEP, ada(2, 7));
            vm.sysSleep(1000);
            Common.equal(values, values(greet(vm, parameter, "", false)));
        });
    }

    private static void anotherCommandAndAnAwait() {
        VM vm = over(Options.DEFAULTS, SLEEP);
        VMException error = Common.thrown(VMException.JournalMismatch.class, () -> vm.sysRun("charge"));
        Common.equal(List.of("type", "Sleep", "Run"), values(error));
        Common.equal("command 1 is recorded as Sleep, and the call makes Run", error.difference().orElseThrow().toString());
        VM other = over(Options.DEFAULTS, SLEEP);
        int signal = other.createSignalHandle("go");
        Difference waits = Common.thrown(VMException.JournalMismatch.class, () -> other.doAwait(signal)).difference().orElseThrow();
        Common.equal("command 1 is recorded as Sleep, and the code awaits what hasn't come", waits.toString());
        Common.equal(null, waits.askedType());
    }

    private static void whatIsDoneAfterAnError() {
        VM vm = Common.begun();
        vm.notifyError(HandlerError.of(418, "no tea").with(ErrorBehavior.PAUSE).withNextRetryDelayMillis(500));
        VMException error = Common.thrown(VMException.class, () -> vm.sysRun("charge"));
        Common.equal(ErrorBehavior.PAUSE, error.behavior());
        Common.equal(500L, error.nextRetryDelayMillis().orElseThrow());
        VM other = over(Options.DEFAULTS.with(JournalMismatchRetryBehavior.FAIL_TERMINALLY), SLEEP);
        Common.equal(ErrorBehavior.FAIL, Common.thrown(VMException.JournalMismatch.class, () -> other.sysRun("charge")).behavior());
    }

    private static void withoutADifference() {
        VM vm = over(Options.DEFAULTS, SLEEP);
        vm.notifyError(HandlerError.of(570, "CommandTypeMismatchError"));
        Common.holds(Common.thrown(VMException.class, () -> vm.sysRun("charge")).difference(), it -> it.isEmpty());
        VM ended = Common.begun();
        ended.sysEnd();
        Common.holds(Common.thrown(VMException.Closed.class, () -> ended.sysRun("charge")).difference(), it -> it.isEmpty());
    }

    private static void aLongValueIsShortened() {
        byte[] output = new byte[1 << 20];
        output[0] = '"';
        output[1] = (byte) 0xff;
        VM vm = over(Options.DEFAULTS, "Output result=value(\"a\")");
        VMException error = Common.thrown(VMException.JournalMismatch.class, () -> vm.sysWriteOutput(new Result.Success(output)));
        Difference it = error.difference().orElseThrow();
        Common.equal("value(\"a\")", it.recorded());
        Common.holds(it.asked(), asked -> asked.length() == 122 && asked.startsWith("value(\"\\x22\\xff\\x00") && asked.endsWith(".."));
    }

    public static void main(String[] words) {
        Common.test("a call with another argument", TestDiffering::anotherArgument);
        Common.test("what replay doesn't compare", TestDiffering::whatReplayDoesNotCompare);
        Common.test("ids follow those before", TestDiffering::idsFollowThoseBefore);
        Common.test("another command, and an await", TestDiffering::anotherCommandAndAnAwait);
        Common.test("what is done after an error", TestDiffering::whatIsDoneAfterAnError);
        Common.test("without a difference", TestDiffering::withoutADifference);
        Common.test("a long value is shortened", TestDiffering::aLongValueIsShortened);
        Common.end();
    }
}
