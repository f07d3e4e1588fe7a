import com.google.gson.JsonArray;
import com.google.gson.JsonElement;
import com.google.gson.JsonNull;
import com.google.gson.JsonObject;
import com.google.gson.JsonParser;
import com.google.gson.JsonPrimitive;
import java.io.BufferedReader;
import java.io.IOException;
import java.io.InputStreamReader;
import java.nio.ByteBuffer;
import java.nio.charset.StandardCharsets;
import java.util.ArrayList;
import java.util.HexFormat;
import java.util.List;
import java.util.Locale;
import java.util.Map;
import java.util.Optional;
import java.util.function.Function;
import palqytun.*;

/**
 * Plays the conformance suite (docs/CONFORMANCE.md): it reads rows on standard input, a row a line, and prints 'ok ROW', or what differs and then 'not ok
 * ROW'. Its status is 0 if all rows fit.
 */
public final class Conform {
    private static final int HEAD = 10;
    private static final long EXACT = 1L << 53;

    /** A call of the suite. */
    private interface Call {
        JsonElement on(VM vm, JsonObject step);
    }

    /** The same, of one that returns nothing. */
    private interface Does {
        void on(VM vm, JsonObject step);
    }

    private static Call none(Does does) {
        return (vm, it) -> {
            does.on(vm, it);
            return JsonNull.INSTANCE;
        };
    }

    private static final Map<String, Call> CALLS = Map.ofEntries(
            Map.entry("get_response_head", (vm, it) -> Shown.head(vm)),
            Map.entry("notify_input", none((vm, it) -> vm.notifyInput(Given.bytes(it.get("data"))))),
            Map.entry("notify_input_closed", none((vm, it) -> vm.notifyInputClosed())),
            Map.entry("notify_error", none((vm, it) -> vm.notifyError(Given.error(it), Given.related(it.get("related"))))),
            Map.entry("take_output", (vm, it) -> new JsonPrimitive(Shown.hex(vm.takeOutput()))),
            Map.entry("is_ready_to_execute", (vm, it) -> new JsonPrimitive(vm.isReadyToExecute())),
            Map.entry("is_completed", (vm, it) -> new JsonPrimitive(vm.isCompleted(Given.handle(it.get("handle"))))),
            Map.entry("state", (vm, it) -> Shown.state(vm.state())),
            Map.entry("last_command_index", (vm, it) -> new JsonPrimitive(vm.lastCommandIndex())),
            Map.entry("do_await", (vm, it) -> Shown.awaited(Given.awaits(vm, it.get("future")))),
            Map.entry("take_notification", (vm, it) -> Shown.taken(vm.takeNotification(Given.handle(it.get("handle"))))),
            Map.entry("take_ephemeral_notification", (vm, it) -> Shown.taken(vm.takeEphemeralNotification(Given.handle(it.get("id"))))),
            Map.entry("sys_input", (vm, it) -> Shown.input(vm.sysInput())),
            Map.entry("sys_sleep", (vm, it) -> Shown.handle(vm.sysSleep(Given.number(it.get("wake_up_time")), Given.name(it)))),
            Map.entry("sys_state_get", (vm, it) -> Shown.handle(vm.sysStateGet(Given.text(it, "key"), Given.name(it)))),
            Map.entry("sys_state_get_keys", (vm, it) -> Shown.handle(vm.sysStateGetKeys(Given.name(it)))),
            Map.entry("ephemeral_state_get", (vm, it) -> Shown.handle(vm.ephemeralStateGet(Given.text(it, "key")))),
            Map.entry("sys_state_set", none((vm, it) -> vm.sysStateSet(Given.text(it, "key"), Given.bytes(it.get("value")), Given.name(it), Given.unstable(it)))),
            Map.entry("sys_state_clear", none((vm, it) -> vm.sysStateClear(Given.text(it, "key"), Given.name(it)))),
            Map.entry("sys_state_clear_all", none((vm, it) -> vm.sysStateClearAll(Given.name(it)))),
            Map.entry("sys_call", (vm, it) -> Shown.call(vm.sysCall(Given.target(it), Given.bytes(it.get("value")), Given.name(it), Given.unstable(it)))),
            Map.entry("sys_call_with_deadline", Conform::callWithDeadline),
            Map.entry("sys_send", Conform::send),
            Map.entry("sys_cancel_invocation", none((vm, it) -> vm.sysCancelInvocation(Given.text(it, "invocation_id")))),
            Map.entry("sys_attach_invocation", (vm, it) -> Shown.handle(vm.sysAttachInvocation(Given.invocation(it.getAsJsonObject("target"))))),
            Map.entry("sys_get_invocation_output", (vm, it) -> Shown.handle(vm.sysGetInvocationOutput(Given.invocation(it.getAsJsonObject("target"))))),
            Map.entry("sys_awakeable", (vm, it) -> Shown.awakeable(vm.sysAwakeable())),
            Map.entry("sys_complete_awakeable", none((vm, it) -> vm.sysCompleteAwakeable(Given.text(it, "id"), Given.value(it), Given.unstable(it)))),
            Map.entry("create_signal_handle", (vm, it) -> Shown.handle(vm.createSignalHandle(Given.text(it, "name")))),
            Map.entry("sys_complete_signal", none((vm, it) -> vm.sysCompleteSignal(Given.text(it, "invocation_id"), Given.text(it, "name"), Given.value(it)))),
            Map.entry("sys_get_promise", (vm, it) -> Shown.handle(vm.sysGetPromise(Given.text(it, "key")))),
            Map.entry("sys_peek_promise", (vm, it) -> Shown.handle(vm.sysPeekPromise(Given.text(it, "key")))),
            Map.entry("sys_complete_promise", (vm, it) -> Shown.handle(vm.sysCompletePromise(Given.text(it, "key"), Given.value(it), Given.unstable(it)))),
            Map.entry("sys_run", (vm, it) -> Shown.run(vm.sysRun(Given.text(it, "name")))),
            Map.entry("propose_run_completion", none(Conform::propose)),
            Map.entry("sys_write_output", none((vm, it) -> vm.sysWriteOutput(Given.value(it), Given.unstable(it)))),
            Map.entry("sys_end", none((vm, it) -> vm.sysEnd())));

    private static JsonElement callWithDeadline(VM vm, JsonObject it) {
        long deadline = Given.number(it.get("wake_up_time"));
        VM.CallWithDeadline made = vm.sysCallWithDeadline(Given.target(it), Given.bytes(it.get("value")), deadline, Given.name(it), Given.unstable(it));
        return Shown.handles(made.invocationId(), made.result(), made.deadline());
    }

    private static JsonElement send(VM vm, JsonObject it) {
        long at = it.has("at") ? Given.number(it.get("at")) : 0;
        return Shown.handle(vm.sysSend(Given.target(it), Given.bytes(it.get("value")), at, Given.name(it), Given.unstable(it)));
    }

    private static void propose(VM vm, JsonObject it) {
        JsonObject result = it.getAsJsonObject("result");
        int run = Given.handle(it.get("handle"));
        RetryPolicy policy = Given.policy(it.get("policy"));
        if (!result.has("retryable")) {
            vm.proposeRunCompletion(run, Given.result(result), policy);
            return;
        }
        JsonObject failed = result.getAsJsonObject("retryable");
        vm.proposeRetryableFailure(run, failed.has("duration") ? Given.number(failed.get("duration")) : 0, Given.error(failed), policy);
    }

    /** The arguments of a step, as the package takes them. */
    private static final class Given {
        private static boolean has(JsonObject of, String name) {
            return of.has(name) && !of.get(name).isJsonNull();
        }

        static String text(JsonObject of, String name) {
            return has(of, name) ? of.get(name).getAsString() : null;
        }

        static byte[] bytes(JsonElement hex) {
            return hex == null || hex.isJsonNull() ? new byte[0] : HexFormat.of().parseHex(hex.getAsString());
        }

        /** A number of 64 bits. */
        static long number(JsonElement it) {
            return Long.parseUnsignedLong(it.getAsString());
        }

        static int handle(JsonElement it) {
            return Integer.parseUnsignedInt(it.getAsString());
        }

        static String name(JsonObject it) {
            return has(it, "name") ? text(it, "name") : "";
        }

        static boolean unstable(JsonObject it) {
            return has(it, "unstable") && it.get("unstable").getAsBoolean();
        }

        static Options options(JsonObject of) {
            Options made = Options.DEFAULTS;
            Map<String, Function<Options, Options>> words = Map.ofEntries(
                    Map.entry("cancel calls", it -> it.with(ImplicitCancellation.CALLS)), Map.entry("cancel none", it -> it.with(ImplicitCancellation.NOTHING)),
                    Map.entry("cancel sends", it -> it.with(ImplicitCancellation.SENDS)),
                    Map.entry("cancel both", it -> it.with(ImplicitCancellation.CALLS_AND_SENDS)),
                    Map.entry("cancel off", it -> it.with(ImplicitCancellation.DISABLED)),
                    Map.entry("checks on", it -> it.with(NonDeterministicChecks.ENABLED)),
                    Map.entry("checks off", it -> it.with(NonDeterministicChecks.PAYLOAD_CHECKS_DISABLED)),
                    Map.entry("awaiting norun", it -> it.with(AwaitingOnPolicy.DONT_SEND_WHEN_EXECUTING_RUN)),
                    Map.entry("awaiting always", it -> it.with(AwaitingOnPolicy.SEND_ALWAYS)),
                    Map.entry("awaiting never", it -> it.with(AwaitingOnPolicy.DONT_SEND)),
                    Map.entry("mismatch follow", it -> it.with(JournalMismatchRetryBehavior.FOLLOW_RETRY_POLICY)),
                    Map.entry("mismatch pause", it -> it.with(JournalMismatchRetryBehavior.PAUSE)),
                    Map.entry("mismatch fail", it -> it.with(JournalMismatchRetryBehavior.FAIL_TERMINALLY)),
                    Map.entry("replay on", it -> it.with(JournalReplay.ENABLED)), Map.entry("replay off", it -> it.with(JournalReplay.DISABLED)),
                    Map.entry("delivery queued", it -> it.with(SignalDelivery.QUEUED)), Map.entry("delivery overwrite", it -> it.with(SignalDelivery.OVERWRITE)));
            for (Map.Entry<String, JsonElement> it : of.entrySet()) {
                String word = it.getKey() + " " + it.getValue().getAsString();
                made = it.getKey().equals("seed") ? made.withFallbackRandomSeed(number(it.getValue())) : words.get(word).apply(made);
            }
            return made;
        }

        static Awaited awaits(VM vm, JsonElement future) {
            return future.isJsonPrimitive() ? vm.doAwait(handle(future)) : vm.doAwait(future(future));
        }

        static Future future(JsonElement it) {
            if (it.isJsonPrimitive()) {
                return Future.of(handle(it));
            }
            Map.Entry<String, JsonElement> found = it.getAsJsonObject().entrySet().iterator().next();
            List<Future> children = new ArrayList<>();
            found.getValue().getAsJsonArray().forEach(child -> children.add(future(child)));
            Future[] those = children.toArray(new Future[0]);
            return switch (found.getKey()) {
                case "first_completed" -> Future.firstCompleted(those);
                case "all_completed" -> Future.allCompleted(those);
                case "first_succeeded_or_all_failed" -> Future.firstSucceededOrAllFailed(those);
                case "all_succeeded_or_first_failed" -> Future.allSucceededOrFirstFailed(those);
                case "unknown" -> Future.unknown(those);
                default -> throw new IllegalArgumentException("a future is " + found.getKey());
            };
        }

        static List<Pair> pairs(JsonElement it) {
            List<Pair> made = new ArrayList<>();
            if (it != null && !it.isJsonNull()) {
                it.getAsJsonArray().forEach(pair -> made.add(new Pair(pair.getAsJsonArray().get(0).getAsString(), pair.getAsJsonArray().get(1).getAsString())));
            }
            return made;
        }

        static Result value(JsonObject step) {
            return result(step.getAsJsonObject("value"));
        }

        static Result result(JsonObject it) {
            if (!it.has("failure")) {
                return new Result.Success(bytes(it.get("success")));
            }
            JsonObject failure = it.getAsJsonObject("failure");
            return new Result.Failure(failure.get("code").getAsInt(), text(failure, "message"), pairs(failure.get("metadata")));
        }

        static HandlerError error(JsonObject it) {
            HandlerError made = HandlerError.of(it.get("code").getAsInt(), text(it, "message"));
            made = has(it, "stacktrace") ? made.withStacktrace(text(it, "stacktrace")) : made;
            made = has(it, "behaviour") ? made.with(ErrorBehavior.valueOf(text(it, "behaviour").toUpperCase(Locale.ROOT))) : made;
            return has(it, "delay") ? made.withNextRetryDelayMillis(number(it.get("delay"))) : made;
        }

        static RelatedCommand related(JsonElement it) {
            if (it == null || it.isJsonNull()) {
                return new RelatedCommand.None();
            }
            if (it.isJsonPrimitive()) {
                return new RelatedCommand.Last();
            }
            JsonObject of = it.getAsJsonObject();
            CommandType type = CommandType.valueOf(text(of, "type").replaceAll("(?<=[a-z])(?=[A-Z])", "_").toUpperCase(Locale.ROOT));
            return has(of, "index") ? new RelatedCommand.Specific(of.get("index").getAsInt(), type, text(of, "name")) : new RelatedCommand.Next(type, text(of, "name"));
        }

        static Target target(JsonObject it) {
            return new Target(
                    text(it, "service"), text(it, "handler"), text(it, "key"), text(it, "idempotency_key"), text(it, "scope"), text(it, "limit_key"),
                    pairs(it.get("headers")));
        }

        static InvocationTarget invocation(JsonObject it) {
            if (it.has("workflow")) {
                JsonObject of = it.getAsJsonObject("workflow");
                return new InvocationTarget.WorkflowId(text(of, "name"), text(of, "key"), text(of, "scope"));
            }
            if (it.has("idempotency")) {
                JsonObject of = it.getAsJsonObject("idempotency");
                return new InvocationTarget.IdempotencyId(
                        text(of, "service"), text(of, "handler"), text(of, "idempotency_key"), text(of, "service_key"), text(of, "scope"));
            }
            return new InvocationTarget.InvocationId(text(it, "invocation_id"));
        }

        static RetryPolicy policy(JsonElement given) {
            if (given == null || given.isJsonNull()) {
                return RetryPolicy.INFINITE;
            }
            JsonObject it = given.getAsJsonObject();
            RetryPolicy.Kind kind = switch (text(it, "kind")) {
                case "infinite" -> RetryPolicy.Kind.INFINITE;
                case "none" -> RetryPolicy.Kind.NONE;
                case "fixed" -> RetryPolicy.Kind.FIXED_DELAY;
                default -> RetryPolicy.Kind.EXPONENTIAL;
            };
            JsonArray factor = has(it, "factor") ? it.getAsJsonArray("factor") : null;
            return new RetryPolicy(
                    kind, has(it, "initial") ? number(it.get("initial")) : 0, factor == null ? 0 : handle(factor.get(0)), factor == null ? 0 : handle(factor.get(1)),
                    has(it, "interval") ? Long.valueOf(number(it.get("interval"))) : null, has(it, "attempts") ? Integer.valueOf(handle(it.get("attempts"))) : null,
                    has(it, "duration") ? Long.valueOf(number(it.get("duration"))) : null, has(it, "pause") && it.get("pause").getAsBoolean());
        }
    }

    /** What calls return, as the suite has it. */
    private static final class Shown {
        static String hex(byte[] bytes) {
            return HexFormat.of().formatHex(bytes);
        }

        static JsonElement handle(int it) {
            return new JsonPrimitive(Integer.toUnsignedLong(it));
        }

        static JsonElement handles(int... those) {
            JsonArray made = new JsonArray();
            for (int it : those) {
                made.add(handle(it));
            }
            return made;
        }

        static JsonElement call(VM.Call it) {
            return handles(it.invocationId(), it.result());
        }

        static JsonObject object(Object... parts) {
            JsonObject made = new JsonObject();
            for (int at = 0; at < parts.length; at += 2) {
                made.add((String) parts[at], (JsonElement) parts[at + 1]);
            }
            return made;
        }

        static JsonElement text(String it) {
            return it == null ? JsonNull.INSTANCE : new JsonPrimitive(it);
        }

        static JsonElement pairs(List<Pair> those) {
            JsonArray made = new JsonArray();
            for (Pair it : those) {
                JsonArray pair = new JsonArray();
                pair.add(it.key());
                pair.add(it.value());
                made.add(pair);
            }
            return made;
        }

        static JsonElement head(VM vm) {
            VM.ResponseHead it = vm.getResponseHead();
            return object("status_code", new JsonPrimitive(it.statusCode()), "version", new JsonPrimitive(vm.version()), "headers", pairs(it.headers()));
        }

        static JsonElement state(State it) {
            StringBuilder made = new StringBuilder();
            for (String word : it.name().split("_")) {
                made.append(word.charAt(0)).append(word.substring(1).toLowerCase(Locale.ROOT));
            }
            return new JsonPrimitive(made.toString());
        }

        static JsonElement awaited(Awaited it) {
            if (it instanceof Awaited.Waiting waiting) {
                return object("wait", object("input", new JsonPrimitive(waiting.input()), "run", new JsonPrimitive(waiting.run())));
            }
            if (it instanceof Awaited.ExecuteRun run) {
                return object("run", handle(run.handle()));
            }
            if (it instanceof Awaited.EphemeralReady ready) {
                return object("ephemeral", handle(ready.id()));
            }
            return new JsonPrimitive(it instanceof Awaited.Cancelled ? "cancelled" : "any");
        }

        static JsonElement taken(Optional<Value> found) {
            Value it = found.orElse(null);
            if (it instanceof Result.Success success) {
                return object("success", new JsonPrimitive(hex(success.bytes())));
            }
            if (it instanceof Result.Failure failure) {
                JsonElement metadata = pairs(failure.metadata());
                return object("failure", object("code", new JsonPrimitive(failure.code()), "message", text(failure.message()), "metadata", metadata));
            }
            if (it instanceof Value.Keys keys) {
                JsonArray names = new JsonArray();
                keys.names().forEach(names::add);
                return object("keys", names);
            }
            if (it instanceof InvocationTarget.InvocationId id) {
                return object("invocation", text(id.id()));
            }
            return new JsonPrimitive(it == null ? "none" : "void");
        }

        static JsonElement input(Input it) {
            long seed = it.randomSeed();
            JsonPrimitive exact = seed >= 0 && seed < EXACT ? new JsonPrimitive(seed) : new JsonPrimitive(Long.toUnsignedString(seed));
            return object(
                    "invocation_id", text(it.invocationId()), "key", text(it.key()), "scope", text(it.scope()), "limit_key", text(it.limitKey()),
                    "idempotency_key", text(it.idempotencyKey()), "headers", pairs(it.headers()), "random_seed", exact, "value", new JsonPrimitive(hex(it.input())));
        }

        static JsonElement awakeable(VM.Awakeable it) {
            return object("handle", handle(it.handle()), "id", text(it.id()));
        }

        static JsonElement run(VM.Run it) {
            return object("handle", handle(it.handle()), "replayed", new JsonPrimitive(it.replayed()));
        }
    }

    /** The types of whole frames; null if there is anything else. */
    private static JsonArray frames(String hex) {
        ByteBuffer left = ByteBuffer.wrap(HexFormat.of().parseHex(hex));
        JsonArray types = new JsonArray();
        while (left.hasRemaining()) {
            if (left.remaining() < HEAD) {
                return null;
            }
            types.add(Short.toUnsignedInt(left.getShort()));
            long length = left.getLong();
            if (length < 0 || length > left.remaining()) {
                return null;
            }
            left.position(left.position() + (int) length);
        }
        return types;
    }

    private static JsonObject performed(Call call, VM vm, JsonObject step) {
        try {
            return Shown.object("returns", call.on(vm, step));
        } catch (VMException error) {
            JsonObject shown = Shown.object("code", new JsonPrimitive(error.code()), "message", Shown.text(error.text()));
            if (step.has("error") && step.getAsJsonObject("error").has("difference")) {
                shown.add("difference", Shown.text(error.difference().map(Object::toString).orElse(null)));
            }
            return Shown.object("error", shown);
        }
    }

    private static boolean fits(JsonObject step, JsonObject found) {
        if (step.has("frames")) {
            return found.has("returns") && step.get("frames").equals(frames(found.get("returns").getAsString()));
        }
        JsonObject wanted = new JsonObject();
        for (String name : List.of("returns", "error")) {
            if (step.has(name)) {
                wanted.add(name, step.get(name));
            }
        }
        return wanted.equals(found);
    }

    /** Plays a row; returns whether it fits. */
    private static boolean play(JsonObject row) {
        VM[] vm = new VM[1];
        boolean isWell = true;
        JsonArray steps = row.getAsJsonArray("steps");
        for (int at = 0; at < steps.size(); at++) {
            JsonObject step = steps.get(at).getAsJsonObject();
            String name = step.get("call").getAsString();
            boolean isNew = name.equals("new");
            if (isNew && vm[0] != null) {
                vm[0].close();
                vm[0] = null;
            }
            if (!isNew && vm[0] == null) {
                continue;
            }
            JsonObject options = step.has("options") ? step.getAsJsonObject("options") : new JsonObject();
            Call opens = (none, it) -> {
                vm[0] = new VM(Given.text(it, "content_type"), Given.options(options));
                return new JsonPrimitive(vm[0].version());
            };
            JsonObject found = performed(isNew ? opens : CALLS.get(name), vm[0], step);
            if (!fits(step, found)) {
                isWell = false;
                System.out.printf("%s (%s), step %d, %s: %s%n", row.get("row").getAsString(), row.get("under").getAsString(), at, name, found);
            }
        }
        if (vm[0] != null) {
            vm[0].close();
        }
        System.out.println((isWell ? "ok " : "not ok ") + row.get("row").getAsString());
        return isWell;
    }

    public static void main(String[] arguments) throws IOException {
        boolean isWell = true;
        BufferedReader rows = new BufferedReader(new InputStreamReader(System.in, StandardCharsets.UTF_8));
        for (String line = rows.readLine(); line != null; line = rows.readLine()) {
            isWell &= play(JsonParser.parseString(line).getAsJsonObject());
        }
        System.exit(isWell ? 0 : 1);
    }
}
