package palqytun;

import java.nio.charset.StandardCharsets;
import java.util.List;
import java.util.Objects;

/** Arguments as the native code takes them: texts as bytes of UTF-8, numbers as a Long, structs as arrays in the order of palqytun.h. */
final class Given {
    private static final Object[] NO_COMMAND = {(long) Abi.RELATED_TO_NONE, 0L, 0L, null};
    private static final int MOST_CODE = 0xffff;
    private static final byte[] EMPTY = {};

    private Given() {}

    /** An argument that isn't null. */
    static <T> T present(String name, String what, T it) {
        return Objects.requireNonNull(it, () -> name + " must be " + what + ", not null");
    }

    static byte[] bytes(String name, byte[] value) {
        return present(name, "a byte[]", value);
    }

    /** A text in UTF-8. */
    static byte[] text(String name, String value) {
        present(name, "a String", value);
        for (int at = 0; at < value.length(); at++) {
            if (!Character.isSurrogate(value.charAt(at))) {
                continue;
            }
            if (!Character.isHighSurrogate(value.charAt(at)) || at + 1 == value.length() || !Character.isLowSurrogate(value.charAt(at + 1))) {
                throw new IllegalArgumentException(name + " has half of a surrogate pair, and so no UTF-8");
            }
            at++;
        }
        return value.getBytes(StandardCharsets.UTF_8);
    }

    static byte[] optional(String name, String value) {
        return value == null ? null : text(name, value);
    }

    /** A number of 32 bits, whose greatest bit isn't a sign. */
    static Long u32(int value) {
        return Integer.toUnsignedLong(value);
    }

    private static Long within(String name, int value, int least, int most) {
        if (value < least || value > most) {
            throw new IllegalArgumentException(name + " must be from " + least + " to " + most + ", not " + value);
        }
        return (long) value;
    }

    static Long code(String name, int value) {
        return within(name, value, 0, MOST_CODE);
    }

    /** The version of an attempt's messages. */
    static Long version(String name, int value) {
        return within(name, value, Abi.MINIMUM_VERSION, Abi.MAXIMUM_VERSION);
    }

    static byte[][] pairs(String name, List<Pair> value) {
        present(name, "a List", value);
        byte[][] made = new byte[2 * value.size()][];
        int at = 0;
        for (Pair it : value) {
            present("each of " + name, "a Pair", it);
            made[at++] = text("a key of " + name, it.key());
            made[at++] = text("a value of " + name, it.value());
        }
        return made;
    }

    static Object[] options(Options it) {
        present("options", "an Options", it);
        return new Object[] {
            u32(present("options.implicitCancellation", "an ImplicitCancellation", it.implicitCancellation()).number()),
            u32(present("options.nonDeterministicChecks", "a NonDeterministicChecks", it.nonDeterministicChecks()).number()),
            u32(present("options.awaitingOnPolicy", "an AwaitingOnPolicy", it.awaitingOnPolicy()).number()),
            u32(present("options.journalMismatchRetryBehavior", "a JournalMismatchRetryBehavior", it.journalMismatchRetryBehavior()).number()),
            u32(present("options.journalReplay", "a JournalReplay", it.journalReplay()).number()),
            u32(present("options.signalDelivery", "a SignalDelivery", it.signalDelivery()).number()), it.fallbackRandomSeed()
        };
    }

    static Object[] target(Target it) {
        present("target", "a Target", it);
        return new Object[] {
            text("target.service", it.service()), text("target.handler", it.handler()), optional("target.key", it.key()),
            optional("target.idempotencyKey", it.idempotencyKey()), optional("target.scope", it.scope()), optional("target.limitKey", it.limitKey()),
            pairs("target.headers", it.headers())
        };
    }

    static Object[] value(String name, Result it) {
        if (it instanceof Result.Success success) {
            return new Object[] {false, 0L, bytes(name + ".bytes", success.bytes()), new byte[0][]};
        }
        if (it instanceof Result.Failure failure) {
            byte[] message = text(name + ".message", failure.message());
            return new Object[] {true, code(name + ".code", failure.code()), message, pairs(name + ".metadata", failure.metadata())};
        }
        throw new NullPointerException(name + " must be a Result, not null");
    }

    static Object[] error(HandlerError it) {
        present("error", "a HandlerError", it);
        Long delay = it.nextRetryDelayMillis();
        return new Object[] {
            code("error.code", it.code()), u32(present("error.behavior", "an ErrorBehavior", it.behavior()).number()),
            text("error.message", it.message()), text("error.stacktrace", it.stacktrace()), delay != null, delay == null ? 0L : delay
        };
    }

    static Object[] command(RelatedCommand it) {
        if (it instanceof RelatedCommand.Last) {
            return new Object[] {(long) Abi.RELATED_TO_LAST, 0L, 0L, null};
        }
        if (it instanceof RelatedCommand.Next next) {
            return new Object[] {(long) Abi.RELATED_TO_NEXT, 0L, type(next.type()), optional("related.name", next.name())};
        }
        if (it instanceof RelatedCommand.Specific specific) {
            return new Object[] {(long) Abi.RELATED_TO_SPECIFIC, u32(specific.index()), type(specific.type()), optional("related.name", specific.name())};
        }
        present("related", "a RelatedCommand", it);
        return NO_COMMAND;
    }

    private static Long type(CommandType it) {
        return u32(present("related.type", "a CommandType", it).number());
    }

    static Object[] invocation(InvocationTarget it) {
        if (it instanceof InvocationTarget.InvocationId id) {
            return new Object[] {(long) Abi.TARGET_INVOCATION_ID, text("target.id", id.id()), EMPTY, EMPTY, null, null};
        }
        if (it instanceof InvocationTarget.WorkflowId workflow) {
            byte[] name = text("target.name", workflow.name());
            return new Object[] {(long) Abi.TARGET_WORKFLOW_ID, name, text("target.key", workflow.key()), EMPTY, null, optional("target.scope", workflow.scope())};
        }
        if (it instanceof InvocationTarget.IdempotencyId idempotency) {
            return new Object[] {
                (long) Abi.TARGET_IDEMPOTENCY_ID, text("target.service", idempotency.service()), text("target.idempotencyKey", idempotency.idempotencyKey()),
                text("target.handler", idempotency.handler()), optional("target.serviceKey", idempotency.serviceKey()),
                optional("target.scope", idempotency.scope())
            };
        }
        throw new NullPointerException("target must be an InvocationTarget, not null");
    }

    static Object[] policy(RetryPolicy it) {
        present("policy", "a RetryPolicy", it);
        if (present("policy.kind", "a RetryPolicy.Kind", it.kind()) == RetryPolicy.Kind.EXPONENTIAL && it.denominator() == 0) {
            throw new IllegalArgumentException("policy.denominator must be from 1 to 4294967295, not 0");
        }
        return new Object[] {
            u32(it.kind().number), it.initialMillis(), u32(it.numerator()), u32(it.denominator()),
            it.intervalMillis() != null, it.intervalMillis() == null ? 0L : it.intervalMillis(),
            it.maxAttempts() != null, it.maxAttempts() == null ? 0L : u32(it.maxAttempts()),
            it.maxDurationMillis() != null, it.maxDurationMillis() == null ? 0L : it.maxDurationMillis(),
            it.pauses()
        };
    }
}
