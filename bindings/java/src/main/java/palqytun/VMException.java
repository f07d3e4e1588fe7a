package palqytun;

import java.util.Map;
import java.util.Optional;

/**
 * The VM refused a call. It has failed, or is suspended or closed, and each later call throws the same.
 *
 * <p>An error that was handed in, by {@link VM#notifyError} or {@link VM#proposeRetryableFailure}, is of this class alone, with any code; the classes
 * below are the VM's own errors.
 */
public class VMException extends PalqytunException {
    private static final long serialVersionUID = 1L;
    private static final String CONTENT_TYPES =
            " (the content type must be application/vnd.restate.invocation.vN with N from " + Abi.MINIMUM_VERSION + " to " + Abi.MAXIMUM_VERSION + ")";
    private final int code;
    private final String text;
    private final String stacktrace;
    private final transient Related related;
    private final transient Difference difference;
    private final boolean isOwn;
    private ErrorBehavior behavior = ErrorBehavior.RETRY;
    private Long nextRetryDelayMillis;

    VMException(int code, String text, String stacktrace, Related related, Difference difference, boolean isOwn) {
        super(described(code, text, isOwn) + about(related, difference, Map.of()), null);
        this.code = code;
        this.text = text;
        this.stacktrace = stacktrace;
        this.related = related;
        this.difference = difference;
        this.isOwn = isOwn;
    }

    /** In what the call isn't as recorded, or the command that the error relates to. */
    private static String about(Related related, Difference difference, Map<CommandType, String> names) {
        if (difference != null) {
            return ": " + difference.inWords(names);
        }
        return related == null ? "" : " (" + related + ")";
    }

    /** The message by an SDK's own names of commands. One that isn't there has its own. */
    public String inWords(Map<CommandType, String> names) {
        return described(code, text, isOwn) + about(related, difference, names);
    }

    /** What an error says: its code, with its name if the error is the VM's own, its text, and what is allowed. */
    private static String described(int code, String text, boolean isOwn) {
        String name = isOwn ? nameOf(code) : "";
        String said = isOwn && code == Abi.CODE_INTERNAL && text.isEmpty() ? Status.NO_MEMORY.text() : text;
        String allowed = isOwn && code == Abi.CODE_UNSUPPORTED_MEDIA_TYPE ? CONTENT_TYPES : "";
        return code + " " + (name.isEmpty() || name.equals(text) ? "" : name + ": ") + said + allowed;
    }

    /** The name of a code of the VM's own errors. */
    private static String nameOf(int code) {
        return switch (code) {
            case Abi.CODE_BAD_REQUEST -> "BAD_REQUEST";
            case Abi.CODE_UNSUPPORTED_MEDIA_TYPE -> "UNSUPPORTED_MEDIA_TYPE";
            case Abi.CODE_INTERNAL -> "INTERNAL";
            case Abi.CODE_JOURNAL_MISMATCH -> "JOURNAL_MISMATCH";
            case Abi.CODE_PROTOCOL_VIOLATION -> "PROTOCOL_VIOLATION";
            case Abi.CODE_UNSUPPORTED_FEATURE -> "UNSUPPORTED_FEATURE";
            case Abi.CODE_CLOSED -> "CLOSED";
            case Abi.CODE_SUSPENDED -> "SUSPENDED";
            default -> "";
        };
    }

    /** The code of an error that was handed in may be any, and says nothing of the VM; no such one is of a suspension's kind. */
    static VMException of(
            long kind, boolean isHandedIn, int code, String text, String stacktrace, Related related, Difference difference) {
        if (kind == Abi.SUSPENDED) {
            return new Suspended(code, text, stacktrace, related, difference);
        }
        if (isHandedIn) {
            return new VMException(code, text, stacktrace, related, difference, false);
        }
        return switch (code) {
            case Abi.CODE_CLOSED -> new Closed(code, text, stacktrace, related, difference);
            case Abi.CODE_JOURNAL_MISMATCH -> new JournalMismatch(code, text, stacktrace, related, difference);
            default -> new VMException(code, text, stacktrace, related, difference, true);
        };
    }

    public int code() {
        return code;
    }

    /** What the error says. */
    public String text() {
        return text;
    }

    public String stacktrace() {
        return stacktrace;
    }

    /** The command that it relates to. */
    public Optional<Related> related() {
        return Optional.ofNullable(related);
    }

    /** The same exception, with what is done after it. */
    VMException before(ErrorBehavior then, Long delayMillis) {
        behavior = then;
        nextRetryDelayMillis = delayMillis;
        return this;
    }

    /** What is done after it. */
    public ErrorBehavior behavior() {
        return behavior;
    }

    /** The delay of the next try. */
    public Optional<Long> nextRetryDelayMillis() {
        return Optional.ofNullable(nextRetryDelayMillis);
    }

    /** In what the call isn't as the journal has it, if the error is about that and the journal was fed to this VM. */
    public Optional<Difference> difference() {
        return Optional.ofNullable(difference);
    }

    /** A command: its index, the type of its message, and its name. */
    public record Related(int index, MessageType type, String name) {
        @Override
        public String toString() {
            return "command " + index + ": " + type + " \"" + name + "\"";
        }
    }

    /** The invocation is suspended: what is awaited can't come in this attempt. */
    public static final class Suspended extends VMException {
        private static final long serialVersionUID = 1L;

        Suspended(int code, String text, String stacktrace, Related related, Difference difference) {
            super(code, text, stacktrace, related, difference, true);
        }
    }

    /** The handler has ended, so no call comes after. */
    public static final class Closed extends VMException {
        private static final long serialVersionUID = 1L;

        Closed(int code, String text, String stacktrace, Related related, Difference difference) {
            super(code, text, stacktrace, related, difference, true);
        }
    }

    /** The handler makes another call than the journal has recorded. */
    public static final class JournalMismatch extends VMException {
        private static final long serialVersionUID = 1L;

        JournalMismatch(int code, String text, String stacktrace, Related related, Difference difference) {
            super(code, text, stacktrace, related, difference, true);
        }
    }
}
