package palqytun;

/** An error of the handler's own. A delay that is null isn't given; it is in milliseconds. */
public record HandlerError(int code, String message, String stacktrace, ErrorBehavior behavior, Long nextRetryDelayMillis) {
    /** One after which the handler is tried again. */
    public static HandlerError of(int code, String message) {
        return new HandlerError(code, message, "", ErrorBehavior.RETRY, null);
    }

    public HandlerError withStacktrace(String given) {
        return new HandlerError(code, message, given, behavior, nextRetryDelayMillis);
    }

    public HandlerError with(ErrorBehavior given) {
        return new HandlerError(code, message, stacktrace, given, nextRetryDelayMillis);
    }

    public HandlerError withNextRetryDelayMillis(long given) {
        return new HandlerError(code, message, stacktrace, behavior, given);
    }
}
