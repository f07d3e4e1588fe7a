package palqytun;

/**
 * When a run that failed is tried again. Times are in milliseconds, and a bound that is null isn't given. The factor is a numerator, and a denominator that
 * isn't 0. At a bound the invocation pauses, or the error is the run's result.
 */
public record RetryPolicy(
        Kind kind, long initialMillis, int numerator, int denominator, Long intervalMillis, Integer maxAttempts, Long maxDurationMillis, boolean pauses) {
    /** How delays follow each other. */
    public enum Kind {
        INFINITE(Abi.POLICY_INFINITE),
        NONE(Abi.POLICY_NONE),
        FIXED_DELAY(Abi.POLICY_FIXED_DELAY),
        EXPONENTIAL(Abi.POLICY_EXPONENTIAL);

        final int number;

        Kind(int number) {
            this.number = number;
        }
    }

    /** For ever, and the runtime says when. */
    public static final RetryPolicy INFINITE = new RetryPolicy(Kind.INFINITE, 0, 1, 1, null, null, null, false);

    /** Never. */
    public static final RetryPolicy NONE = new RetryPolicy(Kind.NONE, 0, 1, 1, null, null, null, false);

    /** After the same delay each time. */
    public static RetryPolicy fixedDelay(long intervalMillis) {
        return new RetryPolicy(Kind.FIXED_DELAY, 0, 1, 1, intervalMillis, null, null, false);
    }

    /** After delays that grow by a factor. */
    public static RetryPolicy exponential(long initialMillis, int numerator, int denominator) {
        return new RetryPolicy(Kind.EXPONENTIAL, initialMillis, numerator, denominator, null, null, null, false);
    }

    public RetryPolicy withIntervalMillis(long given) {
        return new RetryPolicy(kind, initialMillis, numerator, denominator, given, maxAttempts, maxDurationMillis, pauses);
    }

    public RetryPolicy withMaxAttempts(int given) {
        return new RetryPolicy(kind, initialMillis, numerator, denominator, intervalMillis, given, maxDurationMillis, pauses);
    }

    public RetryPolicy withMaxDurationMillis(long given) {
        return new RetryPolicy(kind, initialMillis, numerator, denominator, intervalMillis, maxAttempts, given, pauses);
    }

    public RetryPolicy thatPauses() {
        return new RetryPolicy(kind, initialMillis, numerator, denominator, intervalMillis, maxAttempts, maxDurationMillis, true);
    }
}
