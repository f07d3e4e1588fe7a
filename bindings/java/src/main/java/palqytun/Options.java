package palqytun;

/**
 * What a VM does where it has a choice: {@code Options.DEFAULTS.with(JournalReplay.DISABLED)}. The fallback seed is the handler's random seed if the version
 * hands none out.
 */
public record Options(
        ImplicitCancellation implicitCancellation,
        NonDeterministicChecks nonDeterministicChecks,
        AwaitingOnPolicy awaitingOnPolicy,
        JournalMismatchRetryBehavior journalMismatchRetryBehavior,
        JournalReplay journalReplay,
        SignalDelivery signalDelivery,
        long fallbackRandomSeed) {
    /** What a VM does if nothing is said. */
    public static final Options DEFAULTS = new Options(
            ImplicitCancellation.of(0), NonDeterministicChecks.of(0), AwaitingOnPolicy.of(0), JournalMismatchRetryBehavior.of(0), JournalReplay.of(0),
            SignalDelivery.of(0), 0);

    public Options with(ImplicitCancellation it) {
        return new Options(it, nonDeterministicChecks, awaitingOnPolicy, journalMismatchRetryBehavior, journalReplay, signalDelivery, fallbackRandomSeed);
    }

    public Options with(NonDeterministicChecks it) {
        return new Options(implicitCancellation, it, awaitingOnPolicy, journalMismatchRetryBehavior, journalReplay, signalDelivery, fallbackRandomSeed);
    }

    public Options with(AwaitingOnPolicy it) {
        return new Options(implicitCancellation, nonDeterministicChecks, it, journalMismatchRetryBehavior, journalReplay, signalDelivery, fallbackRandomSeed);
    }

    public Options with(JournalMismatchRetryBehavior it) {
        return new Options(implicitCancellation, nonDeterministicChecks, awaitingOnPolicy, it, journalReplay, signalDelivery, fallbackRandomSeed);
    }

    public Options with(JournalReplay it) {
        return new Options(implicitCancellation, nonDeterministicChecks, awaitingOnPolicy, journalMismatchRetryBehavior, it, signalDelivery, fallbackRandomSeed);
    }

    public Options with(SignalDelivery it) {
        return new Options(implicitCancellation, nonDeterministicChecks, awaitingOnPolicy, journalMismatchRetryBehavior, journalReplay, it, fallbackRandomSeed);
    }

    public Options withFallbackRandomSeed(long it) {
        return new Options(
                implicitCancellation, nonDeterministicChecks, awaitingOnPolicy, journalMismatchRetryBehavior, journalReplay, signalDelivery, it);
    }
}
