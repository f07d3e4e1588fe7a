// tools/header --write writes this file, from palqytun.h.
package palqytun;

/** What becomes of an invocation whose journal doesn't fit its handler. */
public enum JournalMismatchRetryBehavior {
    FOLLOW_RETRY_POLICY(0),
    PAUSE(1),
    FAIL_TERMINALLY(2);

    private final int number;

    JournalMismatchRetryBehavior(int number) {
        this.number = number;
    }

    /** Its number in the interface. */
    public int number() {
        return number;
    }

    static JournalMismatchRetryBehavior of(long number) {
        for (JournalMismatchRetryBehavior it : values()) {
            if (it.number == number) {
                return it;
            }
        }
        throw new IllegalArgumentException("there is no JournalMismatchRetryBehavior " + number);
    }
}
