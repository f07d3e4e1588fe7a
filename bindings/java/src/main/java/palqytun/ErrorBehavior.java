// tools/header --write writes this file, from palqytun.h.
package palqytun;

/** What is done after an error. */
public enum ErrorBehavior {
    RETRY(0),
    PAUSE(1),
    FAIL(2);

    private final int number;

    ErrorBehavior(int number) {
        this.number = number;
    }

    /** Its number in the interface. */
    public int number() {
        return number;
    }

    static ErrorBehavior of(long number) {
        for (ErrorBehavior it : values()) {
            if (it.number == number) {
                return it;
            }
        }
        throw new IllegalArgumentException("there is no ErrorBehavior " + number);
    }
}
