// tools/header --write writes this file, from palqytun.h.
package palqytun;

/** When an await that waits for input says what it waits for. */
public enum AwaitingOnPolicy {
    DONT_SEND_WHEN_EXECUTING_RUN(0),
    SEND_ALWAYS(1),
    DONT_SEND(2);

    private final int number;

    AwaitingOnPolicy(int number) {
        this.number = number;
    }

    /** Its number in the interface. */
    public int number() {
        return number;
    }

    static AwaitingOnPolicy of(long number) {
        for (AwaitingOnPolicy it : values()) {
            if (it.number == number) {
                return it;
            }
        }
        throw new IllegalArgumentException("there is no AwaitingOnPolicy " + number);
    }
}
