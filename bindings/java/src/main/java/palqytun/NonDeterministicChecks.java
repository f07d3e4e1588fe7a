// tools/header --write writes this file, from palqytun.h.
package palqytun;

/** Whether replay compares payloads. */
public enum NonDeterministicChecks {
    ENABLED(0),
    PAYLOAD_CHECKS_DISABLED(1);

    private final int number;

    NonDeterministicChecks(int number) {
        this.number = number;
    }

    /** Its number in the interface. */
    public int number() {
        return number;
    }

    static NonDeterministicChecks of(long number) {
        for (NonDeterministicChecks it : values()) {
            if (it.number == number) {
                return it;
            }
        }
        throw new IllegalArgumentException("there is no NonDeterministicChecks " + number);
    }
}
