// tools/header --write writes this file, from palqytun.h.
package palqytun;

/** Several deliveries of one signal queue up, or the newest replaces the others. */
public enum SignalDelivery {
    QUEUED(0),
    OVERWRITE(1);

    private final int number;

    SignalDelivery(int number) {
        this.number = number;
    }

    /** Its number in the interface. */
    public int number() {
        return number;
    }

    static SignalDelivery of(long number) {
        for (SignalDelivery it : values()) {
            if (it.number == number) {
                return it;
            }
        }
        throw new IllegalArgumentException("there is no SignalDelivery " + number);
    }
}
