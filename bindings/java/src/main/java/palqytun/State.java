// tools/header --write writes this file, from palqytun.h.
package palqytun;

/** The state of a VM. */
public enum State {
    WAITING_PRE_FLIGHT(0),
    REPLAYING(1),
    PROCESSING(2),
    CLOSED(3);

    private final int number;

    State(int number) {
        this.number = number;
    }

    /** Its number in the interface. */
    public int number() {
        return number;
    }

    static State of(long number) {
        for (State it : values()) {
            if (it.number == number) {
                return it;
            }
        }
        throw new IllegalArgumentException("there is no State " + number);
    }
}
