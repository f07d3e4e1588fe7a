// tools/header --write writes this file, from palqytun.h.
package palqytun;

/** What a cancelled await cancels; or the cancel signal ends no await. */
public enum ImplicitCancellation {
    CALLS(0),
    NOTHING(1),
    SENDS(2),
    CALLS_AND_SENDS(3),
    DISABLED(4);

    private final int number;

    ImplicitCancellation(int number) {
        this.number = number;
    }

    /** Its number in the interface. */
    public int number() {
        return number;
    }

    static ImplicitCancellation of(long number) {
        for (ImplicitCancellation it : values()) {
            if (it.number == number) {
                return it;
            }
        }
        throw new IllegalArgumentException("there is no ImplicitCancellation " + number);
    }
}
