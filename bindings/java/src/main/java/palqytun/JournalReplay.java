// tools/header --write writes this file, from palqytun.h.
package palqytun;

/** Whether recorded commands are replayed, or skipped. */
public enum JournalReplay {
    ENABLED(0),
    DISABLED(1);

    private final int number;

    JournalReplay(int number) {
        this.number = number;
    }

    /** Its number in the interface. */
    public int number() {
        return number;
    }

    static JournalReplay of(long number) {
        for (JournalReplay it : values()) {
            if (it.number == number) {
                return it;
            }
        }
        throw new IllegalArgumentException("there is no JournalReplay " + number);
    }
}
