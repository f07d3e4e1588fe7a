// tools/header --write writes this file, from palqytun.h.
package palqytun;

/** What a command is. */
public enum CommandType {
    INPUT(0),
    OUTPUT(1),
    GET_STATE(2),
    GET_STATE_KEYS(3),
    SET_STATE(4),
    CLEAR_STATE(5),
    CLEAR_ALL_STATE(6),
    GET_PROMISE(7),
    PEEK_PROMISE(8),
    COMPLETE_PROMISE(9),
    SLEEP(10),
    CALL(11),
    ONE_WAY_CALL(12),
    SEND_SIGNAL(13),
    RUN(14),
    ATTACH_INVOCATION(15),
    GET_INVOCATION_OUTPUT(16),
    COMPLETE_AWAKEABLE(17),
    CANCEL_INVOCATION(18);

    private final int number;

    CommandType(int number) {
        this.number = number;
    }

    /** Its number in the interface. */
    public int number() {
        return number;
    }

    static CommandType of(long number) {
        for (CommandType it : values()) {
            if (it.number == number) {
                return it;
            }
        }
        throw new IllegalArgumentException("there is no CommandType " + number);
    }
}
