// tools/header --write writes this file, from palqytun.h.
package palqytun;

/** The type of a message. */
public enum MessageType {
    START(1),
    SUSPENSION(2),
    ERROR(3),
    END(4),
    PROPOSE_RUN_COMPLETION(5),
    PROPOSE_RUN_COMPLETION_ACK(6),
    AWAITING_ON(7),
    GET_STATE_EPHEMERAL_COMMAND(8),
    GET_STATE_EPHEMERAL_NOTIFICATION(9),
    INPUT_COMMAND(10),
    GET_EAGER_STATE_COMMAND(11),
    GET_LAZY_STATE_COMMAND(12),
    GET_EAGER_STATE_KEYS_COMMAND(13),
    GET_LAZY_STATE_KEYS_COMMAND(14),
    SET_STATE_COMMAND(15),
    CLEAR_STATE_COMMAND(16),
    CLEAR_ALL_STATE_COMMAND(17),
    SLEEP_COMMAND(18),
    CALL_COMMAND(19),
    ONE_WAY_CALL_COMMAND(20),
    COMPLETE_AWAKEABLE_COMMAND(21),
    SEND_SIGNAL_COMMAND(22),
    GET_PROMISE_COMMAND(23),
    PEEK_PROMISE_COMMAND(24),
    COMPLETE_PROMISE_COMMAND(25),
    RUN_COMMAND(26),
    ATTACH_INVOCATION_COMMAND(27),
    GET_INVOCATION_OUTPUT_COMMAND(28),
    OUTPUT_COMMAND(29),
    NOTIFICATION(30);

    private final int number;

    MessageType(int number) {
        this.number = number;
    }

    /** Its number in the interface. */
    public int number() {
        return number;
    }

    static MessageType of(long number) {
        for (MessageType it : values()) {
            if (it.number == number) {
                return it;
            }
        }
        throw new IllegalArgumentException("there is no MessageType " + number);
    }
}
