// tools/header --write writes this file, from palqytun.h.
package palqytun;

/** How a call ended. It is a {@link StatusException} if the call wasn't made. */
public enum Status {
    DONE(0, "the call was made"),
    NO_MEMORY(1, "no memory was found"),
    NO_SESSION(2, "the VM was closed"),
    NO_VM(3, "there is no VM"),
    NO_ROOM(4, "the buffer is too short"),
    REFUSED(5, "the VM refused the call"),
    BAD_TEXT(6, "a text isn't UTF-8"),
    BAD_TREE(7, "the nodes aren't one tree"),
    BAD_NUMBER(8, "a number names no case of what it is to name"),
    NO_PART(9, "there is no such part"),
    BAD_OUTPUT(10, "the output isn't whole frames"),
    NOT_A_NOTIFICATION(11, "it isn't one whole frame of a notification"),
    NO_SUCH_ID(12, "no stored command has the completion id"),
    SECOND_COMPLETION(13, "the completion id was completed before"),
    WRONG_KIND(14, "the id of an invocation is completed by something else"),
    RUN_IS_PROPOSED(15, "the result of a run is proposed by the attempt that ran it"),
    JOURNAL_FULL(16, "the journal is full"),
    BAD_JOURNAL(17, "it isn't one whole frame of a command or a notification, or the first one isn't an Input"),
    NOT_A_FRAME(18, "it isn't one whole frame"),
    BAD_LINE(19, "the line has no meaning"),
    NO_RESULT(20, "the frame has no result"),
    NOT_A_SUSPENSION(21, "the frame isn't one of a suspension"),
    NO_JOURNAL(22, "the journal was closed"),
    NO_ROW(23, "the last store has no such row"),
    NOT_FRAMES(24, "the notifications aren't whole frames"),
    BUSY(25, "a call of another thread has not ended; let a lock guard it"),
    BAD_HANDLE(26, "the handle is of something else"),
    BAD_POINTER(27, "a pointer is NULL that may not be"),
    NO_FRAME(28, "the next message has no frame in the layer of the peer"),
    LAYERED(29, "the peer speaks another layer, and the call is in the own bytes of the VM");

    private final int number;
    private final String text;

    Status(int number, String text) {
        this.number = number;
        this.text = text;
    }

    /** Its number in the interface. */
    public int number() {
        return number;
    }

    /** What it says. */
    public String text() {
        return text;
    }

    static Status of(long number) {
        for (Status it : values()) {
            if (it.number == number) {
                return it;
            }
        }
        throw new IllegalArgumentException("there is no status " + number);
    }
}
