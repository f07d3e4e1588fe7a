package palqytun;

/** What a call fails by. An argument that has no meaning is an {@link IllegalArgumentException} or a {@link NullPointerException}, which names it. */
public abstract class PalqytunException extends RuntimeException {
    private static final long serialVersionUID = 1L;

    PalqytunException(String message, Throwable cause) {
        super(message, cause);
    }
}
