package palqytun;

/** The shared object, or the native code, can't be used. The text names the path, and says what to do. */
public final class LibraryException extends PalqytunException {
    private static final long serialVersionUID = 1L;
    private final String path;

    LibraryException(String path, String message, Throwable cause) {
        super(message, cause);
        this.path = path;
    }

    /** Where it was looked for. */
    public String path() {
        return path;
    }
}
