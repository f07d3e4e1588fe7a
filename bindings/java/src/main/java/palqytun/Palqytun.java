package palqytun;

/** What the library is. */
public final class Palqytun {
    /** The versions of the messages that a VM may have. */
    public static final int MINIMUM_VERSION = Abi.MINIMUM_VERSION;

    /** The greatest of them. */
    public static final int MAXIMUM_VERSION = Abi.MAXIMUM_VERSION;

    /** The handle of the cancel signal, which a handler may await if its VM has {@link ImplicitCancellation#DISABLED}. */
    public static final int CANCEL_HANDLE = Abi.CANCEL_HANDLE;

    private Palqytun() {}

    /** The content type of a version, from {@link #MINIMUM_VERSION} to {@link #MAXIMUM_VERSION}. */
    public static String contentType(int version) {
        return "application/vnd.restate.invocation.v" + Given.version("version", version);
    }

    /** The library's version, the commit and the sum of the kit's logic that it was built of, and {@code proved} or {@code unproved}. */
    public static String build() {
        Library.need();
        return (String) Library.build();
    }

    /** The library's version. */
    public static String libraryVersion() {
        Library.need();
        return (String) Library.version();
    }

    /** Whether the library was built of sources that were proved. */
    public static boolean isProved() {
        Library.need();
        return Library.is_proved() != null;
    }
}
