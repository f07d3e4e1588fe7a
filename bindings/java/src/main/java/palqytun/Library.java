package palqytun;

import java.net.URISyntaxException;
import java.nio.file.Files;
import java.nio.file.Path;
import java.security.CodeSource;

/** The native code, and the library that it loads. */
final class Library {
    private static final String NATIVE = "libpalqytun_jni.so";

    private static boolean isLoaded;

    private Library() {}

    static native Object open(Object... given);

    static native Object journal_open(Object... given);

    static native Object close(Object... given);

    static native Object journal_close(Object... given);

    static native Object load(Object... given);

    static native Object version(Object... given);

    static native Object build(Object... given);

    static native Object is_proved(Object... given);

    /** Has to come before any call. Throws a {@link LibraryException}. */
    static synchronized void need() {
        if (isLoaded) {
            return;
        }
        loadNative();
        String said = (String) load();
        if (said != null) {
            throw new LibraryException(said.split(": ", 2)[0], said, null);
        }
        isLoaded = true;
    }

    /** The file that the property {@code palqytun.jni} names, or else the one beside the classes' archive, or one of {@code java.library.path}. */
    private static void loadNative() {
        String path = System.getProperty("palqytun.jni", beside());
        try {
            if (path == null) {
                System.loadLibrary("palqytun_jni");
            } else {
                System.load(path);
            }
        } catch (UnsatisfiedLinkError error) {
            String named = path == null ? NATIVE : path;
            String said = named + ": the native code can't be loaded: " + error.getMessage() + ": bindings/java/build.sh makes it; -Dpalqytun.jni=FILE names it";
            throw new LibraryException(named, said, error);
        }
    }

    private static String beside() {
        CodeSource source = Library.class.getProtectionDomain().getCodeSource();
        try {
            Path found = source == null ? null : Path.of(source.getLocation().toURI()).toAbsolutePath().resolveSibling(NATIVE);
            return found != null && Files.exists(found) ? found.toString() : null;
        } catch (URISyntaxException | IllegalArgumentException error) {
            return null;
        }
    }

    /** Throws the error of a status that isn't done. */
    static void done(long status) {
        if (status != Abi.DONE) {
            throw new StatusException(Status.of(status));
        }
    }

    static void done(Object returned) {
        done(((Long) returned).longValue());
    }

    /** The bytes that a call returned, or the error of its status. */
    static byte[] written(Object returned) {
        if (returned instanceof byte[] bytes) {
            return bytes;
        }
        done(returned);
        return new byte[0];
    }

    /** The same, null if there is no such part. */
    static byte[] part(Object returned) {
        return returned instanceof Long status && status == Abi.NO_PART ? null : written(returned);
    }
}
