import palqytun.LibraryException;
import palqytun.Palqytun;

/** Prints which library there is, or why there is none. */
public final class About {
    public static void main(String[] arguments) {
        try {
            System.out.println(Palqytun.build());
        } catch (LibraryException error) {
            System.err.println(error.getMessage());
            System.exit(1);
        }
    }
}
