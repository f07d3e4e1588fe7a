import java.util.Objects;
import java.util.function.Predicate;
import palqytun.Frames;
import palqytun.Palqytun;
import palqytun.VM;

/** What the tests share: VMs, and what is asserted. */
final class Common {
    private Common() {}

    /** A test by its name. */
    interface Test {
        void run() throws Exception;
    }

    private static int passed;
    private static int failed;

    /** Runs a test, and says what is wrong with it. */
    static void test(String name, Test test) {
        try {
            test.run();
            passed++;
            System.out.println("ok " + name);
        } catch (Throwable error) {
            failed++;
            System.out.println("not ok " + name);
            error.printStackTrace(System.out);
        }
    }

    /** Ends the program: 'N passed, M failed'. */
    static void end() {
        System.out.println(passed + " passed, " + failed + " failed");
        System.exit(failed == 0 ? 0 : 1);
    }

    static void equal(Object wanted, Object found) {
        if (!Objects.equals(wanted, found)) {
            throw new AssertionError(found + " is there, and not " + wanted);
        }
    }

    static <T> void holds(T found, Predicate<T> wanted) {
        if (!wanted.test(found)) {
            throw new AssertionError(found + " isn't what is wanted");
        }
    }

    /** What is thrown, which has to be of a class. */
    static <E extends Throwable> E thrown(Class<E> wanted, Test test) {
        try {
            test.run();
        } catch (Throwable error) {
            if (wanted.isInstance(error)) {
                return wanted.cast(error);
            }
            throw new AssertionError(error + " is thrown, and no " + wanted.getName(), error);
        }
        throw new AssertionError("nothing is thrown, and not " + wanted.getName());
    }

    /** The same, with its text. */
    static void refused(Class<? extends Throwable> wanted, String text, Test test) {
        equal(text, thrown(wanted, test).getMessage());
    }

    /** A VM of version 7 that was fed these lines. */
    static VM fed(String... lines) {
        VM vm = new VM(Palqytun.contentType(7));
        for (String line : lines) {
            vm.notifyInput(Frames.frameOf(line));
        }
        return vm;
    }

    /** A VM of version 7 that has its input. */
    static VM begun() {
        VM vm = fed("Start id=\"abc\" debug_id=\"abc\" known_entries=1", "Input value=\"Till\"");
        vm.sysInput();
        return vm;
    }
}
