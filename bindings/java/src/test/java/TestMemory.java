import java.io.IOException;
import java.lang.ref.Cleaner;
import java.nio.file.Files;
import java.nio.file.Path;
import java.util.concurrent.CountDownLatch;
import java.util.concurrent.TimeUnit;
import palqytun.Frames;
import palqytun.Journal;
import palqytun.VM;

/**
 * A hundred thousand VMs and journals are opened and closed, and memory doesn't grow; nor does it by those that are garbage. Java's own heap has to have a
 * fixed size: -Xms64m -Xmx64m -XX:+AlwaysPreTouch.
 */
public final class TestMemory {
    private static final long MOST = 16_384; // pages: a hundred thousand VMs that stay would take more than 50,000
    private static final long MOST_OF_GARBAGE = 16_384; // a hundred and twenty thousand that stay would take more than 60,000
    private static final int ROUND = 5_000;
    private static final int ROUNDS = 24;
    private static final int MOST_TURNS = 3_000;
    private static final Cleaner CLEANER = Cleaner.create();

    private static long residentPages() throws IOException {
        return Long.parseLong(Files.readString(Path.of("/proc/self/statm")).split(" ")[1]);
    }

    private static void openAndClose(int many) {
        byte[] start = Frames.frameOf("Start id=\"abc\" debug_id=\"abc\" known_entries=1");
        byte[] input = Frames.frameOf("Input value=\"Till\"");
        for (int at = 0; at < many; at++) {
            try (VM vm = new VM("application/vnd.restate.invocation.v7"); Journal journal = new Journal()) {
                vm.notifyInput(start);
                vm.notifyInput(input);
                Common.equal(0L, journal.entries());
            }
        }
    }

    /** Opens VMs, and waits until the collector has found that they are garbage. */
    private static void openAndForget() throws InterruptedException {
        CountDownLatch left = new CountDownLatch(ROUND);
        for (int at = 0; at < ROUND; at++) {
            CLEANER.register(Common.begun(), left::countDown);
        }
        for (int turn = 0; turn < MOST_TURNS; turn++) {
            System.gc(); // Java doesn't know how much memory a VM has, so the collector is asked
            if (left.await(100, TimeUnit.MILLISECONDS)) {
                return;
            }
        }
        throw new AssertionError(left.getCount() + " VMs aren't found to be garbage");
    }

    private static void doesNotGrow() throws IOException {
        openAndClose(4 * ROUND);
        long before = residentPages();
        openAndClose(100_000);
        Common.holds(residentPages() - before, it -> it < MOST);
    }

    private static void whatIsGarbageIsClosed() throws IOException, InterruptedException {
        openAndForget();
        long before = residentPages();
        for (int at = 0; at < ROUNDS; at++) {
            openAndForget();
        }
        Common.holds(residentPages() - before, it -> it < MOST_OF_GARBAGE);
    }

    public static void main(String[] arguments) {
        Common.test("memory doesn't grow", TestMemory::doesNotGrow);
        Common.test("what is garbage is closed", TestMemory::whatIsGarbageIsClosed);
        Common.end();
    }
}
