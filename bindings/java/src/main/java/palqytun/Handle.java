package palqytun;

import java.lang.ref.Cleaner;

/** A handle of the library, which ends when it is closed, or once its owner is garbage. */
final class Handle implements AutoCloseable {
    /** What ends a handle: one of the native methods. */
    interface Closes {
        Object close(Object... given);
    }

    private static final Cleaner CLEANER = Cleaner.create();

    /** What the cleaner has: it must not know the owner. */
    private static final class Kept implements Runnable {
        private final Closes closes;
        private long at;

        Kept(long at, Closes closes) {
            this.at = at;
            this.closes = closes;
        }

        @Override
        public synchronized void run() {
            if (at != 0) {
                closes.close(at);
            }
            at = 0;
        }

        synchronized long at() {
            return at;
        }
    }

    private final Kept kept;
    private final Cleaner.Cleanable cleanable;

    /** Of the owner, by what an open has returned: its status and the handle. */
    Handle(Object owner, Object opened, Closes closes) {
        long[] told = (long[]) opened;
        Library.done(told[0]);
        kept = new Kept(told[1], closes);
        cleanable = CLEANER.register(owner, kept);
    }

    /** The handle; 0 once it is closed. */
    Long at() {
        return kept.at();
    }

    @Override
    public void close() {
        cleanable.clean();
    }
}
