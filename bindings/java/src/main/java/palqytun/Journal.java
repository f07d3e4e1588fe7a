package palqytun;

import java.util.ArrayList;
import java.util.List;
import java.util.OptionalLong;

/**
 * A stored journal, as its only writer knows it, without its entries. What may not be appended is a {@link StatusException}; what came since the last
 * {@link #keep} is then taken back. Threads may share it. It is closed by {@link #close}, or once it is garbage.
 */
public final class Journal implements AutoCloseable {
    private static final int STATUS = 0;
    private static final int TYPE = 1;
    private static final int IS_COMPLETION = 2;
    private static final int COMPLETES = 3;
    private static final int COUNT = 1;

    /** An entry to be appended: the type of its message, the completion id that it completes, and its bytes. */
    public record Row(MessageType message, OptionalLong completes, byte[] frame) {
        /** What the row asks a runtime for, as a call, a sleep or a send. */
        public Frames.Message effect() {
            return Frames.read(frame);
        }
    }

    /** What is stored of an attempt's output: the rows to append, in order, and what the attempt is fed after the commit. */
    public record Stored(List<Row> rows, byte[] feed) {}

    private final Handle handle;

    /** An empty journal. */
    public Journal() {
        this(List.of());
    }

    /** A journal of these entries, each one whole frame, the first one an Input; they are kept. */
    public Journal(List<byte[]> entries) {
        Given.present("entries", "a List", entries);
        Library.need();
        handle = new Handle(this, Library.journal_open(), Library::journal_close);
        for (byte[] it : entries) {
            entry(it);
        }
        if (!entries.isEmpty()) {
            keep();
        }
    }

    /** Frees its memory. It may be called again; each other call then throws a {@link StatusException}. */
    @Override
    public synchronized void close() {
        handle.close();
    }

    /** How many entries it has, those that aren't committed too. */
    public synchronized long entries() {
        return done(Calls.journal_entries(handle.at()))[COUNT];
    }

    /** The next entry of a journal that is loaded. */
    public synchronized Row entry(byte[] frame) {
        return row(Calls.journal_entry(handle.at(), Given.bytes("frame", frame)), frame);
    }

    /** The entry that a notification is. The attempt is fed its bytes after the commit. */
    public synchronized Row arrive(byte[] notification) {
        return row(Calls.journal_arrive(handle.at(), Given.bytes("notification", notification)), notification);
    }

    /** What is stored of what an attempt of this version wrote since the last store, as {@link VM#takeOutput} gave it. */
    public synchronized Stored store(int version, byte[] output) {
        long count = done(Calls.journal_store(handle.at(), Given.version("version", version), Given.bytes("output", output)))[COUNT];
        List<Row> rows = new ArrayList<>();
        for (long at = 0; at < count; at++) {
            rows.add(row(Calls.journal_row(handle.at(), at), Library.written(Calls.journal_frame(handle.at(), at))));
        }
        return new Stored(List.copyOf(rows), Library.written(Calls.journal_answer(handle.at())));
    }

    /** What came since the last of these calls is committed. After {@link Status#NO_MEMORY} the journal has to be loaded again, into another. */
    public synchronized void keep() {
        Library.done(Calls.journal_keep(handle.at()));
    }

    /** What came since the last commit isn't committed: the journal is again as it was then. */
    public synchronized void undo() {
        Library.done(Calls.journal_undo(handle.at()));
    }

    private static long[] done(Object returned) {
        long[] it = (long[]) returned;
        Library.done(it[STATUS]);
        return it;
    }

    private static Row row(Object returned, byte[] frame) {
        long[] it = done(returned);
        OptionalLong completes = it[IS_COMPLETION] == 1 ? OptionalLong.of(it[COMPLETES]) : OptionalLong.empty();
        return new Row(MessageType.of(it[TYPE]), completes, frame);
    }
}
