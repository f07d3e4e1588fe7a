package palqytun;

import java.nio.charset.StandardCharsets;
import java.util.ArrayList;
import java.util.List;

/**
 * Frames beside a journal: each as its line (docs/FRAMES.md) and back, its result as a notification, whether a suspension is awake, and what a frame says.
 */
public final class Frames {
    private static final byte[] EMPTY = {};

    private Frames() {}

    /** The line of a frame. */
    public static String lineOf(byte[] frame) {
        Library.need();
        return new String(Library.written(Calls.frame_line((Object) Given.bytes("frame", frame))), StandardCharsets.UTF_8);
    }

    /** The frame that a line shows. */
    public static byte[] frameOf(String line) {
        Library.need();
        return Library.written(Calls.line_frame((Object) Given.text("line", line)));
    }

    /** The notification that completes an id, with the result that a frame has. */
    public static byte[] completion(int id, byte[] frame) {
        return notification(Abi.COMPLETION, id, EMPTY, frame);
    }

    /** The notification of the signal with this number, with the result that a frame has. */
    public static byte[] signal(int index, byte[] frame) {
        return notification(Abi.SIGNAL, index, EMPTY, frame);
    }

    /** The notification of the signal with this name, with the result that a frame has. */
    public static byte[] namedSignal(String name, byte[] frame) {
        return notification(Abi.NAMED_SIGNAL, 0, Given.text("name", name), frame);
    }

    private static byte[] notification(int kind, int id, byte[] name, byte[] frame) {
        Library.need();
        return Library.written(Calls.notification(Given.u32(kind), Given.u32(id), name, Given.bytes("frame", frame)));
    }

    /** A frame that has these bytes as its result: the notification of completion 0. */
    public static byte[] valueFrame(byte[] value) {
        Library.need();
        return Library.written(Calls.value_frame((Object) Given.bytes("value", value)));
    }

    /** The frame of an input, with this value in the place of its own. */
    public static byte[] inputFrame(byte[] frame, byte[] value) {
        Library.need();
        return Library.written(Calls.input_frame(Given.bytes("frame", frame), Given.bytes("value", value)));
    }

    /** Whether the future of a suspension is awake by the notifications among these frames, of which the first of each id counts. */
    public static boolean isAwake(byte[] suspension, byte[] notifications) {
        Library.need();
        long[] it = (long[]) Calls.is_awake(Given.bytes("suspension", suspension), Given.bytes("notifications", notifications));
        Library.done(it[0]);
        return it[1] == 1;
    }

    /** What a frame says. */
    public static Message read(byte[] frame) {
        Library.need();
        long[] it = (long[]) Calls.frame_read((Object) Given.bytes("frame", frame));
        Library.done(it[0]);
        return new Message(frame, MessageType.of(it[1]), (int) it[2], (int) it[3], (int) it[4], (int) it[5], it[6], (int) it[7]);
    }

    /**
     * What a frame says: the type of its message, its numbers, and its parts by their places. {@code palqytun.h} has the meaning of each number and each
     * place ({@code palqytun_frame_row}, {@code palqytun_frame_part}).
     */
    public record Message(byte[] frame, MessageType type, int kind, int result, int id, int second, long number, int rows) {
        /** The bytes at a place, null if there are none. */
        public byte[] part(int at) {
            return Library.part(Calls.frame_part(frame, Given.u32(at)));
        }

        /** The text at a place, empty if there is none. */
        public String text(int at) {
            byte[] found = part(at);
            return found == null ? "" : new String(found, StandardCharsets.UTF_8);
        }

        /** The headers, or the metadata of a failure, of which the first key stands at this place. */
        public List<Pair> pairs(int first) {
            List<Pair> made = new ArrayList<>();
            for (int row = 0; row < rows; row++) {
                made.add(new Pair(text(first + 2 * row), text(first + 2 * row + 1)));
            }
            return List.copyOf(made);
        }
    }
}
