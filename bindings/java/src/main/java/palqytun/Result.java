package palqytun;

import java.util.Arrays;
import java.util.List;

/** What completes something, and what a handler ends with. */
public sealed interface Result extends Value permits Result.Success, Result.Failure {
    /** A value. */
    record Success(byte[] bytes) implements Result {
        @Override
        public boolean equals(Object other) {
            return other instanceof Success it && Arrays.equals(bytes, it.bytes);
        }

        @Override
        public int hashCode() {
            return Arrays.hashCode(bytes);
        }

        @Override
        public String toString() {
            return "Success[" + bytes.length + " bytes]";
        }
    }

    /** A terminal failure. A code has 16 bits. */
    record Failure(int code, String message, List<Pair> metadata) implements Result {}
}
