package palqytun;

import java.nio.charset.StandardCharsets;
import java.util.List;

/** What a handle gives. */
public sealed interface Value permits Result, Value.Nothing, Value.Keys, InvocationTarget.InvocationId {
    /** A result without a value, as a sleep's. */
    Nothing NOTHING = new Nothing();

    /** A result without a value. */
    record Nothing() implements Value {}

    /** The names of the state. */
    record Keys(List<String> names) implements Value {}

    /** A result that has bytes. */
    static Result.Success success(byte[] bytes) {
        return new Result.Success(bytes);
    }

    /** A result that has a text's bytes in UTF-8. */
    static Result.Success success(String text) {
        return new Result.Success(text.getBytes(StandardCharsets.UTF_8));
    }

    /** A result that is a failure. */
    static Result.Failure failure(int code, String message) {
        return new Result.Failure(code, message, List.of());
    }
}
