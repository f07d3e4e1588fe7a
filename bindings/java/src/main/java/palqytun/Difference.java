package palqytun;

import java.util.Arrays;
import java.util.Map;
import java.util.Objects;
import java.util.stream.Collectors;

/**
 * In what a call isn't as the recorded command of this index, the Input being 0.
 *
 * <p>{@code field} is the first one that differs, by its name on the line of a frame (docs/FRAMES.md), and {@code type} if the two are of different types.
 * {@code recorded} and {@code asked} are its values, in the journal and by the call, as such a line has them, up to 120 characters; the types, if these
 * differ. Null is a field at its default; a command that isn't recorded; or a call that makes none, which is an await.
 */
public record Difference(int index, String field, String recorded, String asked, CommandType recordedType, CommandType askedType) {
    /** The same as a text, by an SDK's own names of commands. One that isn't there has its own. */
    public String inWords(Map<CommandType, String> names) {
        String own = named(recordedType, names);
        String made = named(askedType, names);
        if (recordedType == null) {
            return "no command is recorded at " + index + ", and the call makes " + made;
        }
        if (askedType == null) {
            return "command " + index + " is recorded as " + own + ", and the code awaits what hasn't come";
        }
        if (field.equals("type")) {
            return "command " + index + " is recorded as " + own + ", and the call makes " + made;
        }
        String values = field + " " + Objects.requireNonNullElse(recorded, "nothing") + ", and the call gives " + Objects.requireNonNullElse(asked, "nothing");
        return "command " + index + ", " + own + ", is recorded with " + values;
    }

    @Override
    public String toString() {
        return inWords(Map.of());
    }

    private static String named(CommandType type, Map<CommandType, String> names) {
        return type == null ? "" : names.getOrDefault(type, plain(type));
    }

    /** A type's own name: of ONE_WAY_CALL it is OneWayCall. */
    private static String plain(CommandType type) {
        return Arrays.stream(type.name().split("_")).map(it -> it.charAt(0) + it.substring(1).toLowerCase(java.util.Locale.ROOT)).collect(Collectors.joining());
    }
}
