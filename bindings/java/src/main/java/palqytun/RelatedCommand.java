package palqytun;

/** The command that a handler's error relates to. */
public sealed interface RelatedCommand permits RelatedCommand.None, RelatedCommand.Last, RelatedCommand.Next, RelatedCommand.Specific {
    /** None of them. */
    record None() implements RelatedCommand {}

    /** The last command. */
    record Last() implements RelatedCommand {}

    /** The next command, which the handler was about to make. A name that is null isn't given. */
    record Next(CommandType type, String name) implements RelatedCommand {}

    /** That of an index. */
    record Specific(int index, CommandType type, String name) implements RelatedCommand {}
}
