package palqytun;

/** A header, or an entry of a failure's metadata. */
public record Pair(String key, String value) {}
