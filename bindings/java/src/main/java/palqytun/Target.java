package palqytun;

import java.util.List;

/** The handler of a call. A part that is null isn't given: {@code Target.of("Stock", "take").withKey("pen")}. */
public record Target(String service, String handler, String key, String idempotencyKey, String scope, String limitKey, List<Pair> headers) {
    public static Target of(String service, String handler) {
        return new Target(service, handler, null, null, null, null, List.of());
    }

    public Target withKey(String given) {
        return new Target(service, handler, given, idempotencyKey, scope, limitKey, headers);
    }

    public Target withIdempotencyKey(String given) {
        return new Target(service, handler, key, given, scope, limitKey, headers);
    }

    public Target withScope(String given) {
        return new Target(service, handler, key, idempotencyKey, given, limitKey, headers);
    }

    public Target withLimitKey(String given) {
        return new Target(service, handler, key, idempotencyKey, scope, given, headers);
    }

    public Target withHeaders(List<Pair> given) {
        return new Target(service, handler, key, idempotencyKey, scope, limitKey, given);
    }
}
