package palqytun;

import java.util.List;

/** What the handler was called with. A part that is null wasn't given; the random seed has 64 bits. */
public record Input(
        byte[] input, String invocationId, String key, String scope, String limitKey, String idempotencyKey, List<Pair> headers, long randomSeed) {}
