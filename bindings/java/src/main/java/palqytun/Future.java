package palqytun;

import java.nio.ByteBuffer;
import java.nio.ByteOrder;

/** A tree over handles: {@code Future.firstCompleted(Future.of(handle), Future.allCompleted(..))}. */
public final class Future {
    private static final int NODE = 8;

    /** Each node after those of its children: a kind and how many there are, or 0 and a handle. */
    private final ByteBuffer nodes;

    private Future(int kind, Future[] children, int number) {
        int length = NODE;
        for (Future it : children) {
            length += Given.present("each child", "a Future", it).nodes.capacity();
        }
        nodes = ByteBuffer.allocate(length).order(ByteOrder.nativeOrder());
        for (Future it : children) {
            nodes.put(it.nodes.array());
        }
        nodes.putInt(kind).putInt(number);
    }

    private static Future over(int kind, Future... children) {
        return new Future(kind, children, children.length);
    }

    byte[] packed() {
        return nodes.array();
    }

    /** A handle. */
    public static Future of(int handle) {
        return new Future(Abi.SINGLE, new Future[0], handle);
    }

    /** Awaited until some child has a result. */
    public static Future firstCompleted(Future... children) {
        return over(Abi.FIRST_COMPLETED, children);
    }

    /** Awaited until all children have a result. */
    public static Future allCompleted(Future... children) {
        return over(Abi.ALL_COMPLETED, children);
    }

    /** Awaited until some child succeeds, or all have failed. */
    public static Future firstSucceededOrAllFailed(Future... children) {
        return over(Abi.FIRST_SUCCEEDED_OR_ALL_FAILED, children);
    }

    /** Awaited until all children succeed, or some child has failed. */
    public static Future allSucceededOrFirstFailed(Future... children) {
        return over(Abi.ALL_SUCCEEDED_OR_FIRST_FAILED, children);
    }

    /** Some way of the caller's own: asked again at each result of a child. */
    public static Future unknown(Future... children) {
        return over(Abi.UNKNOWN, children);
    }
}
