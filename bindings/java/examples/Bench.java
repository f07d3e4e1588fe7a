import java.lang.management.ManagementFactory;
import java.lang.management.ThreadMXBean;
import java.nio.charset.StandardCharsets;
import java.util.LinkedHashMap;
import java.util.Map;
import java.util.function.Consumer;
import java.util.function.LongSupplier;
import palqytun.Frames;
import palqytun.Target;
import palqytun.VM;

/**
 * Prints what a call takes, in nanoseconds of the processor: the best of some rounds, of 1,000 calls each. With `allocations` it is how many bytes a call takes of
 * Java's heap. Usage: Bench ROUNDS [allocations].
 */
public final class Bench {
    private static final int CALLS = 1000;
    private static final byte[] VALUE = "value".getBytes(StandardCharsets.UTF_8);
    private static final ThreadMXBean CLOCK = ManagementFactory.getThreadMXBean();

    private static long allocated() {
        return ((com.sun.management.ThreadMXBean) CLOCK).getThreadAllocatedBytes(Thread.currentThread().getId());
    }

    private static double round(Consumer<VM> call, LongSupplier read) {
        try (VM vm = new VM("application/vnd.restate.invocation.v7")) {
            vm.notifyInput(Frames.frameOf("Start id=\"abc\" debug_id=\"abc\" known_entries=1"));
            vm.notifyInput(Frames.frameOf("Input value=\"Till\""));
            vm.sysInput();
            vm.sysSleep(1000);
            long begun = read.getAsLong();
            for (int at = 0; at < CALLS; at++) {
                call.accept(vm);
            }
            return (double) (read.getAsLong() - begun) / CALLS;
        }
    }

    public static void main(String[] arguments) {
        Map<String, Consumer<VM>> cases = new LinkedHashMap<>();
        cases.put("sleep", vm -> vm.sysSleep(1000));
        cases.put("state", vm -> vm.sysStateSet("key", VALUE));
        cases.put("call", vm -> vm.sysCall(Target.of("Greeter", "greet"), VALUE));
        cases.put("await", vm -> vm.doAwait(17));
        int rounds = Integer.parseInt(arguments[0]);
        LongSupplier read = arguments.length > 1 ? Bench::allocated : CLOCK::getCurrentThreadCpuTime;
        cases.forEach((name, call) -> {
            double best = Double.MAX_VALUE;
            for (int at = 0; at < rounds; at++) {
                best = Math.min(best, round(call, read));
            }
            System.out.printf("%s %.1f%n", name, best);
        });
    }
}
