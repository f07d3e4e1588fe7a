package palqytun;

import java.io.ByteArrayOutputStream;
import java.nio.charset.StandardCharsets;
import java.util.Set;
import java.util.function.LongSupplier;

/** What a VM was fed before its handler began, to say in what a call isn't as recorded. It is kept until the journal is replayed. */
final class Replayed {
    /** A typed call, on a VM of this handle. It may be made again, on another VM. */
    interface Call {
        Object on(Long vm);
    }

    private static final int STATUS = 0;
    private static final int IS_RECORDED = 1;
    private static final int RECORDED = 2;
    private static final int IS_ASKED = 3;
    private static final int ASKED = 4;
    private static final int IS_LAZY = 5;
    private static final byte[] NOTHING = {};
    private static final Set<String> MISMATCHES = Set.of("UnavailableEntryError", "CommandTypeMismatchError", "CommandMismatchError");

    private final int version;
    private final boolean ignoresPayloads;
    private ByteArrayOutputStream fed;
    private boolean isBegun;

    Replayed(int version, Options options) {
        this.version = version;
        ignoresPayloads = options.nonDeterministicChecks() == NonDeterministicChecks.PAYLOAD_CHECKS_DISABLED;
        fed = options.journalReplay() == JournalReplay.DISABLED ? null : new ByteArrayOutputStream();
    }

    void feed(byte[] data) {
        if (fed != null && !isBegun) {
            fed.writeBytes(data);
        }
    }

    /** The handler begins: all recorded commands were fed. */
    void begins() {
        isBegun = true;
    }

    /** What comes from now on isn't replayed. */
    void ends() {
        fed = null;
    }

    /** In what a call isn't as recorded, or null, if the error with this text and related command is about that. */
    Difference difference(String text, VMException.Related related, LongSupplier last, Call call, boolean unstable) {
        boolean isAwait = text.equals("UncompletedDoProgressDuringReplay");
        if (fed == null || !isAwait && (related == null || !MISMATCHES.contains(text))) {
            return null;
        }
        byte[] stream = fed.toByteArray();
        Long index = isAwait ? Long.valueOf(last.getAsLong() + 1) : Given.u32(related.index());
        Long message = isAwait ? Long.valueOf(0) : Given.u32(related.type().number());
        long[] compared = (long[]) Calls.mismatch(stream, index, message);
        if (compared[STATUS] != Abi.DONE) {
            return null;
        }
        CommandType recorded = compared[IS_RECORDED] == 1 ? CommandType.of(compared[RECORDED]) : null;
        CommandType made = compared[IS_ASKED] == 1 ? CommandType.of(compared[ASKED]) : null;
        byte[] asked = recorded == made ? again(call, compared[IS_LAZY] == 1) : NOTHING;
        String[] parts = new String[3];
        for (int at = 0; at < parts.length; at++) {
            byte[] part = Library.part(Calls.mismatch_part(stream, index, message, asked, ignoresPayloads || unstable, Long.valueOf(at)));
            parts[at] = part == null ? null : new String(part, StandardCharsets.US_ASCII);
        }
        return parts[0] == null ? null : new Difference(index.intValue(), parts[0], parts[1], parts[2], recorded, made);
    }

    /** What a call writes on a new VM, whose journal has an input alone, and whose state is empty. A read of the state is made in one of its two forms. */
    private byte[] again(Call call, boolean isLazy) {
        try (VM vm = new VM(Palqytun.contentType(version), Options.DEFAULTS.with(AwaitingOnPolicy.DONT_SEND))) {
            vm.notifyInput(Frames.frameOf("Start id=\"-\" debug_id=\"-\" known_entries=1 partial=" + isLazy));
            vm.notifyInput(Frames.frameOf("Input"));
            vm.sysInput();
            return vm.madeAgain(call);
        }
    }
}
