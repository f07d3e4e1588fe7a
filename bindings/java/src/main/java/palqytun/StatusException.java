package palqytun;

/** A call wasn't made, and this is why. */
public final class StatusException extends PalqytunException {
    private static final long serialVersionUID = 1L;
    private final Status status;

    StatusException(Status status) {
        super(status + ": " + status.text(), null);
        this.status = status;
    }

    public Status status() {
        return status;
    }
}
