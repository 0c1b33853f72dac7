package h3whole;

/** A table file is refused. The message is that of the command {@code h3}, as {@code table: form 1}. */
public final class BaseCellTableException extends IllegalArgumentException {
    static final int MEMORY = 2;

    private static final long serialVersionUID = 1;
    private static final String[] REASONS = {
        "error 0", "read", "memory", "form", "range", "repeated", "missing", "neighbours", "reversal", "corner",
    };

    private final int code;
    private final long at;
    private final int direction;

    BaseCellTableException(int code, long at, int direction) {
        super("table: " + REASONS[code] + (at == 0 && !isOfBaseCell(code) ? "" : " " + at)
                + (direction == 0 ? "" : " " + direction));
        this.code = code;
        this.at = at;
        this.direction = direction;
    }

    private static boolean isOfBaseCell(int code) {
        return code >= 7;
    }

    /** Why the file is refused, by the numbers of h3whole.h: 3 to 9. */
    public int getCode() {
        return code;
    }

    /** The record (1 is the header) or the base cell that the error is about; also 0 if it is about neither. */
    public long getAt() {
        return at;
    }

    /** The direction that the error is about, 1 to 6; 0 if it is not about a direction. */
    public int getDirection() {
        return direction;
    }
}
