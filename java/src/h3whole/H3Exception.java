package h3whole;

/**
 * An error of H3: its code and name in H3's table, and the value that it is about.
 *
 * <p>The message has all of them, as {@code error 5: E_CELL_INVALID: 81087ffffffffff at place 3}.
 */
public final class H3Exception extends RuntimeException {
    /** An error without a number of its own, as for a text that is not an index. */
    public static final int E_FAILED = 1;

    /** A number is out of range. */
    public static final int E_DOMAIN = 2;

    /** Not a resolution, or not one that the function takes. */
    public static final int E_RES_DOMAIN = 4;

    /** Not a valid cell. */
    public static final int E_CELL_INVALID = 5;

    /** Not a valid directed edge. */
    public static final int E_DIR_EDGE_INVALID = 6;

    /** A pentagon is in the way. */
    public static final int E_PENTAGON = 9;

    /** Two cells overlap. */
    public static final int E_DUPLICATE_INPUT = 10;

    /** The cells are not neighbors. */
    public static final int E_NOT_NEIGHBORS = 11;

    /** The resolutions do not fit. */
    public static final int E_RES_MISMATCH = 12;

    /** Out of memory outside of Java's heap, or more cells than an array holds. */
    public static final int E_MEMORY_ALLOC = 13;

    /** An array is too short. */
    public static final int E_MEMORY_BOUNDS = 14;

    private static final long serialVersionUID = 1;
    private static final String[] NAMES = {
        "E_SUCCESS",
        "E_FAILED",
        "E_DOMAIN",
        "E_LATLNG_DOMAIN",
        "E_RES_DOMAIN",
        "E_CELL_INVALID",
        "E_DIR_EDGE_INVALID",
        "E_UNDIR_EDGE_INVALID",
        "E_VERTEX_INVALID",
        "E_PENTAGON",
        "E_DUPLICATE_INPUT",
        "E_NOT_NEIGHBORS",
        "E_RES_MISMATCH",
        "E_MEMORY_ALLOC",
        "E_MEMORY_BOUNDS",
        "E_OPTION_INVALID",
    };

    private final int code;
    private final long value;
    private final long place;

    private H3Exception(int code, String about, long value, long place) {
        super("error " + code + ": " + nameOf(code) + (about.isEmpty() ? "" : ": " + about));
        this.code = code;
        this.value = value;
        this.place = place;
    }

    private static String nameOf(int code) {
        return code >= 0 && code < NAMES.length ? NAMES[code] : "E_UNKNOWN";
    }

    /** An error about something that is not one value. */
    static H3Exception of(int code, String about) {
        return new H3Exception(code, about, 0, -1);
    }

    /** An error about an index. */
    static H3Exception of(int code, long index) {
        return new H3Exception(code, Long.toHexString(index), index, -1);
    }

    /** An error about an index and a resolution, a radius or another index. */
    static H3Exception of(int code, long index, String rest) {
        return new H3Exception(code, Long.toHexString(index) + rest, index, -1);
    }

    /** An error about an index, in these words. */
    static H3Exception of(int code, String about, long index) {
        return new H3Exception(code, about, index, -1);
    }

    /** An error about an index at a place of a column. */
    static H3Exception at(int code, long index, int place) {
        return new H3Exception(code, named(index, place), index, place);
    }

    private static String named(long index, int place) {
        return Long.toHexString(index) + " at place " + place;
    }

    /** An error about an index at a place of a list, and another one that it overlaps. */
    static H3Exception overlap(String about, long index, int place, long other, int otherPlace) {
        String pair = named(index, place) + " overlaps " + named(other, otherPlace);
        return new H3Exception(E_DUPLICATE_INPUT, about + pair, index, place);
    }

    /** The error's number in H3's table. */
    public int getCode() {
        return code;
    }

    /** The error's name in H3's table, as {@code E_CELL_INVALID}. */
    public String getName() {
        return nameOf(code);
    }

    /** The index that the error is about; 0 if it is not about an index, or about a text. */
    public long getValue() {
        return value;
    }

    /** The place of that index in the column or list, from 0 on; -1 if it was not in one. */
    public long getPlace() {
        return place;
    }
}
