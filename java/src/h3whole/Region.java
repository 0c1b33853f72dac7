package h3whole;

import java.io.InvalidObjectException;
import java.io.ObjectInputStream;
import java.io.Serializable;
import java.util.Arrays;
import java.util.BitSet;
import java.util.Collection;

/**
 * What cells cover, which may repeat and overlap: the shortest list of cells that covers the same. Two regions are
 * equal if they cover the same.
 *
 * <p>A region never changes, and threads may share it. It takes 8 bytes for each cell of its list in Java's heap and as
 * many outside of it, which {@link #close} gives back, or else the garbage collector when it finds the region
 * unreachable. What is serialized is the list, which is judged anew when it is read, as of {@link Zones}.
 */
public final class Region implements Serializable, AutoCloseable {
    private static final long serialVersionUID = 1;

    private final transient long[] cells;
    private final transient Order order;

    /**
     * Makes the region of what the cells cover.
     *
     * @throws H3Exception {@code E_CELL_INVALID}; {@code E_MEMORY_ALLOC}
     */
    public Region(long[] cells) {
        this(H3.uniteCells(cells), true);
    }

    /** (whose list the library has made) */
    private Region(long[] cells, boolean isKnown) {
        this.cells = cells;
        order = new Order(cells, false);
    }

    /** Makes the region of what the cells cover. Errors as of {@link #Region(long[])}. */
    public static Region of(Collection<Long> cells) {
        return new Region(H3.arrayOf(cells));
    }

    /**
     * Returns the region of what this one or the other covers.
     *
     * @throws H3Exception {@code E_MEMORY_ALLOC}
     */
    public Region union(Region other) {
        long[] both = Arrays.copyOf(list(), Math.addExact(cells.length, other.list().length));
        System.arraycopy(other.cells, 0, both, cells.length, other.cells.length);
        return new Region(H3.uniteCells(both), true);
    }

    /** Returns the region of what both cover. Errors as of {@link #union}. */
    public Region intersection(Region other) {
        return new Region(H3.intersectCells(list(), other.list()), true);
    }

    /** Returns the region of what this one covers and the other does not. Errors as of {@link #union}. */
    public Region difference(Region other) {
        return new Region(H3.subtractCells(list(), other.list()), true);
    }

    /**
     * Returns whether the region covers a cell.
     *
     * @throws H3Exception {@code E_CELL_INVALID}
     */
    public boolean covers(long cell) {
        return order().zoneOf(cell) != H3.NULL;
    }

    /**
     * Returns whether the region covers each cell of a column.
     *
     * @throws H3Exception {@code E_CELL_INVALID}, with its place
     */
    public boolean[] covers(long[] cells) {
        return Zones.covers(order(), cells);
    }

    /** Fills an array with whether it covers each, and returns the places of cells not valid, where it is false. */
    public BitSet covers(long[] cells, boolean[] out) {
        return Zones.covers(order(), cells, out);
    }

    /** Returns whether this region covers all that the other does. */
    public boolean covers(Region other) {
        for (boolean isCovered : covers(other.list())) {
            if (!isCovered) {
                return false;
            }
        }
        return true;
    }

    /** Returns the cells of the list, ascending. */
    public long[] toArray() {
        return list().clone();
    }

    /** Returns how many cells the list has. */
    public int size() {
        return list().length;
    }

    /** Returns whether the region is empty. */
    public boolean isEmpty() {
        return size() == 0;
    }

    /** Gives the memory outside of Java's heap back. Afterwards {@code covers} throws. */
    @Override
    public void close() {
        order().close();
    }

    private long[] list() {
        order();
        return cells;
    }

    /** (by a serialization that does not call a constructor there is none) */
    private Order order() {
        if (order == null) {
            throw new IllegalStateException("this region was not read by Java's serialization");
        }
        return order;
    }

    /** Returns whether the other covers the same. */
    @Override
    public boolean equals(Object other) {
        return other instanceof Region && Arrays.equals(cells, ((Region) other).cells);
    }

    @Override
    public int hashCode() {
        return Arrays.hashCode(cells);
    }

    @Override
    public String toString() {
        return "Region of " + size() + " cells";
    }

    /** The serialized form of a region. */
    private static final class Form implements Serializable {
        private static final long serialVersionUID = 1;
        private final long[] cells;

        Form(long[] cells) {
            this.cells = cells;
        }

        private Object readResolve() throws InvalidObjectException {
            try {
                return new Region(cells);
            } catch (H3Exception | NullPointerException error) {
                throw Zones.notRead(error);
            }
        }
    }

    private Object writeReplace() {
        return new Form(toArray());
    }

    private void readObject(ObjectInputStream stream) throws InvalidObjectException {
        throw new InvalidObjectException("a region is read by its form");
    }
}
