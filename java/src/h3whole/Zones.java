package h3whole;

import java.io.InvalidObjectException;
import java.io.ObjectInputStream;
import java.io.Serializable;
import java.util.Arrays;
import java.util.BitSet;
import java.util.Collection;

/**
 * Cells that do not overlap, of any resolutions, by which other cells are joined and counted. Each cell is in one zone
 * at most: the one that is the cell or an ancestor of it.
 *
 * <p>Zones never change, and threads may share them. They take 12 bytes for each zone outside of Java's heap, which
 * {@link #close} gives back, or else the garbage collector when it finds them unreachable, and 12 in it. Java's
 * serialization writes the list of cells, and judges it anew when it is read. Another kind, which copies fields, makes
 * zones that throw an IllegalStateException.
 *
 * <pre>{@code
 * try (Zones zones = new Zones(cells)) {
 *     Counts counts = zones.count(points);
 *     System.out.println(counts.toMap() + ", in none: " + counts.others());
 * }
 * }</pre>
 */
public final class Zones implements Serializable, AutoCloseable {
    private static final long serialVersionUID = 1;

    private final transient Order order;
    private final transient long[] cells;

    /** The place among the cells, ascending, of each zone of the order. */
    private final transient int[] places;

    /**
     * Prepares cells as zones.
     *
     * @throws H3Exception {@code E_MEMORY_ALLOC}; {@code E_CELL_INVALID}; {@code E_DUPLICATE_INPUT}: a cell is there
     *     twice, or with an ancestor of it
     */
    public Zones(long[] cells) {
        order = new Order(cells, true);
        long[] ordered = order.cells();
        this.cells = ordered.clone();
        Arrays.sort(this.cells);
        places = new int[ordered.length];
        for (int place = 0; place < ordered.length; place++) {
            places[place] = Arrays.binarySearch(this.cells, ordered[place]);
        }
    }

    /** Prepares cells as zones. Errors as of {@link #Zones(long[])}. */
    public static Zones of(Collection<Long> cells) {
        return new Zones(H3.arrayOf(cells));
    }

    /**
     * Returns the zone of a cell, or 0 if it has none.
     *
     * @throws H3Exception {@code E_CELL_INVALID}
     */
    public long zoneOf(long cell) {
        return order().zoneOf(cell);
    }

    /**
     * Returns the zone of each cell of a column, and 0 for one that has none.
     *
     * @throws H3Exception {@code E_CELL_INVALID}, with its place
     */
    public long[] zonesOf(long[] cells) {
        long[] zones = new long[cells.length];
        Columns.check(order().fill(Native.CELLS_TO_ZONES, cells, zones), cells, 0);
        return zones;
    }

    /** Fills an array with the zones, and returns the places of cells not valid, where it is 0. */
    public BitSet zonesOf(long[] cells, long[] out) {
        Columns.checkRoom(cells.length, out.length);
        long[] given = cells == out ? cells.clone() : cells;
        return Columns.missingCells(order().fill(Native.CELLS_TO_ZONES, given, out), given);
    }

    /**
     * Returns the place of a cell's zone in the list of cells that the zones were made of, from 0 on, or -1 if it has
     * none. So {@code names[zones.placeOf(cell)]} is the name of the zone.
     *
     * @throws H3Exception {@code E_CELL_INVALID}
     */
    public int placeOf(long cell) {
        int[] place = new int[1];
        long status = order().fill(Native.CELLS_TO_ZONES_PLACES, new long[] {cell}, place);
        H3.checked(-(status >>> 32), cell);
        return place[0];
    }

    /**
     * Returns the place of the zone of each cell of a column, as {@link #placeOf}, and -1 for one that has none.
     *
     * @throws H3Exception {@code E_CELL_INVALID}, with its place
     */
    public int[] placesOf(long[] cells) {
        int[] places = new int[cells.length];
        Columns.check(order().fill(Native.CELLS_TO_ZONES_PLACES, cells, places), cells, 0);
        return places;
    }

    /** Fills an array with the places of zones, and returns the places of cells not valid, where it is -1. */
    public BitSet placesOf(long[] cells, int[] out) {
        Columns.checkRoom(cells.length, out.length);
        return Columns.missingCells(order().fill(Native.CELLS_TO_ZONES_PLACES, cells, out), cells);
    }

    /**
     * Returns whether a cell has a zone.
     *
     * @throws H3Exception {@code E_CELL_INVALID}
     */
    public boolean covers(long cell) {
        return zoneOf(cell) != H3.NULL;
    }

    /** Returns whether each cell of a column has a zone. Errors as of {@link #zonesOf(long[])}. */
    public boolean[] covers(long[] cells) {
        return covers(order(), cells);
    }

    /** Fills an array with whether each has a zone, and returns the places of cells not valid, where it is false. */
    public BitSet covers(long[] cells, boolean[] out) {
        return covers(order(), cells, out);
    }

    static boolean[] covers(Order order, long[] cells) {
        boolean[] out = new boolean[cells.length];
        Columns.check(order.fill(Native.ARE_COVERED_CELLS, cells, out), cells, 0);
        return out;
    }

    static BitSet covers(Order order, long[] cells, boolean[] out) {
        Columns.checkRoom(cells.length, out.length);
        return Columns.missingCells(order.fill(Native.ARE_COVERED_CELLS, cells, out), cells);
    }

    /**
     * Counts the cells of a column by zones. The counts of its parts add up to these.
     *
     * @throws H3Exception {@code E_CELL_INVALID}, with its place; {@code E_MEMORY_ALLOC}
     */
    public Counts count(long[] cells) {
        return count(cells, 0);
    }

    /** Counts the valid cells of a column by zones, and those that are not valid by themselves. */
    public Counts countValid(long[] cells) {
        boolean[] areValid = Columns.areValidCells(cells);
        long[] valid = new long[cells.length];
        int count = 0;
        for (int place = 0; place < cells.length; place++) {
            if (areValid[place]) {
                valid[count++] = cells[place];
            }
        }
        return count(Arrays.copyOf(valid, count), cells.length - count);
    }

    private Counts count(long[] cells, long refused) {
        long[] ordered = new long[places.length + 1];
        Columns.check(order().count(cells, ordered), cells, 0);
        long[] counts = new long[places.length];
        for (int place = 0; place < places.length; place++) {
            counts[places[place]] = ordered[place];
        }
        return new Counts(this.cells, counts, ordered[places.length], refused);
    }

    /** Returns the zones, ascending. */
    public long[] toArray() {
        order();
        return cells.clone();
    }

    /** Returns how many zones there are. */
    public int size() {
        order();
        return cells.length;
    }

    /** Gives the memory outside of Java's heap back. Afterwards each other method that looks cells up throws. */
    @Override
    public void close() {
        order().close();
    }

    /** (by a serialization that does not call a constructor there is none) */
    private Order order() {
        if (order == null) {
            throw new IllegalStateException("these zones were not read by Java's serialization");
        }
        return order;
    }

    /** Returns whether the other has the same zones. */
    @Override
    public boolean equals(Object other) {
        return other instanceof Zones && Arrays.equals(cells, ((Zones) other).cells);
    }

    @Override
    public int hashCode() {
        return Arrays.hashCode(cells);
    }

    @Override
    public String toString() {
        return "Zones of " + size() + " cells";
    }

    static InvalidObjectException notRead(Exception cause) {
        String text = "what was serialized is refused: " + cause.getMessage();
        InvalidObjectException error = new InvalidObjectException(text);
        error.initCause(cause);
        return error;
    }

    /** The serialized form of zones: the cells in the order in which they were given. */
    private static final class Form implements Serializable {
        private static final long serialVersionUID = 1;
        private final long[] cells;

        Form(long[] cells) {
            this.cells = cells;
        }

        private Object readResolve() throws InvalidObjectException {
            try {
                return new Zones(cells);
            } catch (H3Exception | NullPointerException error) {
                throw notRead(error);
            }
        }
    }

    private Object writeReplace() {
        int[] places = placesOf(toArray());
        long[] given = new long[places.length];
        for (int place = 0; place < places.length; place++) {
            given[places[place]] = cells[place];
        }
        return new Form(given);
    }

    private void readObject(ObjectInputStream stream) throws InvalidObjectException {
        throw new InvalidObjectException("zones are read by their form");
    }
}
