package h3whole;

import java.io.InvalidObjectException;
import java.io.ObjectInputStream;
import java.io.Serializable;
import java.util.Arrays;
import java.util.BitSet;
import java.util.Collection;

/**
 * Areas that may overlap, by which other cells are joined and counted. An area is a number with any cells, of any
 * resolutions, which may repeat and overlap. A cell lies in each area that has it or an ancestor of it, so in any
 * number of them. {@link Zones} are faster where no two cells overlap.
 *
 * <p>The areas of a cell are in the order of the resolution of each area's coarsest cell that is the cell or an
 * ancestor of it, and if these are the same, by number.
 *
 * <p>Each call goes through all cells of the areas, so ask about a column in one call. Areas never change, and threads
 * may share them. They take 12 bytes for each of their cells outside of Java's heap, which {@link #close} gives back,
 * or else the garbage collector when it finds them unreachable, and 12 in it. A call takes 28 more for each of their
 * cells while it runs, 24 for each cell of the column, and 4 for each number. Java's serialization writes the cells
 * with their numbers, and judges them anew when they are read. Another kind, which copies fields, makes areas that
 * throw an IllegalStateException, as of {@link Zones}.
 *
 * <pre>{@code
 * String[] names = {"north", "all"};
 * try (Areas areas = new Areas(new long[] {0x85283473fffffffL, 0x8428347ffffffffL}, new int[] {0, 1})) {
 *     for (int number : areas.areasOf(0x862834707ffffffL)) {
 *         System.out.println(names[number]);    // all, and then north
 *     }
 * }
 * }</pre>
 */
public final class Areas implements Serializable, AutoCloseable {
    private static final long serialVersionUID = 1;

    private final transient Memory memory;

    /** The cells, ascending: the library, which puts them in order in each call, takes less time for these. */
    private final transient long[] cells;

    /** The number of the area of each cell: ascending among those of one cell, and each once. */
    private final transient int[] numbers;

    /** The numbers, each once, ascending. */
    private final transient int[] areas;

    /**
     * Prepares areas.
     *
     * @param cells the cells of all areas
     * @param numbers the number of the area that the cell at the same place is one of
     * @throws IllegalArgumentException there are not as many numbers as cells
     * @throws H3Exception {@code E_CELL_INVALID}, with its place; {@code E_MEMORY_ALLOC}
     */
    public Areas(long[] cells, int[] numbers) {
        long[] given = cells.clone();
        int[] beside = numbers.clone();
        if (given.length != beside.length) {
            throw new IllegalArgumentException(beside.length + " numbers for " + given.length + " cells");
        }
        long[] sorted = given.clone();
        Arrays.sort(sorted);
        int[] ordered = inOrder(given, beside, sorted);
        int size = dropTwins(sorted, ordered);
        this.cells = Arrays.copyOf(sorted, size);
        this.numbers = Arrays.copyOf(ordered, size);
        areas = eachOnce(beside);
        memory = new Memory();
        long[] status = new long[1];
        if (!memory.take(Native.areas(this.cells, this.numbers, status))) {
            H3.ofCells(null, status, given);
        }
    }

    /** Prepares areas. Errors as of {@link #Areas(long[], int[])}. */
    public static Areas of(Collection<Long> cells, Collection<Integer> numbers) {
        return new Areas(H3.arrayOf(cells), numbers.stream().mapToInt(Integer::intValue).toArray());
    }

    /** The numbers in the order of their cells, which are sorted: those of one cell ascending. */
    private static int[] inOrder(long[] cells, int[] numbers, long[] sorted) {
        int[] ordered = new int[cells.length];
        // (how many numbers of a cell are put already, at its first place)
        int[] counts = new int[cells.length];
        for (int place = 0; place < cells.length; place++) {
            int first = firstOf(sorted, cells[place]);
            ordered[first + counts[first]++] = numbers[place];
        }
        for (int first = 0; first < cells.length; first += counts[first]) {
            Arrays.sort(ordered, first, first + counts[first]);
        }
        return ordered;
    }

    /** The first place of a cell among some that are sorted, of which it is one. */
    private static int firstOf(long[] sorted, long cell) {
        int low = 0;
        int high = sorted.length;
        while (low < high) {
            int middle = (low + high) >>> 1;
            if (sorted[middle] < cell) {
                low = middle + 1;
            } else {
                high = middle;
            }
        }
        return low;
    }

    /** Leaves each pair of a cell and a number once, in the first places, and returns how many are left. */
    private static int dropTwins(long[] cells, int[] numbers) {
        int size = 0;
        for (int place = 0; place < cells.length; place++) {
            if (size == 0 || cells[place] != cells[size - 1] || numbers[place] != numbers[size - 1]) {
                cells[size] = cells[place];
                numbers[size++] = numbers[place];
            }
        }
        return size;
    }

    /** Numbers, each once, ascending. */
    static int[] eachOnce(int[] numbers) {
        int[] sorted = numbers.clone();
        Arrays.sort(sorted);
        int size = 0;
        for (int number : sorted) {
            if (size == 0 || number != sorted[size - 1]) {
                sorted[size++] = number;
            }
        }
        return Arrays.copyOf(sorted, size);
    }

    /**
     * Returns the numbers of the areas of a cell, each once, in their order. It takes as long as a column would.
     *
     * @throws H3Exception {@code E_CELL_INVALID}; {@code E_MEMORY_ALLOC}
     */
    public int[] areasOf(long cell) {
        long[] status = new long[1];
        int[] found = ask(new long[] {cell}, new int[2], status);
        H3.checked(-(status[0] >>> 32), cell);
        return found;
    }

    /**
     * Returns the areas of each cell of a column.
     *
     * @throws H3Exception {@code E_CELL_INVALID}, with its place; {@code E_MEMORY_ALLOC}, also if there are more areas
     *     of all cells than an array holds
     */
    public AreaLists areasOf(long[] cells) {
        return listsOf(cells, false);
    }

    /**
     * Returns the areas of each valid cell of a column. The others have none, and {@link AreaLists#missing} has their
     * places.
     *
     * @throws H3Exception {@code E_MEMORY_ALLOC}, as of {@link #areasOf(long[])}
     */
    public AreaLists validAreasOf(long[] cells) {
        return listsOf(cells, true);
    }

    private AreaLists listsOf(long[] cells, boolean takesMissing) {
        // (also where another thread writes to the column, its lists and the places of cells not valid fit together)
        long[] given = takesMissing ? cells.clone() : cells;
        int[] starts = new int[Math.addExact(given.length, 1)];
        long[] status = new long[1];
        int[] found = ask(given, starts, status);
        if (found == null || !takesMissing) {
            Columns.check(status[0], given, 0);
        }
        return new AreaLists(starts, found, Columns.missingCells(status[0], given));
    }

    /**
     * Counts the cells of a column in each area, and in none. The counts of its parts add up to these.
     *
     * @throws H3Exception as of {@link #areasOf(long[])}
     */
    public AreaCounts count(long[] cells) {
        return countOf(areasOf(cells));
    }

    /**
     * Counts the valid cells of a column in each area, and in none, and those that are not valid by themselves.
     *
     * @throws H3Exception as of {@link #validAreasOf(long[])}
     */
    public AreaCounts countValid(long[] cells) {
        return countOf(validAreasOf(cells));
    }

    private AreaCounts countOf(AreaLists lists) {
        long[] counts = new long[areas.length];
        for (int number : lists.numbers) {
            counts[Arrays.binarySearch(areas, number)]++;
        }
        int refused = lists.missing.cardinality();
        return new AreaCounts(areas, counts, lists.countEmpty() - refused, refused);
    }

    private int[] ask(long[] cells, int[] starts, long[] status) {
        long address = memory().enter();
        try {
            return Native.cellsToAreas(address, cells, starts, status);
        } finally {
            memory.leave();
        }
    }

    /** Returns the numbers of the areas, ascending. */
    public int[] numbers() {
        memory();
        return areas.clone();
    }

    /** Returns how many areas there are. */
    public int size() {
        memory();
        return areas.length;
    }

    /** Gives the memory outside of Java's heap back. Afterwards each method that looks cells up throws. */
    @Override
    public void close() {
        memory().close();
    }

    /** (by a serialization that does not call a constructor there is none) */
    private Memory memory() {
        if (memory == null) {
            throw new IllegalStateException("these areas were not read by Java's serialization");
        }
        return memory;
    }

    /** Returns whether the other has the same cells with the same numbers, in any order. */
    @Override
    public boolean equals(Object other) {
        return other instanceof Areas
                && Arrays.equals(cells, ((Areas) other).cells)
                && Arrays.equals(numbers, ((Areas) other).numbers);
    }

    @Override
    public int hashCode() {
        return 31 * Arrays.hashCode(cells) + Arrays.hashCode(numbers);
    }

    @Override
    public String toString() {
        return size() + " areas of " + cells.length + " cells";
    }

    /** The serialized form of areas. */
    private static final class Form implements Serializable {
        private static final long serialVersionUID = 1;
        private final long[] cells;
        private final int[] numbers;

        Form(long[] cells, int[] numbers) {
            this.cells = cells;
            this.numbers = numbers;
        }

        private Object readResolve() throws InvalidObjectException {
            try {
                return new Areas(cells, numbers);
            } catch (H3Exception | IllegalArgumentException | NullPointerException error) {
                throw Zones.notRead(error);
            }
        }
    }

    private Object writeReplace() {
        memory();
        return new Form(cells, numbers);
    }

    private void readObject(ObjectInputStream stream) throws InvalidObjectException {
        throw new InvalidObjectException("areas are read by their form");
    }
}
