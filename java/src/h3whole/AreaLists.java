package h3whole;

import java.util.Arrays;
import java.util.BitSet;

/**
 * The areas of each cell of a column: a list of numbers for each cell, one cell's after another's in one array, and
 * where each list begins, as in a list array of Arrow. They never change, and threads may share them.
 *
 * <p>{@link #places} and {@link #numbers} are two columns of a join, with a row for each area of each cell:
 *
 * <pre>{@code
 * int[] places = lists.places();
 * int[] numbers = lists.numbers();
 * for (int row = 0; row < places.length; row++) {
 *     System.out.println(points[places[row]] + " " + names[numbers[row]]);
 * }
 * }</pre>
 */
public final class AreaLists {
    private final int[] starts;
    final int[] numbers;
    final BitSet missing;

    /** (which keeps what it is given) */
    AreaLists(int[] starts, int[] numbers, BitSet missing) {
        this.starts = starts;
        this.numbers = numbers;
        this.missing = missing;
    }

    /** Returns how many lists there are: the length of the column. */
    public int size() {
        return starts.length - 1;
    }

    /**
     * Returns the numbers of the areas of the cell at a place of the column, in their order.
     *
     * @throws IndexOutOfBoundsException the place is not one of the column
     */
    public int[] of(int place) {
        if (place < 0 || place >= size()) {
            throw new IndexOutOfBoundsException("place " + place + " of " + size());
        }
        return Arrays.copyOfRange(numbers, starts[place], starts[place + 1]);
    }

    /**
     * Returns where each list begins in {@link #numbers}: the one of the cell at a place is from {@code starts[place]}
     * to before {@code starts[place + 1]}. So there is one more than there are cells.
     */
    public int[] starts() {
        return starts.clone();
    }

    /** Returns all lists, one after another. */
    public int[] numbers() {
        return numbers.clone();
    }

    /** Returns the place of the cell of each of {@link #numbers}, ascending. */
    public int[] places() {
        int[] places = new int[numbers.length];
        for (int place = 0; place < size(); place++) {
            Arrays.fill(places, starts[place], starts[place + 1], place);
        }
        return places;
    }

    /** Returns the places of cells not valid, whose lists are empty; none except for {@link Areas#validAreasOf}. */
    public BitSet missing() {
        return (BitSet) missing.clone();
    }

    /** Returns each list as an array of its own. */
    public int[][] toArrays() {
        int[][] lists = new int[size()][];
        Arrays.setAll(lists, this::of);
        return lists;
    }

    /** How many lists are empty. */
    long countEmpty() {
        long count = 0;
        for (int place = 0; place < size(); place++) {
            count += starts[place] == starts[place + 1] ? 1 : 0;
        }
        return count;
    }

    /** Returns whether the other has the same lists, and the same places of cells not valid. */
    @Override
    public boolean equals(Object other) {
        if (!(other instanceof AreaLists)) {
            return false;
        }
        AreaLists given = (AreaLists) other;
        return Arrays.equals(starts, given.starts)
                && Arrays.equals(numbers, given.numbers)
                && missing.equals(given.missing);
    }

    @Override
    public int hashCode() {
        return 31 * Arrays.hashCode(starts) + Arrays.hashCode(numbers);
    }

    @Override
    public String toString() {
        return "Lists of the areas of " + size() + " cells, " + numbers.length + " in all";
    }
}
