package h3whole;

import java.io.InvalidObjectException;
import java.io.ObjectInputStream;
import java.io.Serializable;
import java.util.Arrays;
import java.util.LinkedHashMap;
import java.util.Map;

/**
 * How many cells of a column are in each area, how many in none, and how many were not valid, if that is not an error.
 * A cell counts in each of its areas, so these may add up to more than the length of the column. Counts never change.
 */
public final class AreaCounts implements Serializable {
    private static final long serialVersionUID = 1;

    private final int[] numbers;
    private final long[] counts;
    private final long others;
    private final long refused;

    /** (which keeps what it is given) */
    AreaCounts(int[] numbers, long[] counts, long others, long refused) {
        this.numbers = numbers;
        this.counts = counts;
        this.others = others;
        this.refused = refused;
    }

    /** Returns the numbers of the areas, ascending. */
    public int[] numbers() {
        return numbers.clone();
    }

    /** Returns the count of each area, in the order of {@link #numbers}. */
    public long[] counts() {
        return counts.clone();
    }

    /**
     * Returns how many cells are in an area.
     *
     * @throws IllegalArgumentException the number is not that of one of the areas
     */
    public long of(int number) {
        int place = Arrays.binarySearch(numbers, number);
        if (place < 0) {
            throw new IllegalArgumentException("not one of the areas: " + number);
        }
        return counts[place];
    }

    /** Returns how many cells are in no area. */
    public long others() {
        return others;
    }

    /** Returns how many were not valid cells; 0 except for {@link Areas#countValid}. */
    public long refused() {
        return refused;
    }

    /** Returns the counts by the numbers of the areas, ascending, in a new map. */
    public Map<Integer, Long> toMap() {
        Map<Integer, Long> map = new LinkedHashMap<>();
        for (int place = 0; place < numbers.length; place++) {
            map.put(numbers[place], counts[place]);
        }
        return map;
    }

    /**
     * Returns the sum of both, which is the counts of both columns, one after the other.
     *
     * @throws IllegalArgumentException the areas do not have the same numbers
     * @throws ArithmeticException a sum is more than a long holds
     */
    public AreaCounts plus(AreaCounts other) {
        if (!Arrays.equals(numbers, other.numbers)) {
            throw new IllegalArgumentException("counts of other areas do not add up");
        }
        long[] sums = new long[counts.length];
        Arrays.setAll(sums, place -> Math.addExact(counts[place], other.counts[place]));
        return new AreaCounts(
                numbers, sums, Math.addExact(others, other.others), Math.addExact(refused, other.refused));
    }

    /** Returns whether the other has the same numbers with the same counts, and as many others and refused. */
    @Override
    public boolean equals(Object other) {
        if (!(other instanceof AreaCounts)) {
            return false;
        }
        AreaCounts given = (AreaCounts) other;
        return Arrays.equals(numbers, given.numbers)
                && Arrays.equals(counts, given.counts)
                && others == given.others
                && refused == given.refused;
    }

    @Override
    public int hashCode() {
        return 31 * Arrays.hashCode(counts) + Long.hashCode(others);
    }

    @Override
    public String toString() {
        return toMap() + ", others " + others + ", refused " + refused;
    }

    /** The serialized form of counts. */
    private static final class Form implements Serializable {
        private static final long serialVersionUID = 1;
        private final int[] numbers;
        private final long[] counts;
        private final long others;
        private final long refused;

        Form(AreaCounts given) {
            numbers = given.numbers;
            counts = given.counts;
            others = given.others;
            refused = given.refused;
        }

        /** (the numbers are ascending, and none of the counts is below 0) */
        private Object readResolve() throws InvalidObjectException {
            try {
                int[] judged = numbers.clone();
                long[] found = counts.clone();
                if (!Arrays.equals(Areas.eachOnce(judged), judged)
                        || found.length != judged.length
                        || Arrays.stream(found).anyMatch(count -> count < 0)
                        || others < 0
                        || refused < 0) {
                    throw new InvalidObjectException("these are not counts by areas");
                }
                return new AreaCounts(judged, found, others, refused);
            } catch (NullPointerException error) {
                throw Zones.notRead(error);
            }
        }
    }

    private Object writeReplace() {
        return new Form(this);
    }

    private void readObject(ObjectInputStream stream) throws InvalidObjectException {
        throw new InvalidObjectException("counts are read by their form");
    }
}
