package h3whole;

import java.io.InvalidObjectException;
import java.io.ObjectInputStream;
import java.io.Serializable;
import java.util.Arrays;
import java.util.LinkedHashMap;
import java.util.Map;

/**
 * How many cells of a column are in each zone, how many in none, and how many were not valid, if that is not an error:
 * all of these add up to the length of the column. Counts never change.
 */
public final class Counts implements Serializable {
    private static final long serialVersionUID = 1;

    private final long[] zones;
    private final long[] counts;
    private final long others;
    private final long refused;

    Counts(long[] zones, long[] counts, long others, long refused) {
        this.zones = zones;
        this.counts = counts;
        this.others = others;
        this.refused = refused;
    }

    /** Returns the zones, ascending. */
    public long[] zones() {
        return zones.clone();
    }

    /** Returns the count of each zone, in the order of {@link #zones}. */
    public long[] counts() {
        return counts.clone();
    }

    /**
     * Returns how many cells are in a zone.
     *
     * @throws IllegalArgumentException the cell is not one of the zones
     */
    public long of(long zone) {
        int place = Arrays.binarySearch(zones, zone);
        if (place < 0) {
            throw new IllegalArgumentException("not one of the zones: " + Long.toHexString(zone));
        }
        return counts[place];
    }

    /** Returns how many cells are in no zone. */
    public long others() {
        return others;
    }

    /** Returns how many were not valid cells; 0 except for {@link Zones#countValid}. */
    public long refused() {
        return refused;
    }

    /** Returns the counts by zone, ascending, in a new map. */
    public Map<Long, Long> toMap() {
        Map<Long, Long> map = new LinkedHashMap<>();
        for (int place = 0; place < zones.length; place++) {
            map.put(zones[place], counts[place]);
        }
        return map;
    }

    /**
     * Returns the sum of both, which is the counts of both columns, one after the other.
     *
     * @throws IllegalArgumentException the zones are not the same
     * @throws ArithmeticException a sum is more than a long holds
     */
    public Counts plus(Counts other) {
        if (!Arrays.equals(zones, other.zones)) {
            throw new IllegalArgumentException("counts of other zones do not add up");
        }
        long[] sums = new long[counts.length];
        for (int place = 0; place < sums.length; place++) {
            sums[place] = Math.addExact(counts[place], other.counts[place]);
        }
        return new Counts(zones, sums, Math.addExact(others, other.others), Math.addExact(refused, other.refused));
    }

    /** Returns whether the other has the same zones with the same counts, and as many others and refused. */
    @Override
    public boolean equals(Object other) {
        if (!(other instanceof Counts)) {
            return false;
        }
        Counts given = (Counts) other;
        return Arrays.equals(zones, given.zones)
                && Arrays.equals(counts, given.counts)
                && others == given.others
                && refused == given.refused;
    }

    @Override
    public int hashCode() {
        return 31 * Arrays.hashCode(counts) + Long.hashCode(others);
    }

    @Override
    public String toString() {
        return toMap() + ", others " + others + ", refused " + refused;
    }

    /** The serialized form of counts. */
    private static final class Form implements Serializable {
        private static final long serialVersionUID = 1;
        private final long[] zones;
        private final long[] counts;
        private final long others;
        private final long refused;

        Form(Counts given) {
            zones = given.zones;
            counts = given.counts;
            others = given.others;
            refused = given.refused;
        }

        /** (the zones are those of cells of which no two overlap, ascending, and none of the counts is below 0) */
        private Object readResolve() throws InvalidObjectException {
            try (Zones judged = new Zones(zones)) {
                if (!Arrays.equals(judged.toArray(), zones)
                        || counts.length != zones.length
                        || Arrays.stream(counts).anyMatch(count -> count < 0)
                        || others < 0
                        || refused < 0) {
                    throw new InvalidObjectException("these are not counts by zones");
                }
                return new Counts(zones.clone(), counts.clone(), others, refused);
            } catch (H3Exception | NullPointerException error) {
                throw Zones.notRead(error);
            }
        }
    }

    private Object writeReplace() {
        return new Form(this);
    }

    private void readObject(ObjectInputStream stream) throws InvalidObjectException {
        throw new InvalidObjectException("counts are read by their form");
    }
}
