import h3whole.AreaCounts;
import h3whole.AreaLists;
import h3whole.Areas;
import java.util.ArrayList;
import java.util.Arrays;
import java.util.BitSet;
import java.util.HashMap;
import java.util.List;
import java.util.Map;
import java.util.Random;
import java.util.TreeMap;
import java.util.TreeSet;

/**
 * Random areas that overlap against plain Java, which takes cells apart by their bits: few cells by the definition, and
 * many by the ancestors of each cell.
 */
final class Overlapping {
    /** The first and the last of all numbers are among these, and they are not in order. */
    private static final int[] NUMBERS = {7, Integer.MAX_VALUE, -1, 0, Integer.MIN_VALUE, 1, 300, -80, 2};

    /** How many cells were in so many areas. */
    private static final int[] LENGTHS = new int[NUMBERS.length + 1];

    private Overlapping() {}

    private static int resolution(long cell) {
        return (int) (cell >>> 52 & 15);
    }

    private static long ancestor(long cell, int res) {
        long below = (1L << 3 * (15 - res)) - 1;
        return cell & ~(15L << 52) | (long) res << 52 | below;
    }

    private static boolean covers(long zone, long cell) {
        return resolution(zone) <= resolution(cell) && ancestor(cell, resolution(zone)) == zone;
    }

    /** A cell, or now and then an ancestor of it. */
    private static long some(Random random, long cell) {
        return random.nextInt(3) == 0 ? cell : ancestor(cell, random.nextInt(resolution(cell) + 1));
    }

    /** The areas of a cell: by the resolution of the coarsest cell of each that covers it, and then by number. */
    private static int[] areasOf(long[] cells, int[] numbers, long cell) {
        Map<Integer, Integer> coarsest = new TreeMap<>();
        for (int place = 0; place < cells.length; place++) {
            if (covers(cells[place], cell)) {
                coarsest.merge(numbers[place], resolution(cells[place]), Math::min);
            }
        }
        List<Integer> found = new ArrayList<>(coarsest.keySet());
        found.sort((one, other) -> coarsest.get(one) - coarsest.get(other));
        return found.stream().mapToInt(Integer::intValue).toArray();
    }

    /** Compares all forms of the answers with the list of each cell; cells not valid have none. */
    private static void compare(String name, Areas areas, long[] asked, int[][] wanted, BitSet missing) {
        AreaLists found = areas.validAreasOf(asked);
        Map<Integer, Long> counts = new TreeMap<>();
        Arrays.stream(areas.numbers()).forEach(number -> counts.put(number, 0L));
        long others = 0;
        int start = 0;
        boolean holds = found.size() == asked.length && found.starts()[0] == 0;
        for (int place = 0; place < asked.length; place++) {
            for (int number : wanted[place]) {
                counts.merge(number, 1L, Long::sum);
                holds &= found.places()[start] == place && found.numbers()[start++] == number;
            }
            holds &= found.starts()[place + 1] == start && Arrays.equals(found.of(place), wanted[place]);
            others += wanted[place].length == 0 && !missing.get(place) ? 1 : 0;
        }
        Check.that(name + ": starts, numbers and places", holds && found.numbers().length == start);
        Check.same(name, found.toArrays(), wanted);
        Check.same(name + ": not valid", found.missing(), missing);
        AreaCounts counted = areas.countValid(asked);
        Check.same(name + ": counts", counted.toMap(), counts);
        Check.same(name + ": others", counted.others(), others);
        Check.same(name + ": refused", counted.refused(), (long) missing.cardinality());
        if (missing.isEmpty()) {
            Check.same(name + ": without missing", areas.areasOf(asked), found);
            Check.same(name + ": counts without missing", areas.count(asked), counted);
        }
    }

    private static void small(Random random) {
        int names = 1 + random.nextInt(NUMBERS.length);
        long[] pool = random.longs(4).map(any -> Answers.cell(random, 0)).toArray();
        long[] cells = random.ints(random.nextInt(25), 0, 4).mapToLong(at -> some(random, pool[at])).toArray();
        int[] numbers = random.ints(cells.length, 0, names).map(at -> NUMBERS[at]).toArray();
        long[] asked = random.ints(40, 0, 4).mapToLong(at -> some(random, pool[at])).toArray();
        BitSet missing = new BitSet();
        for (int place = 0; place < asked.length && names % 2 == 0; place += 1 + random.nextInt(30)) {
            asked[place] = place % 2 == 0 ? 0 : asked[place] | 1L << 63;
            missing.set(place);
        }
        int[][] wanted = new int[asked.length][];
        for (int place = 0; place < asked.length; place++) {
            wanted[place] = missing.get(place) ? new int[0] : areasOf(cells, numbers, asked[place]);
            LENGTHS[wanted[place].length]++;
        }
        try (Areas areas = new Areas(cells, numbers)) {
            compare("few cells", areas, asked, wanted, missing);
            for (int place = 0; place < 5; place++) {
                if (!missing.get(place)) {
                    Check.same("one cell", areas.areasOf(asked[place]), wanted[place]);
                }
            }
        }
    }

    /** Each ancestor of a cell, from the coarsest on, adds the areas that have it, by number. */
    private static int[] byAncestors(Map<Long, TreeSet<Integer>> areas, long cell) {
        List<Integer> found = new ArrayList<>();
        for (int res = 0; res <= resolution(cell); res++) {
            for (int number : areas.getOrDefault(ancestor(cell, res), new TreeSet<>())) {
                if (!found.contains(number)) {
                    found.add(number);
                }
            }
        }
        return found.stream().mapToInt(Integer::intValue).toArray();
    }

    private static void large(Random random, int size, int names, int points) {
        long[] cells = random.longs(size).map(any -> some(random, Answers.cell(random, 3))).toArray();
        int[] numbers = random.ints(size, -names / 2, names / 2).toArray();
        Map<Long, TreeSet<Integer>> plain = new HashMap<>();
        for (int place = 0; place < size; place++) {
            plain.computeIfAbsent(cells[place], cell -> new TreeSet<>()).add(numbers[place]);
        }
        long[] asked = random.longs(points).map(any -> Answers.cell(random, 0)).toArray();
        int[][] wanted = new int[points][];
        Arrays.setAll(wanted, place -> byAncestors(plain, asked[place]));
        try (Areas areas = new Areas(cells, numbers)) {
            AreaLists found = areas.areasOf(asked);
            Check.that("some are in many areas", found.numbers().length > 2 * points);
            Check.that("many cells", Arrays.deepEquals(found.toArrays(), wanted));
            Check.same("a copy", areas.validAreasOf(asked), found);
            AreaCounts counts = areas.count(asked);
            Check.same("counts of many cells", Arrays.stream(counts.counts()).sum(), (long) found.numbers().length);
            long[] first = Arrays.copyOf(asked, points / 3);
            long[] rest = Arrays.copyOfRange(asked, points / 3, points);
            Check.same("counts of parts", areas.count(first).plus(areas.count(rest)), counts);
        }
    }

    public static void main(String[] words) {
        Random random = new Random(5);
        for (int round = 0; round < 400; round++) {
            small(random);
        }
        for (int length = 0; length < 5; length++) {
            Check.that("cells in " + length + " areas: " + LENGTHS[length], LENGTHS[length] > 100);
        }
        large(random, 2_000, 40, 100_000);
        large(random, 100_000, 5_000, 20_000);
        Check.end();
    }
}
