import h3whole.Columns;
import h3whole.H3;
import h3whole.Zones;
import java.util.HashSet;
import java.util.Set;
import java.util.function.LongSupplier;

/**
 * The package h3whole, and plain Java that does the same: of each row the best time of some rounds, which take a second
 * together or are one, in nanoseconds a cell; and the sum of what it returns.
 */
final class Speed {
    private static final int N = 10_000_000;
    private static final int ROUNDS = 10;
    private static final int ZONES = 100_000;

    private Speed() {}

    private static void row(String name, LongSupplier call) {
        long best = Long.MAX_VALUE;
        long sum = 0;
        long all = 0;
        for (int round = 0; round < ROUNDS && all < 1_000_000_000; round++) {
            long start = System.nanoTime();
            sum = call.getAsLong();
            long time = System.nanoTime() - start;
            best = Math.min(best, time);
            all += time;
        }
        System.out.printf("%s\t%.3f\t%x%n", name, (double) best / N, sum);
    }

    /** Random descendants of resolution 9 of four base cells. */
    private static long[] cells() {
        long[] found = new long[N];
        long state = 1;
        for (int place = 0; place < N; place++) {
            state = state * 6364136223846793005L + 1442695040888963407L;
            long position = (state >>> 33) % 40353607;
            found[place] = cell(position, (state >>> 20 & 3) * 2, 9);
        }
        return found;
    }

    /** The descendant at a position of a hexagon base cell. */
    private static long cell(long position, long base, int res) {
        long cell = 1L << 59 | (long) res << 52 | (base == 4 ? 5 : base) << 45 | (1L << 3 * (15 - res)) - 1;
        for (int r = res; r > 0; r--) {
            cell |= position % 7 << 3 * (15 - r);
            position /= 7;
        }
        return cell;
    }

    private static boolean plainIsValid(long cell) {
        int res = (int) (cell >>> 52 & 15);
        int base = (int) (cell >>> 45 & 127);
        if (cell >>> 56 != 8 || base > 121) {
            return false;
        }
        boolean leads = base == 4 || base == 14 || base == 24 || base == 38 || base == 49 || base == 58
                || base == 63 || base == 72 || base == 83 || base == 97 || base == 107 || base == 117;
        for (int r = 1; r <= res; r++) {
            int digit = (int) (cell >>> 3 * (15 - r) & 7);
            if (digit == 7 || leads && digit == 1) {
                return false;
            }
            leads = leads && digit == 0;
        }
        long unused = (1L << 3 * (15 - res)) - 1;
        return (cell & unused) == unused;
    }

    private static long plainParent(long cell, int res) {
        if (!plainIsValid(cell) || res > (cell >>> 52 & 15)) {
            throw new IllegalArgumentException("refused");
        }
        return cell & ~(15L << 52) | (long) res << 52 | (1L << 3 * (15 - res)) - 1;
    }

    /** As many do: a set of the zones, in which the ancestors of a cell are looked for. */
    private static long plainZone(Set<Long> zones, long cell, int coarsest) {
        for (int res = (int) (cell >>> 52 & 15); res >= coarsest; res--) {
            long ancestor = plainParent(cell, res);
            if (zones.contains(ancestor)) {
                return ancestor;
            }
        }
        return 0;
    }

    /** (each loop by itself, so that the compiler knows which function it calls) */
    private static void calls(long[] cells) {
        row("isValidCell", () -> {
            long sum = 0;
            for (long cell : cells) {
                sum += H3.isValidCell(cell) ? 1 : 0;
            }
            return sum;
        });
        row("cellToParent", () -> {
            long sum = 0;
            for (long cell : cells) {
                sum += H3.cellToParent(cell, 4);
            }
            return sum;
        });
        row("plain isValidCell", () -> {
            long sum = 0;
            for (long cell : cells) {
                sum += plainIsValid(cell) ? 1 : 0;
            }
            return sum;
        });
        row("plain cellToParent", () -> {
            long sum = 0;
            for (long cell : cells) {
                sum += plainParent(cell, 4);
            }
            return sum;
        });
    }

    private static void parents(long[] cells, long[] out) {
        row("cellsToParents", () -> {
            Columns.cellsToParents(cells, 4, out);
            return out[0] + out[N - 1];
        });
        row("plain cellsToParents", () -> {
            for (int place = 0; place < N; place++) {
                out[place] = plainParent(cells[place], 4);
            }
            return out[0] + out[N - 1];
        });
    }

    private static void zones(long[] cells, long[] out) {
        long[] list = new long[ZONES];
        for (int place = 0; place < ZONES; place++) {
            list[place] = cell(place, place % 2 == 0 ? 0 : 2, 6);
        }
        Zones zones = new Zones(list);
        row("cellsToZones", () -> {
            zones.zonesOf(cells, out);
            return out[0] + out[N - 1];
        });
        row("countCellsInZones", () -> zones.count(cells).others());
        Set<Long> set = new HashSet<>();
        for (long zone : list) {
            set.add(zone);
        }
        row("plain cellsToZones", () -> {
            for (int place = 0; place < N; place++) {
                out[place] = plainZone(set, cells[place], 6);
            }
            return out[0] + out[N - 1];
        });
    }

    public static void main(String[] words) {
        long[] cells = cells();
        long[] out = new long[N];
        calls(cells);
        parents(cells, out);
        zones(cells, out);
    }
}
