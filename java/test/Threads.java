import h3whole.AreaCounts;
import h3whole.AreaLists;
import h3whole.Areas;
import h3whole.BaseCellTable;
import h3whole.Columns;
import h3whole.Counts;
import h3whole.H3;
import h3whole.H3Exception;
import h3whole.Region;
import h3whole.Zones;
import java.util.ArrayList;
import java.util.Arrays;
import java.util.BitSet;
import java.util.List;
import java.util.Random;
import java.util.concurrent.ExecutorService;
import java.util.concurrent.Executors;
import java.util.concurrent.Future;
import java.util.concurrent.atomic.AtomicBoolean;
import java.util.function.Supplier;
import java.util.stream.IntStream;
import java.util.stream.LongStream;

/**
 * Every function in threads that share tables, regions, zones, areas and columns; and zones and areas that are closed
 * meanwhile.
 */
final class Threads {
    private static final int THREADS = 8;
    private static final long CELL = 0x85283473fffffffL;

    /** (what is put there has to be made) */
    private static volatile Object last;

    private Threads() {}

    private static List<Supplier<Object>> calls() {
        Random random = new Random(1);
        long[] column = LongStream.generate(() -> Answers.cell(random, 3)).limit(5000).toArray();
        long[] parents = Columns.cellsToParents(column, 2);
        long[] region = H3.uniteCells(parents);
        long[] edges = LongStream.of(column).map(cell -> H3.originToDirectedEdges(cell).get(2)).toArray();
        long[] compacted = H3.compactCells(region);
        BaseCellTable table = new BaseCellTable(Rows.plainTable());
        Zones zones = new Zones(region);
        int[] numbers = IntStream.range(0, column.length).map(place -> place % 40).toArray();
        Areas areas = new Areas(parents, numbers);
        Region some = new Region(parents);
        Region other = new Region(LongStream.of(column).limit(500).toArray());
        String text = "85283473fffffff";
        List<Supplier<Object>> calls = new ArrayList<>();
        calls.add(H3::version);
        calls.add(() -> H3.isValidCell(text) && H3.isValidCell(CELL));
        calls.add(() -> H3.getResolution(text) + H3.getBaseCellNumber(CELL));
        calls.add(() -> H3.isPentagon(CELL) || H3.isResClassIII(text));
        calls.add(() -> H3.getNumCells(7));
        calls.add(H3::getRes0Cells);
        calls.add(() -> H3.getPentagonAddresses(9));
        calls.add(() -> H3.cellToParentAddress(text, 3));
        calls.add(() -> H3.cellToCenterChild(text, 13));
        calls.add(() -> H3.cellToLastChild(text, 13));
        calls.add(() -> H3.cellToChildrenSize(text, 13));
        calls.add(() -> H3.cellToChildren(CELL, 8));
        calls.add(() -> H3.cellToChildPos(CELL, 2));
        calls.add(() -> H3.childPosToCell(11, CELL, 8));
        calls.add(() -> H3.compactCells(column.length > 0 ? compacted : column).length);
        calls.add(() -> LongStream.of(H3.uncompactCells(compacted, 3)).sum());
        calls.add(() -> LongStream.of(H3.uniteCells(column)).sum());
        calls.add(() -> Arrays.toString(H3.findOverlap(column)));
        calls.add(() -> LongStream.of(H3.intersectCells(column, parents)).sum());
        calls.add(() -> LongStream.of(H3.subtractCells(parents, column)).sum());
        calls.add(() -> some.union(other).equals(some) + "," + some.intersection(other).size());
        calls.add(() -> some.difference(other));
        calls.add(() -> some.covers(other) + "," + some.covers(CELL));
        calls.add(() -> zones.count(column));
        calls.add(() -> zones.countValid(edges));
        calls.add(() -> Arrays.hashCode(some.covers(column)) + "," + zones.covers(CELL));
        calls.add(() -> zones.zoneOf(column[7]));
        calls.add(() -> LongStream.of(zones.zonesOf(column)).sum());
        calls.add(() -> Arrays.hashCode(zones.covers(column)));
        calls.add(() -> new Zones(region));
        calls.add(() -> areas.areasOf(column));
        calls.add(() -> areas.validAreasOf(edges));
        calls.add(() -> areas.count(column));
        calls.add(() -> Arrays.toString(areas.areasOf(column[7])));
        calls.add(() -> new Areas(parents, numbers).countValid(edges));
        calls.add(() -> H3.isValidDirectedEdge(edges[3]) + "," + H3.getDirectedEdgeOrigin(edges[3]));
        calls.add(() -> H3.originToDirectedEdges(text));
        calls.add(() -> new BaseCellTable(Rows.plainTable()).gridDiskUnsafe(CELL, 2));
        calls.add(() -> table.gridDiskUnsafe(CELL, 9));
        calls.add(() -> table.gridDiskDistancesUnsafe(CELL, 9));
        calls.add(() -> table.gridRingUnsafe(CELL, 9));
        calls.add(() -> table.areNeighborCells(CELL, 0x85283477fffffffL));
        calls.add(() -> table.cellsToDirectedEdge(CELL, 0x85283477fffffffL));
        calls.add(() -> table.directedEdgeToCells(0x115283473fffffffL));
        calls.add(() -> Arrays.hashCode(Columns.areValidCells(column)));
        calls.add(() -> Arrays.hashCode(Columns.arePentagons(column)));
        calls.add(() -> Arrays.hashCode(Columns.areResClassIII(column)));
        calls.add(() -> Arrays.hashCode(Columns.getResolutions(column)));
        calls.add(() -> Arrays.hashCode(Columns.getBaseCellNumbers(column)));
        calls.add(() -> Arrays.hashCode(Columns.cellsToParents(column, 1)));
        calls.add(() -> Arrays.hashCode(Columns.cellsToCenterChildren(column, 15)));
        calls.add(() -> Arrays.hashCode(Columns.cellsToLastChildren(column, 15)));
        calls.add(() -> Arrays.hashCode(Columns.cellsToChildrenSizes(column, 15)));
        calls.add(() -> Arrays.hashCode(Columns.cellsToChildPositions(column, 1)));
        calls.add(() -> Arrays.hashCode(Columns.areValidDirectedEdges(edges)));
        calls.add(() -> Arrays.hashCode(Columns.getDirectedEdgeOrigins(edges)));
        calls.add(() -> refused(() -> H3.cellToParent(CELL, 6)));
        return calls;
    }

    private static Object refused(Supplier<Object> call) {
        try {
            return call.get();
        } catch (H3Exception error) {
            return error.getMessage();
        }
    }

    /** Each thread begins at another call. */
    private static Boolean agree(List<Supplier<Object>> calls, List<Object> wanted, int first) {
        boolean same = true;
        for (int round = 0; round < 10 * calls.size(); round++) {
            int place = (first + round) % calls.size();
            same &= wanted.get(place).equals(calls.get(place).get());
        }
        return same;
    }

    /** Zones that a thread closes while others count by them: each counts right, or says that they are closed. */
    private static boolean closed(ExecutorService pool) throws Exception {
        long[] cells = H3.cellToChildrenArray(0x8029fffffffffffL, 4);
        long[] points = H3.cellToChildrenArray(0x8029fffffffffffL, 5);
        int[] numbers = IntStream.range(0, cells.length).map(place -> place % 7).toArray();
        boolean holds = true;
        for (int round = 0; round < 60; round++) {
            Zones zones = new Zones(cells);
            Areas areas = new Areas(cells, numbers);
            boolean hasZones = round % 2 == 0;
            List<Future<Boolean>> counted = new ArrayList<>();
            for (int thread = 0; thread < THREADS - 1; thread++) {
                counted.add(pool.submit(() -> hasZones ? countOrClosed(zones, points) : countOrClosed(areas, points)));
            }
            pool.submit(hasZones ? zones::close : areas::close).get();
            for (Future<Boolean> one : counted) {
                holds &= one.get();
            }
        }
        return holds;
    }

    private static boolean countOrClosed(Zones zones, long[] points) {
        try {
            Counts counts = zones.count(points);
            return counts.others() == 0 && LongStream.of(counts.counts()).allMatch(count -> count == 7);
        } catch (IllegalStateException error) {
            return error.getMessage().equals("it is closed");
        }
    }

    private static boolean countOrClosed(Areas areas, long[] points) {
        try {
            AreaCounts counts = areas.count(points);
            return counts.others() == 0 && LongStream.of(counts.counts()).allMatch(count -> count == points.length / 7);
        } catch (IllegalStateException error) {
            return error.getMessage().equals("it is closed");
        }
    }

    /** A column that another thread writes to: each result is that of one of the values that were there. */
    private static boolean changing(ExecutorService pool) throws Exception {
        long[] column = new long[200000];
        long[] out = new long[column.length];
        long base = H3.cellToParent(CELL, 0);
        Zones zones = new Zones(new long[] {base});
        Areas areas = new Areas(new long[] {base, CELL, base}, new int[] {1, 2, 3});
        AtomicBoolean isDone = new AtomicBoolean();
        Future<?> writes = pool.submit(() -> {
            for (int round = 0; !isDone.get(); round++) {
                Arrays.fill(column, round % 2 == 0 ? CELL : -1);
            }
        });
        boolean holds = true;
        for (int round = 0; round < 100; round++) {
            if (round % 2 == 0) {
                Columns.cellsToParents(column, 0, out);
            } else {
                zones.zonesOf(column, out);
            }
            holds &= LongStream.of(out).allMatch(found -> found == 0 || found == base);
            AreaLists lists = areas.validAreasOf(column);
            int[] starts = lists.starts();
            BitSet missing = lists.missing();
            holds &= IntStream.range(0, column.length)
                    .allMatch(at -> starts[at + 1] - starts[at] == (missing.get(at) ? 0 : 3));
        }
        isDone.set(true);
        writes.get();
        return holds;
    }

    /** Columns in some threads, while others fill the heap several times: all of it is collected meanwhile. */
    private static boolean collected(ExecutorService pool) throws Exception {
        long[] column = new long[200000];
        Arrays.fill(column, CELL);
        List<Future<Boolean>> found = new ArrayList<>();
        for (int thread = 0; thread < THREADS; thread++) {
            boolean fills = thread % 2 == 0;
            found.add(pool.submit(() -> {
                boolean areSame = true;
                for (int round = 0; round < (fills ? 5000 : 50); round++) {
                    long[] parents = fills ? column : Columns.cellsToParents(column, 5);
                    last = fills ? new byte[1 << 16] : parents;
                    areSame &= parents[round] == CELL;
                }
                return areSame;
            }));
        }
        boolean holds = true;
        for (Future<Boolean> one : found) {
            holds &= one.get();
        }
        return holds;
    }

    public static void main(String[] words) throws Exception {
        List<Supplier<Object>> calls = calls();
        List<Object> wanted = new ArrayList<>();
        calls.forEach(call -> wanted.add(call.get()));
        ExecutorService pool = Executors.newFixedThreadPool(THREADS);
        List<Future<Boolean>> found = new ArrayList<>();
        for (int thread = 0; thread < THREADS; thread++) {
            int first = 5 * thread;
            found.add(pool.submit(() -> agree(calls, wanted, first)));
        }
        for (Future<Boolean> one : found) {
            Check.same("a thread", one.get(), true);
        }
        Check.same("closed", closed(pool), true);
        Check.same("a column that changes", changing(pool), true);
        Check.same("columns and collections", collected(pool), true);
        pool.shutdown();
        Check.end();
    }
}
