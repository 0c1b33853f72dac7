import h3whole.Areas;
import h3whole.Columns;
import h3whole.H3;
import h3whole.Zones;
import java.io.IOException;
import java.nio.file.Files;
import java.nio.file.Path;
import java.util.ArrayList;
import java.util.List;

/**
 * A heap that is full (java -Xmx32m): an OutOfMemoryError, after which all works; and zones and areas that nobody
 * closes.
 */
final class Limits {
    private static final long CELL = 0x8029fffffffffffL;

    private Limits() {}

    /** KB of this process that are in memory. */
    private static long resident() throws IOException {
        for (String line : Files.readAllLines(Path.of("/proc/self/status"))) {
            if (line.startsWith("VmRSS:")) {
                return Long.parseLong(line.replaceAll("[^0-9]", ""));
            }
        }
        return 0;
    }

    private static void works(String when) {
        Check.same(when, H3.cellToParentAddress("85283473fffffff", 4), "8428347ffffffff");
    }

    private static List<Object> fill() {
        List<Object> kept = new ArrayList<>();
        try {
            for (int size = 1 << 20; size > 0; size /= 2) {
                for (int count = 0; count < 100; count++) {
                    kept.add(new long[size]);
                }
            }
        } catch (OutOfMemoryError full) {
            return kept;
        }
        return kept;
    }

    /** (each is 7^5 zones, 134 KB: 800 of them would be 107 MB) */
    private static void unclosed() throws IOException {
        long[] cells = H3.cellToChildrenArray(0x81283ffffffffffL, 6);
        long before = resident();
        for (int round = 0; round < 800; round++) {
            if (new Zones(cells).zoneOf(cells[round]) != cells[round]) {
                Check.that("a zone", false);
            }
            if (round % 50 == 0) {
                System.gc();
            }
        }
        Check.that("zones that nobody closes: KB " + (resident() - before), resident() - before < 50000);
        for (int round = 0; round < 800; round++) {
            if (new Areas(cells, new int[cells.length]).areasOf(cells[round]).length != 1) {
                Check.that("an area", false);
            }
            if (round % 50 == 0) {
                System.gc();
            }
        }
        Check.that("areas that nobody closes: KB " + (resident() - before), resident() - before < 50000);
    }

    public static void main(String[] words) throws IOException {
        works("first");
        // 7^9 cells take 323 MB, of which the heap has none
        Check.thrown(OutOfMemoryError.class, () -> H3.cellToChildrenArray(CELL, 9));
        works("after children");
        Check.thrown(OutOfMemoryError.class, () -> H3.uncompactCells(new long[] {CELL}, 9));
        works("after a list");
        Areas areas = new Areas(new long[] {CELL}, new int[1]);
        List<Object> kept = fill();
        Check.that("a full heap", kept.size() > 0);
        for (int round = 0; round < 3; round++) {
            Check.thrown(OutOfMemoryError.class, () -> Columns.cellsToParents(new long[1 << 21], 0));
            Check.thrown(OutOfMemoryError.class, () -> H3.cellToChildrenArray(CELL, 7));
            Check.thrown(OutOfMemoryError.class, () -> areas.areasOf(new long[1 << 21]));
        }
        kept.clear();
        Check.same("areas after a full heap", areas.areasOf(CELL), new int[1]);
        works("after a full heap");
        Check.same("a column", Columns.getResolutions(H3.cellToChildrenArray(CELL, 6)).length, 117649);
        unclosed();
        Check.end();
    }
}
