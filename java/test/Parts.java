import h3whole.AreaCounts;
import h3whole.Areas;
import h3whole.BaseCellTable;
import h3whole.Columns;
import h3whole.Counts;
import h3whole.H3;
import h3whole.Region;
import h3whole.Zones;
import java.io.ByteArrayInputStream;
import java.io.ByteArrayOutputStream;
import java.io.IOException;
import java.io.InvalidObjectException;
import java.io.ObjectInputStream;
import java.io.ObjectOutputStream;
import java.nio.file.Files;
import java.nio.file.Path;
import java.util.ArrayList;
import java.util.Arrays;
import java.util.List;
import java.util.Random;
import java.util.stream.IntStream;
import java.util.stream.LongStream;

/**
 * Counts in parts, each in a process of its own that reads serialized zones and areas.
 *
 * <p>{@code Parts prepare FOLDER} writes both; {@code Parts count FOLDER PART} counts a part of the points by them;
 * {@code Parts sum FOLDER} adds up what the processes have written, and compares it with the counts of one process, and
 * of a pool of threads. Alone, it tries what is serialized and changed.
 */
final class Parts {
    private static final int PARTS = 3;
    private static final int POINTS = 200_000;

    private Parts() {}

    static byte[] written(Object object) throws IOException {
        ByteArrayOutputStream bytes = new ByteArrayOutputStream();
        try (ObjectOutputStream stream = new ObjectOutputStream(bytes)) {
            stream.writeObject(object);
        }
        return bytes.toByteArray();
    }

    static Object read(byte[] bytes) throws IOException, ClassNotFoundException {
        try (ObjectInputStream stream = new ObjectInputStream(new ByteArrayInputStream(bytes))) {
            return stream.readObject();
        }
    }

    private static Zones zones() {
        Random random = new Random(3);
        return new Zones(H3.uniteCells(LongStream.generate(() -> Answers.cell(random, 3)).limit(3000).toArray()));
    }

    private static long[] points(int part) {
        Random random = new Random(100 + part);
        return LongStream.generate(() -> Answers.cell(random, 3)).limit(POINTS).toArray();
    }

    /** Many areas, one within another: each has cells of all resolutions, and every ancestor of some at 2. */
    private static Areas areas() {
        Random random = new Random(4);
        long[] cells = LongStream.generate(() -> Answers.cell(random, 3)).limit(3000).toArray();
        long[] all = Arrays.copyOf(cells, 2 * cells.length);
        System.arraycopy(Columns.cellsToParents(cells, 2), 0, all, cells.length, cells.length);
        return new Areas(all, random.ints(all.length, 0, 50).toArray());
    }

    private static void sumAreas(Path folder) throws IOException, ClassNotFoundException {
        Areas areas = areas();
        long[] all = IntStream.range(0, PARTS).boxed().flatMapToLong(p -> LongStream.of(points(p))).toArray();
        AreaCounts whole = areas.count(all);
        AreaCounts sum = areas.count(new long[0]);
        for (int part = 0; part < PARTS; part++) {
            sum = sum.plus((AreaCounts) read(Files.readAllBytes(folder.resolve("areaCounts" + part))));
        }
        Check.same("of processes, in areas", sum, whole);
        long counted = LongStream.of(whole.counts()).sum();
        Check.that("some in areas, and some in none", counted > 1000 && whole.others() > 1000);
    }

    private static void sum(Path folder) throws IOException, ClassNotFoundException {
        Zones zones = zones();
        long[] all = IntStream.range(0, PARTS).boxed().flatMapToLong(p -> LongStream.of(points(p))).toArray();
        Counts whole = zones.count(all);
        Counts sum = null;
        for (int part = 0; part < PARTS; part++) {
            Counts counts = (Counts) read(Files.readAllBytes(folder.resolve("counts" + part)));
            sum = sum == null ? counts : sum.plus(counts);
        }
        Check.same("of processes", sum, whole);
        Check.same("of threads", IntStream.range(0, PARTS).parallel().mapToObj(p -> zones.count(points(p)))
                .reduce(Counts::plus).get(), whole);
        long counted = LongStream.of(whole.counts()).sum();
        Check.same("all of them", counted + whole.others(), (long) PARTS * POINTS);
        Check.that("some in zones, and some in none", counted > 1000 && whole.others() > 1000);
    }

    /** The bytes of an object in which those of a number are changed. */
    private static byte[] changed(Object object, long from, long to) throws IOException {
        byte[] bytes = written(object);
        byte[] old = java.nio.ByteBuffer.allocate(8).putLong(from).array();
        for (int at = 0; at + 8 <= bytes.length; at++) {
            if (Arrays.equals(Arrays.copyOfRange(bytes, at, at + 8), old)) {
                System.arraycopy(java.nio.ByteBuffer.allocate(8).putLong(to).array(), 0, bytes, at, 8);
                return bytes;
            }
        }
        throw new AssertionError("the number is not there");
    }

    private static void judged() throws IOException, ClassNotFoundException {
        long cell = 0x85283473fffffffL;
        long parent = 0x8428347ffffffffL;
        Zones zones = new Zones(new long[] {cell, 0x8009fffffffffffL});
        Region region = new Region(new long[] {cell});
        Counts counts = zones.count(new long[] {cell, parent, cell});
        Areas areas = new Areas(new long[] {parent, cell, parent}, new int[] {0x7654321, 0x1234567, -5});
        AreaCounts inAreas = areas.count(new long[] {cell, parent, cell, 0x8009fffffffffffL});
        BaseCellTable table = new BaseCellTable(Rows.plainTable());
        Check.same("zones", read(written(zones)), zones);
        Check.same("places", ((Zones) read(written(zones))).placesOf(new long[] {cell, parent, 0x8009fffffffffffL}),
                new int[] {0, -1, 1});
        Check.same("zones count", ((Zones) read(written(zones))).count(new long[] {cell, parent, cell}), counts);
        Check.same("a region", read(written(region)), region);
        Check.same("counts", read(written(counts)), counts);
        Check.same("areas", read(written(areas)), areas);
        Check.same("areas of", ((Areas) read(written(areas))).areasOf(cell), new int[] {-5, 0x7654321, 0x1234567});
        Check.same("counts in areas", read(written(inAreas)), inAreas);
        BaseCellTable again = (BaseCellTable) read(written(table));
        Check.same("a table", again.gridDiskUnsafe(cell, 3), table.gridDiskUnsafe(cell, 3));
        List<byte[]> wrong = new ArrayList<>();
        wrong.add(changed(zones, cell, 5));
        wrong.add(changed(zones, cell, 0x81083ffffffffffL));
        wrong.add(changed(region, cell, 5));
        wrong.add(changed(counts, cell, parent + 1));
        wrong.add(changed(counts, 2, -2));
        wrong.add(changed(areas, cell, 5));
        // (the numbers are the last: their length, and then the items, of which one is left out)
        byte[] fewer = changed(areas, 3L << 32 | -5 & 0xffffffffL, 2L << 32 | -5 & 0xffffffffL);
        wrong.add(Arrays.copyOf(fewer, fewer.length - 4));
        wrong.add(changed(inAreas, 2, -2));
        wrong.add(changed(inAreas, 3L << 32 | -5 & 0xffffffffL, 3L << 32 | 0x1234567));
        for (byte[] bytes : wrong) {
            Check.thrown(InvalidObjectException.class, () -> read(bytes));
        }
        byte[] file = written(table);
        file[new String(file, java.nio.charset.StandardCharsets.ISO_8859_1).indexOf("0,1,110,0") + 2] = '7';
        Check.thrown(InvalidObjectException.class, () -> read(file));
    }

    public static void main(String[] words) throws Exception {
        if (words.length == 0) {
            judged();
            Check.end();
        }
        Path folder = Path.of(words[1]);
        if (words[0].equals("prepare")) {
            Files.write(folder.resolve("zones"), written(zones()));
            Files.write(folder.resolve("areas"), written(areas()));
        } else if (words[0].equals("count")) {
            Zones zones = (Zones) read(Files.readAllBytes(folder.resolve("zones")));
            Areas areas = (Areas) read(Files.readAllBytes(folder.resolve("areas")));
            long[] points = points(Integer.parseInt(words[2]));
            Files.write(folder.resolve("counts" + words[2]), written(zones.count(points)));
            Files.write(folder.resolve("areaCounts" + words[2]), written(areas.count(points)));
        } else {
            sum(folder);
            sumAreas(folder);
            Check.end();
        }
    }
}
