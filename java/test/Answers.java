import h3whole.Columns;
import h3whole.H3;
import h3whole.H3Exception;
import java.io.BufferedReader;
import java.io.IOException;
import java.io.PrintStream;
import java.nio.charset.StandardCharsets;
import java.nio.file.Files;
import java.nio.file.Path;
import java.util.ArrayList;
import java.util.List;
import java.util.Random;
import java.util.stream.Collectors;

/**
 * What the package returns for lists, to be compared with what the command h3 does.
 *
 * <p>{@code Answers cells COUNT SEED} prints random cells; {@code Answers LIST FOLDER} writes a file for each function
 * into the folder, named as the command, and {@code -RESOLUTION}.
 */
final class Answers {
    private static final int[] PENTAGONS = {4, 14, 24, 38, 49, 58, 63, 72, 83, 97, 107, 117};

    private interface OfText {
        Object apply(String cell, int res);
    }

    private interface OfNumber {
        Object apply(long cell, int res);
    }

    private interface OfColumn {
        Object apply(long[] cells, int res);
    }

    private Answers() {}

    /** A cell of random digits; in a pentagon base cell every third lies on the way to its center. */
    static long cell(Random random, int least) {
        int res = least + random.nextInt(16 - least);
        int base = random.nextInt(5) == 0 ? PENTAGONS[random.nextInt(12)] : random.nextInt(122);
        long cell = 1L << 59 | (long) res << 52 | (long) base << 45;
        boolean leads = java.util.Arrays.binarySearch(PENTAGONS, base) >= 0;
        for (int r = 1; r <= 15; r++) {
            int digit = r > res ? 7 : leads && random.nextInt(3) > 0 ? 0 : random.nextInt(7);
            if (r <= res && leads && digit == 1) {
                digit = 2;
            }
            leads = leads && digit == 0;
            cell |= (long) digit << 3 * (15 - r);
        }
        return cell;
    }

    private static String shown(Object value) {
        return value instanceof Long ? Long.toHexString((Long) value) : value.toString();
    }

    /** The items of an array, in the form of the command. */
    private static List<String> items(Object column, boolean isIndex) {
        List<String> items = new ArrayList<>();
        for (int place = 0; place < java.lang.reflect.Array.getLength(column); place++) {
            Object item = java.lang.reflect.Array.get(column, place);
            items.add(isIndex ? Long.toHexString((Long) item) : item.toString());
        }
        return items;
    }

    /** Writes what a function returns, which has to be the same of texts, of numbers and of the column. */
    private static void write(
            Path folder, String name, List<String> texts, int res, OfText ofText, OfNumber ofNumber, OfColumn ofColumn)
            throws IOException {
        long[] cells = texts.stream().mapToLong(H3::stringToH3).toArray();
        Object column = ofColumn.apply(cells, res);
        boolean isIndex = ofText.apply(texts.get(0), res) instanceof String;
        List<String> found = items(column, isIndex);
        for (int place = 0; place < cells.length; place++) {
            String one = ofText.apply(texts.get(place), res).toString();
            Object other = ofNumber.apply(cells[place], res);
            String number = isIndex ? shown(other) : other.toString();
            if (!one.equals(found.get(place)) || !number.equals(one)) {
                throw new AssertionError(name + " of " + texts.get(place) + ": " + one + ", " + number);
            }
        }
        Files.write(folder.resolve(name), found);
    }

    private static void writeAll(Path folder, List<String> texts) throws IOException {
        write(folder, "areValidCells", texts, 0, (c, r) -> H3.isValidCell(c), (c, r) -> H3.isValidCell(c),
                (c, r) -> Columns.areValidCells(c));
        write(folder, "arePentagons", texts, 0, (c, r) -> H3.isPentagon(c), (c, r) -> H3.isPentagon(c),
                (c, r) -> Columns.arePentagons(c));
        write(folder, "areResClassIII", texts, 0, (c, r) -> H3.isResClassIII(c), (c, r) -> H3.isResClassIII(c),
                (c, r) -> Columns.areResClassIII(c));
        write(folder, "getResolutions", texts, 0, (c, r) -> H3.getResolution(c), (c, r) -> H3.getResolution(c),
                (c, r) -> Columns.getResolutions(c));
        write(folder, "getBaseCellNumbers", texts, 0, (c, r) -> H3.getBaseCellNumber(c),
                (c, r) -> H3.getBaseCellNumber(c), (c, r) -> Columns.getBaseCellNumbers(c));
        write(folder, "areValidDirectedEdges", texts, 0, (c, r) -> H3.isValidDirectedEdge(c),
                (c, r) -> H3.isValidDirectedEdge(c), (c, r) -> Columns.areValidDirectedEdges(c));
        for (int res : new int[] {0, 3}) {
            write(folder, "cellsToParents-" + res, texts, res, H3::cellToParentAddress, H3::cellToParent,
                    Columns::cellsToParents);
            write(folder, "cellsToChildPositions-" + res, texts, res, H3::cellToChildPos, H3::cellToChildPos,
                    Columns::cellsToChildPositions);
        }
        write(folder, "cellsToCenterChildren-15", texts, 15, H3::cellToCenterChild, H3::cellToCenterChild,
                Columns::cellsToCenterChildren);
        write(folder, "cellsToLastChildren-15", texts, 15, H3::cellToLastChild, H3::cellToLastChild,
                Columns::cellsToLastChildren);
        write(folder, "cellsToChildrenSizes-15", texts, 15, H3::cellToChildrenSize, H3::cellToChildrenSize,
                Columns::cellsToChildrenSizes);
        edges(folder, texts);
    }

    /** The edges of the first cells, and their origins. */
    private static void edges(Path folder, List<String> texts) throws IOException {
        List<String> edges =
                texts.stream().limit(2000).flatMap(cell -> H3.originToDirectedEdges(cell).stream())
                        .collect(Collectors.toList());
        Files.write(folder.resolve("originsToDirectedEdges"), edges);
        write(folder, "getDirectedEdgeOrigins", edges, 0, (e, r) -> H3.getDirectedEdgeOrigin(e),
                (e, r) -> H3.getDirectedEdgeOrigin(e), (e, r) -> Columns.getDirectedEdgeOrigins(e));
    }

    /** Lists: each answer, or the error, is a file. */
    private static void writeLists(Path folder, List<String> texts) throws IOException {
        List<String> united = H3.uniteCells(numbers(texts)).stream().map(H3::h3ToString).collect(Collectors.toList());
        Files.write(folder.resolve("uniteCells"), united);
        Files.write(folder.resolve("compactCells"), H3.compactCellAddresses(united));
        try {
            H3.compactCellAddresses(texts);
            throw new AssertionError("cells that overlap are compacted");
        } catch (H3Exception error) {
            Files.writeString(folder.resolve("overlap"), "error " + error.getCode() + ": " + error.getName() + "\n");
        }
    }

    private static List<Long> numbers(List<String> texts) {
        return texts.stream().map(H3::stringToH3).collect(Collectors.toList());
    }

    private static void writeCells(int count, long seed) {
        Random random = new Random(seed);
        PrintStream out = new PrintStream(new java.io.FileOutputStream(java.io.FileDescriptor.out), false);
        StringBuilder lines = new StringBuilder();
        for (int place = 0; place < count; place++) {
            lines.append(Long.toHexString(cell(random, 3))).append('\n');
        }
        out.print(lines);
        out.flush();
    }

    public static void main(String[] words) throws IOException {
        if (words[0].equals("cells")) {
            writeCells(Integer.parseInt(words[1]), Long.parseLong(words[2]));
            return;
        }
        try (BufferedReader list = Files.newBufferedReader(Path.of(words[0]), StandardCharsets.US_ASCII)) {
            List<String> texts = list.lines().collect(Collectors.toList());
            writeAll(Path.of(words[1]), texts);
            writeLists(Path.of(words[1]), texts);
        }
    }
}
