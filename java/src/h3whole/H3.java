package h3whole;

import static java.util.Objects.requireNonNull;

import java.nio.charset.StandardCharsets;
import java.util.ArrayList;
import java.util.Collection;
import java.util.List;
import java.util.function.LongFunction;

/**
 * The functions of H3 over one index or a list of them, under the names that h3-java has for them.
 *
 * <p>An index is a {@code long}, or a {@code String} of hexadecimal digits. Unlike H3's own, each function judges its
 * index first: what is not a valid cell is {@code E_CELL_INVALID}, what is not a directed edge {@code
 * E_DIR_EDGE_INVALID}, and a text that is not an index {@code E_FAILED}. Errors are {@link H3Exception}s.
 *
 * <p>The functions that go from cell to cell are in {@link BaseCellTable}.
 */
public final class H3 {
    /** The null index, 0, which is not valid. */
    public static final long NULL = 0;

    private H3() {}

    /** The version of the library that runs: three numbers with dots between them. */
    public static String version() {
        int number = Native.version();
        return number / 10000 + "." + number / 100 % 100 + "." + number % 100;
    }

    // ---- Cells

    /** Returns whether the number is a valid cell. */
    public static boolean isValidCell(long cell) {
        return Native.isValidCell(cell);
    }

    /** Returns whether the text is that of a valid cell. */
    public static boolean isValidCell(String cell) {
        long[] index = new long[1];
        return judge(cell, index) == 0 && Native.isValidCell(index[0]);
    }

    /**
     * Returns the resolution of a cell, 0 to 15.
     *
     * @throws H3Exception {@code E_CELL_INVALID}
     */
    public static int getResolution(long cell) {
        return field(Native.getResolution(cell), cell);
    }

    /** Returns the resolution of a cell, 0 to 15. Errors as of {@link #getResolution(long)}. */
    public static int getResolution(String cell) {
        return getResolution(stringToH3(cell));
    }

    /**
     * Returns the base cell of a cell, 0 to 121.
     *
     * @throws H3Exception {@code E_CELL_INVALID}
     */
    public static int getBaseCellNumber(long cell) {
        return field(Native.getBaseCellNumber(cell), cell);
    }

    /** Returns the base cell of a cell, 0 to 121. Errors as of {@link #getBaseCellNumber(long)}. */
    public static int getBaseCellNumber(String cell) {
        return getBaseCellNumber(stringToH3(cell));
    }

    /**
     * Returns whether a cell is a pentagon.
     *
     * @throws H3Exception {@code E_CELL_INVALID}
     */
    public static boolean isPentagon(long cell) {
        return field(Native.isPentagon(cell), cell) == 1;
    }

    /** Returns whether a cell is a pentagon. Errors as of {@link #isPentagon(long)}. */
    public static boolean isPentagon(String cell) {
        return isPentagon(stringToH3(cell));
    }

    /**
     * Returns whether the resolution of a cell is Class III, which is odd.
     *
     * @throws H3Exception {@code E_CELL_INVALID}
     */
    public static boolean isResClassIII(long cell) {
        return field(Native.isResClassIII(cell), cell) == 1;
    }

    /** Returns whether the resolution of a cell is Class III. Errors as of {@link #isResClassIII(long)}. */
    public static boolean isResClassIII(String cell) {
        return isResClassIII(stringToH3(cell));
    }

    // ---- Resolutions

    /**
     * Returns the number of cells of a resolution.
     *
     * @throws H3Exception {@code E_RES_DOMAIN}: not a resolution
     */
    public static long getNumCells(int res) {
        long count = Native.getNumCells(res);
        if (count < 0) {
            throw H3Exception.of((int) -count, "resolution " + res);
        }
        return count;
    }

    /** Returns the 122 cells of resolution 0, ascending. */
    public static List<Long> getRes0Cells() {
        long[] status = new long[1];
        return listOf(found(Native.getRes0Cells(status), status, ""));
    }

    /** Returns the 122 cells of resolution 0, ascending. */
    public static List<String> getRes0CellAddresses() {
        return textsOf(getRes0Cells());
    }

    /**
     * Returns the 12 pentagons of a resolution, ascending.
     *
     * @throws H3Exception {@code E_RES_DOMAIN}: not a resolution
     */
    public static List<Long> getPentagons(int res) {
        long[] status = new long[1];
        return listOf(found(Native.getPentagons(res, status), status, "resolution " + res));
    }

    /** Returns the 12 pentagons of a resolution, ascending. Errors as of {@link #getPentagons(int)}. */
    public static List<String> getPentagonAddresses(int res) {
        return textsOf(getPentagons(res));
    }

    // ---- Hierarchy

    /**
     * Returns the ancestor of a cell at a resolution.
     *
     * @throws H3Exception {@code E_CELL_INVALID}; {@code E_RES_DOMAIN}: not a resolution; {@code E_RES_MISMATCH}:
     *     finer than the cell's
     */
    public static long cellToParent(long cell, int res) {
        return atResolution(Native.cellToParent(cell, res), cell, res);
    }

    /** Returns the ancestor of a cell at a resolution. Errors as of {@link #cellToParent(long, int)}. */
    public static String cellToParentAddress(String cell, int res) {
        return h3ToString(cellToParent(stringToH3(cell), res));
    }

    /**
     * Returns the descendant of a cell in its center.
     *
     * @throws H3Exception {@code E_CELL_INVALID}; {@code E_RES_DOMAIN}: not a resolution, or coarser than the cell's
     */
    public static long cellToCenterChild(long cell, int res) {
        return atResolution(Native.cellToCenterChild(cell, res), cell, res);
    }

    /** Returns the descendant of a cell in its center. Errors as of {@link #cellToCenterChild(long, int)}. */
    public static String cellToCenterChild(String cell, int res) {
        return h3ToString(cellToCenterChild(stringToH3(cell), res));
    }

    /**
     * Returns the last descendant of a cell, which has the greatest number. The cells of the resolution from the one
     * in the center to the last one are the descendants of the cell, and no others. Errors as of
     * {@link #cellToCenterChild(long, int)}.
     */
    public static long cellToLastChild(long cell, int res) {
        return atResolution(Native.cellToLastChild(cell, res), cell, res);
    }

    /** Returns the last descendant of a cell. Errors as of {@link #cellToCenterChild(long, int)}. */
    public static String cellToLastChild(String cell, int res) {
        return h3ToString(cellToLastChild(stringToH3(cell), res));
    }

    /** Returns the number of descendants of a cell. Errors as of {@link #cellToCenterChild(long, int)}. */
    public static long cellToChildrenSize(long cell, int res) {
        return atResolution(Native.cellToChildrenSize(cell, res), cell, res);
    }

    /** Returns the number of descendants of a cell. Errors as of {@link #cellToCenterChild(long, int)}. */
    public static long cellToChildrenSize(String cell, int res) {
        return cellToChildrenSize(stringToH3(cell), res);
    }

    /**
     * Returns the descendants of a cell, ascending, in an array.
     *
     * @throws H3Exception as of {@link #cellToCenterChild(long, int)}; {@code E_MEMORY_ALLOC}: too many
     */
    public static long[] cellToChildrenArray(long cell, int res) {
        long[] status = new long[1];
        long[] children = Native.cellToChildren(cell, res, status);
        if (children == null) {
            throw H3Exception.of((int) status[0], cell, " at resolution " + res);
        }
        return children;
    }

    /** Returns the descendants of a cell, ascending. Errors as of {@link #cellToChildrenArray(long, int)}. */
    public static List<Long> cellToChildren(long cell, int res) {
        return listOf(cellToChildrenArray(cell, res));
    }

    /** Returns the descendants of a cell, ascending. Errors as of {@link #cellToChildrenArray(long, int)}. */
    public static List<String> cellToChildren(String cell, int res) {
        return textsOf(cellToChildren(stringToH3(cell), res));
    }

    /**
     * Returns the position of a cell, from 0 on, among the descendants of its ancestor at a resolution.
     *
     * @throws H3Exception as of {@link #cellToParent(long, int)}
     */
    public static long cellToChildPos(long cell, int res) {
        return atResolution(Native.cellToChildPos(cell, res), cell, res);
    }

    /** Returns the position of a cell. Errors as of {@link #cellToChildPos(long, int)}. */
    public static long cellToChildPos(String cell, int res) {
        return cellToChildPos(stringToH3(cell), res);
    }

    /**
     * Returns the descendant of a cell that has a position.
     *
     * @throws H3Exception {@code E_CELL_INVALID}; {@code E_RES_DOMAIN}: not a resolution; {@code E_RES_MISMATCH}:
     *     coarser than the cell's; {@code E_DOMAIN}: no descendant has the position
     */
    public static long childPosToCell(long position, long parent, int res) {
        long child = Native.childPosToCell(position, parent, res);
        if (child < 0) {
            throw H3Exception.of((int) -child, parent, " at resolution " + res + ", position " + position);
        }
        return child;
    }

    /** Returns the descendant that has a position. Errors as of {@link #childPosToCell(long, long, int)}. */
    public static String childPosToCell(long position, String parent, int res) {
        return h3ToString(childPosToCell(position, stringToH3(parent), res));
    }

    // ---- Lists

    /**
     * Returns the shortest list of cells that covers the same, ascending.
     *
     * @throws H3Exception {@code E_CELL_INVALID}; {@code E_DUPLICATE_INPUT}: a cell is listed twice, or with an
     *     ancestor of it; {@code E_MEMORY_ALLOC}
     */
    public static long[] compactCells(long[] cells) {
        long[] status = new long[1];
        return ofCells(Native.compactCells(requireNonNull(cells), status), status, cells);
    }

    /** Returns the compacted list. Errors as of {@link #compactCells(long[])}. */
    public static List<Long> compactCells(Collection<Long> cells) {
        return listOf(compactCells(arrayOf(cells)));
    }

    /** Returns the compacted list. Errors as of {@link #compactCells(long[])}. */
    public static List<String> compactCellAddresses(Collection<String> cells) {
        return textsOf(compactCells(numbersOf(cells)));
    }

    /**
     * Returns the places of two cells that overlap: of the first one that overlaps an earlier one, and of the first
     * that it overlaps. The array is empty if no two do.
     *
     * @throws H3Exception {@code E_CELL_INVALID}; {@code E_MEMORY_ALLOC}
     */
    public static int[] findOverlap(long[] cells) {
        long[] places = new long[2];
        long[] status = {Native.findOverlap(requireNonNull(cells), places)};
        ofCells(status[0] == 0 ? cells : null, status, cells);
        return places[0] < cells.length ? new int[] {(int) places[0], (int) places[1]} : new int[0];
    }

    /** Returns the places of two cells that overlap. Errors as of {@link #findOverlap(long[])}. */
    public static int[] findOverlap(Collection<Long> cells) {
        return findOverlap(arrayOf(cells));
    }

    /**
     * Returns the descendants at a resolution of the first cell, ascending, then those of the second, and so on.
     *
     * @throws H3Exception {@code E_CELL_INVALID}; {@code E_RES_DOMAIN}: not a resolution; {@code E_RES_MISMATCH}: a
     *     cell is finer; {@code E_MEMORY_ALLOC}: too many
     */
    public static long[] uncompactCells(long[] cells, int res) {
        long[] status = new long[1];
        long[] found = Native.uncompactCells(requireNonNull(cells), res, status);
        if (found == null && status[0] == H3Exception.E_RES_DOMAIN) {
            throw H3Exception.of((int) status[0], "resolution " + res);
        }
        return ofCells(found, status, cells);
    }

    /** Returns the descendants at a resolution. Errors as of {@link #uncompactCells(long[], int)}. */
    public static List<Long> uncompactCells(Collection<Long> cells, int res) {
        return listOf(uncompactCells(arrayOf(cells), res));
    }

    /** Returns the descendants at a resolution. Errors as of {@link #uncompactCells(long[], int)}. */
    public static List<String> uncompactCellAddresses(Collection<String> cells, int res) {
        return textsOf(uncompactCells(numbersOf(cells), res));
    }

    /**
     * Returns the compacted list of what the cells cover, which may repeat and overlap. {@link Region} has more.
     *
     * @throws H3Exception {@code E_CELL_INVALID}; {@code E_MEMORY_ALLOC}
     */
    public static long[] uniteCells(long[] cells) {
        long[] status = new long[1];
        return ofCells(Native.uniteCells(requireNonNull(cells), status), status, cells);
    }

    /** Returns what the cells cover, compacted. Errors as of {@link #uniteCells(long[])}. */
    public static List<Long> uniteCells(Collection<Long> cells) {
        return listOf(uniteCells(arrayOf(cells)));
    }

    /**
     * Returns the compacted list of what both lists cover, of cells that may repeat and overlap.
     *
     * @throws H3Exception {@code E_CELL_INVALID}; {@code E_MEMORY_ALLOC}
     */
    public static long[] intersectCells(long[] first, long[] second) {
        long[] status = new long[1];
        long[] found = Native.intersectCells(requireNonNull(first), requireNonNull(second), status);
        return ofCells(found, status, first, second);
    }

    /** Returns what both lists cover, compacted. Errors as of {@link #intersectCells(long[], long[])}. */
    public static List<Long> intersectCells(Collection<Long> first, Collection<Long> second) {
        return listOf(intersectCells(arrayOf(first), arrayOf(second)));
    }

    /**
     * Returns the compacted list of what the first list covers and the second does not.
     *
     * @throws H3Exception {@code E_CELL_INVALID}; {@code E_MEMORY_ALLOC}
     */
    public static long[] subtractCells(long[] first, long[] second) {
        long[] status = new long[1];
        long[] found = Native.subtractCells(requireNonNull(first), requireNonNull(second), status);
        return ofCells(found, status, first, second);
    }

    /** Returns what the first list covers beyond the second. Errors as of {@link #subtractCells(long[], long[])}. */
    public static List<Long> subtractCells(Collection<Long> first, Collection<Long> second) {
        return listOf(subtractCells(arrayOf(first), arrayOf(second)));
    }

    // ---- Directed edges

    /** Returns whether the number is a valid directed edge. */
    public static boolean isValidDirectedEdge(long edge) {
        return Native.isValidDirectedEdge(edge);
    }

    /** Returns whether the text is that of a valid directed edge. */
    public static boolean isValidDirectedEdge(String edge) {
        long[] index = new long[1];
        return judge(edge, index) == 0 && Native.isValidDirectedEdge(index[0]);
    }

    /**
     * Returns the cell that an edge leaves.
     *
     * @throws H3Exception {@code E_DIR_EDGE_INVALID}
     */
    public static long getDirectedEdgeOrigin(long edge) {
        return checked(Native.getDirectedEdgeOrigin(edge), edge);
    }

    /** Returns the cell that an edge leaves. Errors as of {@link #getDirectedEdgeOrigin(long)}. */
    public static String getDirectedEdgeOrigin(String edge) {
        return h3ToString(getDirectedEdgeOrigin(stringToH3(edge)));
    }

    /**
     * Returns the six edges that leave a cell, or the five that leave a pentagon, in ascending direction.
     *
     * @throws H3Exception {@code E_CELL_INVALID}
     */
    public static List<Long> originToDirectedEdges(long origin) {
        long[] status = new long[1];
        return listOf(found(Native.originToDirectedEdges(origin, status), status, Long.toHexString(origin)));
    }

    /** Returns the edges that leave a cell. Errors as of {@link #originToDirectedEdges(long)}. */
    public static List<String> originToDirectedEdges(String origin) {
        return textsOf(originToDirectedEdges(stringToH3(origin)));
    }

    // ---- Texts

    /**
     * Returns the index of a text: 1 to 16 hexadecimal digits, with or without {@code 0x}, between spaces, tabs and
     * carriage returns. It need not be a valid cell.
     *
     * @throws H3Exception {@code E_FAILED}: any other text
     */
    public static long stringToH3(String text) {
        long[] index = new long[1];
        int error = judge(text, index);
        if (error != 0) {
            throw H3Exception.of(error, '"' + (text.length() > 40 ? text.substring(0, 40) : text) + '"');
        }
        return index[0];
    }

    /** Returns the text of an index: lower-case hexadecimal digits. */
    public static String h3ToString(long index) {
        return Native.h3ToString(index);
    }

    // ---- What the other classes share

    /** (a character beyond those of Latin is a question mark in the bytes, which no index has) */
    private static int judge(String text, long[] index) {
        return Native.stringToH3(text.getBytes(StandardCharsets.ISO_8859_1), index);
    }

    private static int field(int value, long cell) {
        if (value < 0) {
            throw H3Exception.of(H3Exception.E_CELL_INVALID, cell);
        }
        return value;
    }

    static long checked(long result, long index) {
        if (result < 0) {
            throw H3Exception.of((int) -result, index);
        }
        return result;
    }

    private static long atResolution(long result, long cell, int res) {
        if (result < 0) {
            throw H3Exception.of((int) -result, cell, " at resolution " + res);
        }
        return result;
    }

    static long[] found(long[] list, long[] status, String about) {
        if (list == null) {
            throw H3Exception.of((int) status[0], about);
        }
        return list;
    }

    /** The list that a function of lists has returned, or its error, with the cells that it is about. */
    static long[] ofCells(long[] list, long[] status, long[]... given) {
        if (list != null) {
            return list;
        }
        int error = (int) status[0];
        long count = 0;
        for (long[] cells : given) {
            count += cells.length;
            for (int place = 0; place < cells.length && error == H3Exception.E_CELL_INVALID; place++) {
                if (!Native.isValidCell(cells[place])) {
                    throw H3Exception.at(error, cells[place], place);
                }
            }
        }
        if (error == H3Exception.E_DUPLICATE_INPUT) {
            throw overlap(given[0]);
        }
        throw H3Exception.of(error, "among " + count + " cells");
    }

    /** The error of cells that overlap, with two of them. (without memory to look for them they are left out) */
    private static H3Exception overlap(long[] cells) {
        String about = "among " + cells.length + " cells";
        long[] places = new long[2];
        if (Native.findOverlap(cells, places) != 0 || places[0] >= cells.length) {
            return H3Exception.of(H3Exception.E_DUPLICATE_INPUT, about);
        }
        int place = (int) places[0];
        return H3Exception.overlap(about + ": ", cells[place], place, cells[(int) places[1]], (int) places[1]);
    }

    static long[] arrayOf(Collection<Long> cells) {
        return cells.stream().mapToLong(Long::longValue).toArray();
    }

    private static List<Long> numbersOf(Collection<String> cells) {
        return mapped(cells.stream().mapToLong(H3::stringToH3).toArray(), Long::valueOf);
    }

    static List<Long> listOf(long[] cells) {
        return mapped(cells, Long::valueOf);
    }

    static List<String> textsOf(List<Long> cells) {
        return mapped(arrayOf(cells), H3::h3ToString);
    }

    private static <T> List<T> mapped(long[] cells, LongFunction<T> form) {
        List<T> list = new ArrayList<>(cells.length);
        for (long cell : cells) {
            list.add(form.apply(cell));
        }
        return list;
    }
}
