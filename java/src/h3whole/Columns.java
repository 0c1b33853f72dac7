package h3whole;

import java.util.BitSet;

/**
 * The functions over columns: one call for an array of indexes, and a result for each.
 *
 * <p>Each has two forms. One returns a new array, and throws an {@link H3Exception} for the first refused index, with
 * its place. The other fills a caller-provided array, which may be the column itself, and returns the places of
 * refused indexes, none if all went well. What is written there is 0, or -1 if the results are not indexes, or false.
 * It throws {@code E_MEMORY_BOUNDS} if the array is shorter than the column. Both throw {@code E_RES_DOMAIN} for a
 * number that is not a resolution, also for an empty column. {@link H3} says which errors there are.
 *
 * <p>While 65,536 cells at a time are done, the garbage collector waits for a call: a millisecond at most.
 */
public final class Columns {
    private Columns() {}

    /** Returns whether each number is a valid cell. It never throws for an index. */
    public static boolean[] areValidCells(long[] cells) {
        return truths(Native.ARE_VALID_CELLS, cells);
    }

    /** Returns whether each number is a valid directed edge. It never throws for an index. */
    public static boolean[] areValidDirectedEdges(long[] edges) {
        return truths(Native.ARE_VALID_DIRECTED_EDGES, edges);
    }

    /** Returns whether each cell is a pentagon. */
    public static boolean[] arePentagons(long[] cells) {
        return truths(Native.ARE_PENTAGONS, cells);
    }

    /** Fills an array with whether each cell is a pentagon, and returns the places of those not valid. */
    public static BitSet arePentagons(long[] cells, boolean[] out) {
        return fillTruths(Native.ARE_PENTAGONS, cells, out);
    }

    /** Returns whether the resolution of each cell is Class III. */
    public static boolean[] areResClassIII(long[] cells) {
        return truths(Native.ARE_RES_CLASS_III, cells);
    }

    /** Fills an array with whether each resolution is Class III, and returns the places of cells not valid. */
    public static BitSet areResClassIII(long[] cells, boolean[] out) {
        return fillTruths(Native.ARE_RES_CLASS_III, cells, out);
    }

    /** Returns the resolution of each cell. */
    public static int[] getResolutions(long[] cells) {
        return ints(Native.GET_RESOLUTIONS, cells);
    }

    /** Fills an array with the resolutions, and returns the places of cells not valid, where it is -1. */
    public static BitSet getResolutions(long[] cells, int[] out) {
        return fillInts(Native.GET_RESOLUTIONS, cells, out);
    }

    /** Returns the base cell of each cell. */
    public static int[] getBaseCellNumbers(long[] cells) {
        return ints(Native.GET_BASE_CELL_NUMBERS, cells);
    }

    /** Fills an array with the base cells, and returns the places of cells not valid, where it is -1. */
    public static BitSet getBaseCellNumbers(long[] cells, int[] out) {
        return fillInts(Native.GET_BASE_CELL_NUMBERS, cells, out);
    }

    /** Returns the cell that each edge leaves. */
    public static long[] getDirectedEdgeOrigins(long[] edges) {
        return longs(Native.GET_DIRECTED_EDGE_ORIGINS, edges, 0);
    }

    /** Fills an array with the origins, and returns the places of edges not valid, where it is 0. */
    public static BitSet getDirectedEdgeOrigins(long[] edges, long[] out) {
        return fillLongs(Native.GET_DIRECTED_EDGE_ORIGINS, edges, 0, out, H3.NULL);
    }

    /** Returns the ancestor of each cell at a resolution. */
    public static long[] cellsToParents(long[] cells, int res) {
        return longs(Native.CELLS_TO_PARENTS, cells, res);
    }

    /** Fills an array with the ancestors, and returns the places of refused cells, where it is 0. */
    public static BitSet cellsToParents(long[] cells, int res, long[] out) {
        return fillLongs(Native.CELLS_TO_PARENTS, cells, res, out, H3.NULL);
    }

    /** Returns the descendant in the center of each cell. */
    public static long[] cellsToCenterChildren(long[] cells, int res) {
        return longs(Native.CELLS_TO_CENTER_CHILDREN, cells, res);
    }

    /** Fills an array with the center children, and returns the places of refused cells, where it is 0. */
    public static BitSet cellsToCenterChildren(long[] cells, int res, long[] out) {
        return fillLongs(Native.CELLS_TO_CENTER_CHILDREN, cells, res, out, H3.NULL);
    }

    /** Returns the last descendant of each cell. */
    public static long[] cellsToLastChildren(long[] cells, int res) {
        return longs(Native.CELLS_TO_LAST_CHILDREN, cells, res);
    }

    /** Fills an array with the last children, and returns the places of refused cells, where it is 0. */
    public static BitSet cellsToLastChildren(long[] cells, int res, long[] out) {
        return fillLongs(Native.CELLS_TO_LAST_CHILDREN, cells, res, out, H3.NULL);
    }

    /** Returns the number of descendants of each cell. */
    public static long[] cellsToChildrenSizes(long[] cells, int res) {
        return longs(Native.CELLS_TO_CHILDREN_SIZES, cells, res);
    }

    /** Fills an array with the numbers of descendants, and returns the places of refused cells, where it is -1. */
    public static BitSet cellsToChildrenSizes(long[] cells, int res, long[] out) {
        return fillLongs(Native.CELLS_TO_CHILDREN_SIZES, cells, res, out, -1);
    }

    /** Returns the position of each cell among the descendants of its ancestor. */
    public static long[] cellsToChildPositions(long[] cells, int res) {
        return longs(Native.CELLS_TO_CHILD_POSITIONS, cells, res);
    }

    /** Fills an array with the positions, and returns the places of refused cells, where it is -1. */
    public static BitSet cellsToChildPositions(long[] cells, int res, long[] out) {
        return fillLongs(Native.CELLS_TO_CHILD_POSITIONS, cells, res, out, -1);
    }

    private static long[] longs(int function, long[] cells, int res) {
        long[] out = new long[cells.length];
        check(Native.fillColumn(function, cells, res, out), cells, res);
        return out;
    }

    private static int[] ints(int function, long[] cells) {
        int[] out = new int[cells.length];
        check(Native.fillColumn(function, cells, 0, out), cells, 0);
        return out;
    }

    private static boolean[] truths(int function, long[] cells) {
        boolean[] out = new boolean[cells.length];
        check(Native.fillColumn(function, cells, 0, out), cells, 0);
        return out;
    }

    private static BitSet fillLongs(int function, long[] cells, int res, long[] out, long missing) {
        checkRoom(cells.length, out.length);
        long status = checkedResolution(Native.fillColumn(function, cells, res, out), res);
        return missing(status, cells.length, out, missing);
    }

    private static BitSet fillInts(int function, long[] cells, int[] out) {
        checkRoom(cells.length, out.length);
        long status = checkedResolution(Native.fillColumn(function, cells, 0, out), 0);
        BitSet refused = new BitSet();
        for (int place = firstPlace(status, cells.length); place < cells.length; place++) {
            refused.set(place, out[place] == -1);
        }
        return refused;
    }

    private static BitSet fillTruths(int function, long[] cells, boolean[] out) {
        checkRoom(cells.length, out.length);
        return missingCells(checkedResolution(Native.fillColumn(function, cells, 0, out), 0), cells);
    }

    static void checkRoom(int wanted, int room) {
        if (room < wanted) {
            throw H3Exception.of(H3Exception.E_MEMORY_BOUNDS, "room for " + room + " of " + wanted);
        }
    }

    /** Throws the error of a column, with its place. */
    static void check(long status, long[] cells, int res) {
        int error = (int) (status >>> 32);
        if (error != 0) {
            checkedResolution(status, res);
            throw H3Exception.at(error, cells[(int) status], (int) status);
        }
    }

    /** Throws the error that is about no place: the resolution, or want of memory. */
    static long checkedResolution(long status, int res) {
        int error = (int) (status >>> 32);
        if (error != 0 && (int) status == -1) {
            throw H3Exception.of(error, error == H3Exception.E_RES_DOMAIN ? "resolution " + res : "");
        }
        return status;
    }

    /** The place of the first error, or the length of the column. */
    private static int firstPlace(long status, int length) {
        return status >>> 32 == 0 ? length : (int) status;
    }

    /** The places of a column at which there is the value of a refused index. */
    private static BitSet missing(long status, int length, long[] out, long none) {
        BitSet refused = new BitSet();
        for (int place = firstPlace(status, length); place < length; place++) {
            refused.set(place, out[place] == none);
        }
        return refused;
    }

    /** The places of a column that are not valid cells, which are all that is refused. */
    static BitSet missingCells(long status, long[] cells) {
        BitSet refused = new BitSet();
        for (int place = firstPlace(status, cells.length); place < cells.length; place++) {
            refused.set(place, !Native.isValidCell(cells[place]));
        }
        return refused;
    }
}
