package h3whole;

/**
 * The methods in C (java/native/h3whole_java.c). One of one index returns the result, or minus the error; one of a list
 * returns it, or null with the error in {@code status[0]}; one of a column returns the first error, times 2^32, plus
 * its place.
 */
final class Native {
    static {
        Library.load();
    }

    /** The numbers of functions over columns, as in the C file. */
    static final int ARE_VALID_CELLS = 0;

    static final int ARE_PENTAGONS = 1;
    static final int ARE_RES_CLASS_III = 2;
    static final int ARE_VALID_DIRECTED_EDGES = 3;
    static final int GET_RESOLUTIONS = 4;
    static final int GET_BASE_CELL_NUMBERS = 5;
    static final int GET_DIRECTED_EDGE_ORIGINS = 6;
    static final int CELLS_TO_PARENTS = 7;
    static final int CELLS_TO_CENTER_CHILDREN = 8;
    static final int CELLS_TO_CHILDREN_SIZES = 9;
    static final int CELLS_TO_CHILD_POSITIONS = 10;
    static final int CELLS_TO_ZONES = 11;
    static final int ARE_COVERED_CELLS = 12;
    static final int CELLS_TO_LAST_CHILDREN = 13;
    static final int CELLS_TO_ZONES_PLACES = 14;

    private Native() {}

    static native int version();

    static native boolean isValidCell(long cell);

    static native boolean isValidDirectedEdge(long edge);

    /** Returns 1 or 0; this and the next three return -1 for what is not a valid cell. */
    static native int isPentagon(long cell);

    static native int isResClassIII(long cell);

    static native int getResolution(long cell);

    static native int getBaseCellNumber(long cell);

    static native long cellToParent(long cell, int res);

    static native long cellToCenterChild(long cell, int res);

    static native long cellToLastChild(long cell, int res);

    static native long cellToChildrenSize(long cell, int res);

    static native long cellToChildPos(long cell, int res);

    static native long childPosToCell(long position, long parent, int res);

    static native long getNumCells(int res);

    static native long getDirectedEdgeOrigin(long edge);

    static native long[] getRes0Cells(long[] status);

    static native long[] getPentagons(int res, long[] status);

    static native long[] originToDirectedEdges(long origin, long[] status);

    static native long[] cellToChildren(long cell, int res, long[] status);

    static native long[] compactCells(long[] cells, long[] status);

    static native long[] uniteCells(long[] cells, long[] status);

    static native long[] uncompactCells(long[] cells, int res, long[] status);

    static native long[] intersectCells(long[] first, long[] second, long[] status);

    static native long[] subtractCells(long[] first, long[] second, long[] status);

    /** Returns the error, or writes the places of two cells that overlap: the length of the list if none do. */
    static native long findOverlap(long[] cells, long[] places);

    /** Returns the error; the index is in {@code out[0]}. */
    static native int stringToH3(byte[] text, long[] out);

    static native String h3ToString(long index);

    /** Writes the table, and into {@code fault} why the file is refused: code, record or base cell, and direction. */
    static native void readTable(byte[] file, byte[] table, long[] fault);

    static native long[] walk(boolean isRing, byte[] table, long origin, int k, long[] status);

    static native long[] gridDiskDistances(byte[] table, long origin, int k, int[] distances, long[] status);

    static native long areNeighborCells(byte[] table, long origin, long destination);

    static native long cellsToDirectedEdge(byte[] table, long origin, long destination);

    static native long getDirectedEdgeDestination(byte[] table, long edge);

    /** Fills an array of as many results, of the type that the function has. */
    static native long fillColumn(int function, long[] cells, int res, Object out);

    /** Returns the address of zones, with the place of each in the list or without, for {@code freeZones}, or 0. */
    static native long zones(long[] cells, boolean hasPlaces, long[] status);

    static native void freeZones(long zones);

    static native long[] zonesInOrder(long zones, long[] status);

    static native long zoneOf(long zones, long cell);

    static native long fillByZones(int function, long zones, long[] cells, Object out);

    /** Writes the counts of the zones in their order, and then how many cells have none. */
    static native long countByZones(long zones, long[] cells, long[] counts);

    /** Returns the address of areas, each cell with the number of its area, for {@code freeZones}, or 0. */
    static native long areas(long[] cells, int[] numbers, long[] status);

    /**
     * Returns the numbers of the areas of each cell, one cell's after another's, or null without memory, and writes
     * where those of each begin. The first error, times 2^32, plus its place is in {@code status[0]}.
     */
    static native int[] cellsToAreas(long areas, long[] cells, int[] starts, long[] status);
}
