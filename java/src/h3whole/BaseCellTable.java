package h3whole;

import java.io.IOException;
import java.io.InvalidObjectException;
import java.io.ObjectInputStream;
import java.io.Serializable;
import java.nio.file.Files;
import java.nio.file.Path;
import java.util.ArrayList;
import java.util.Arrays;
import java.util.List;

/**
 * A base cell table, over which cells are walked to their neighbors: how the base cells of hexagons lie beside each
 * other. H3 does not ship one as a file: the repository's {@code tools/h3-table} makes it from H3's sources.
 *
 * <p>A table never changes, and threads may share it. A step that starts or ends in a pentagon base cell is {@code
 * E_PENTAGON}. A table that is serialized is read anew from the bytes of its file.
 */
public final class BaseCellTable implements Serializable {
    private static final long serialVersionUID = 1;

    /** How many bytes the library's table has. */
    private static final int SIZE = 1465;

    private final transient byte[] table = new byte[SIZE];
    private final transient byte[] file;

    /**
     * Reads a table from the bytes of its file.
     *
     * @throws BaseCellTableException the file is refused
     * @throws H3Exception {@code E_MEMORY_ALLOC}
     */
    public BaseCellTable(byte[] file) {
        this.file = file.clone();
        long[] fault = new long[3];
        Native.readTable(this.file, table, fault);
        if (fault[0] == BaseCellTableException.MEMORY) {
            throw H3Exception.of(H3Exception.E_MEMORY_ALLOC, "a table");
        }
        if (fault[0] != 0) {
            throw new BaseCellTableException((int) fault[0], fault[1], (int) fault[2]);
        }
    }

    /**
     * Reads the table in a file. Errors as of {@link #BaseCellTable(byte[])}.
     *
     * @throws IOException the file cannot be read
     */
    public static BaseCellTable read(Path file) throws IOException {
        return new BaseCellTable(Files.readAllBytes(file));
    }

    /**
     * Returns the cells within k steps of a cell, ring by ring: a list for each ring, from that of the cell itself on.
     *
     * @throws H3Exception {@code E_CELL_INVALID}; {@code E_DOMAIN}: k is below 0; {@code E_PENTAGON}: the cell is a
     *     pentagon, or a step meets a pentagon base cell; {@code E_MEMORY_ALLOC}: too many
     */
    public List<List<Long>> gridDiskUnsafe(long origin, int k) {
        return rings(gridDiskArray(origin, k), k);
    }

    /** Returns the same of a text. Errors as of {@link #gridDiskUnsafe(long, int)}. */
    public List<List<String>> gridDiskUnsafe(String origin, int k) {
        return textsOf(gridDiskUnsafe(H3.stringToH3(origin), k));
    }

    /** Returns the cells within k steps, as they are walked. Errors as of {@link #gridDiskUnsafe(long, int)}. */
    public long[] gridDiskArray(long origin, int k) {
        return walk(false, origin, k);
    }

    /**
     * Returns the cells within k steps of a cell, as lists by their distance. Errors as of {@link #gridDiskUnsafe(long,
     * int)}.
     */
    public List<List<Long>> gridDiskDistancesUnsafe(long origin, int k) {
        int[] distances = new int[diskSize(k)];
        long[] status = new long[1];
        long[] cells = stepped(Native.gridDiskDistances(table, origin, k, distances, status), status, origin, k);
        List<List<Long>> rings = new ArrayList<>();
        for (int place = 0; place < cells.length; place++) {
            if (distances[place] == rings.size()) {
                rings.add(new ArrayList<>());
            }
            rings.get(distances[place]).add(cells[place]);
        }
        return rings;
    }

    /** Returns the same of a text. Errors as of {@link #gridDiskUnsafe(long, int)}. */
    public List<List<String>> gridDiskDistancesUnsafe(String origin, int k) {
        return textsOf(gridDiskDistancesUnsafe(H3.stringToH3(origin), k));
    }

    /**
     * Returns the cells at k steps from a cell, in the order in which they are walked.
     *
     * @throws H3Exception as of {@link #gridDiskUnsafe(long, int)}; a pentagon is refused for k above 0 alone
     */
    public List<Long> gridRingUnsafe(long origin, int k) {
        return H3.listOf(gridRingArray(origin, k));
    }

    /** Returns the same of a text. Errors as of {@link #gridRingUnsafe(long, int)}. */
    public List<String> gridRingUnsafe(String origin, int k) {
        return H3.textsOf(gridRingUnsafe(H3.stringToH3(origin), k));
    }

    /** Returns the cells at k steps in an array. Errors as of {@link #gridRingUnsafe(long, int)}. */
    public long[] gridRingArray(long origin, int k) {
        return walk(true, origin, k);
    }

    /**
     * Returns whether a step leads from the one cell to the other.
     *
     * @throws H3Exception {@code E_CELL_INVALID}; {@code E_RES_MISMATCH}: their resolutions differ; {@code E_PENTAGON}:
     *     they differ, and the base cell of one is a pentagon
     */
    public boolean areNeighborCells(long origin, long destination) {
        return between(Native.areNeighborCells(table, origin, destination), origin, destination) == 1;
    }

    /** Returns the same of texts. Errors as of {@link #areNeighborCells(long, long)}. */
    public boolean areNeighborCells(String origin, String destination) {
        return areNeighborCells(H3.stringToH3(origin), H3.stringToH3(destination));
    }

    /**
     * Returns the edge from a cell to a neighbor.
     *
     * @throws H3Exception {@code E_CELL_INVALID}; {@code E_RES_MISMATCH}; {@code E_NOT_NEIGHBORS}: they are the same;
     *     {@code E_PENTAGON}: the base cell of one is a pentagon; {@code E_NOT_NEIGHBORS}: no step leads to the other
     */
    public long cellsToDirectedEdge(long origin, long destination) {
        return between(Native.cellsToDirectedEdge(table, origin, destination), origin, destination);
    }

    /** Returns the same of texts. Errors as of {@link #cellsToDirectedEdge(long, long)}. */
    public String cellsToDirectedEdge(String origin, String destination) {
        return H3.h3ToString(cellsToDirectedEdge(H3.stringToH3(origin), H3.stringToH3(destination)));
    }

    /**
     * Returns the cell that an edge leads to.
     *
     * @throws H3Exception {@code E_DIR_EDGE_INVALID}; {@code E_PENTAGON}: the base cell of the edge's origin, or of
     *     that cell, is a pentagon
     */
    public long getDirectedEdgeDestination(long edge) {
        return H3.checked(Native.getDirectedEdgeDestination(table, edge), edge);
    }

    /** Returns the same of a text. Errors as of {@link #getDirectedEdgeDestination(long)}. */
    public String getDirectedEdgeDestination(String edge) {
        return H3.h3ToString(getDirectedEdgeDestination(H3.stringToH3(edge)));
    }

    /** Returns the cell that an edge leaves, and the one that it leads to. Errors as of that one. */
    public List<Long> directedEdgeToCells(long edge) {
        long destination = getDirectedEdgeDestination(edge);
        return H3.listOf(new long[] {H3.getDirectedEdgeOrigin(edge), destination});
    }

    /** Returns the same of a text. Errors as of {@link #directedEdgeToCells(long)}. */
    public List<String> directedEdgeToCells(String edge) {
        return H3.textsOf(directedEdgeToCells(H3.stringToH3(edge)));
    }

    private long[] walk(boolean isRing, long origin, int k) {
        long[] status = new long[1];
        return stepped(Native.walk(isRing, table, origin, k, status), status, origin, k);
    }

    private static long[] stepped(long[] cells, long[] status, long origin, int k) {
        if (cells == null) {
            throw H3Exception.of((int) status[0], k + " steps from " + Long.toHexString(origin), origin);
        }
        return cells;
    }

    private static long between(long result, long origin, long destination) {
        if (result < 0) {
            throw H3Exception.of((int) -result, origin, " and " + Long.toHexString(destination));
        }
        return result;
    }

    /** How many cells a disk has; 0 if no array has room for them, or k is below 0: then it is refused. */
    private static int diskSize(int k) {
        double size = 3.0 * k * (k + 1.0) + 1;
        return k < 0 || size > Integer.MAX_VALUE - 8 ? 0 : (int) size;
    }

    /** The cells of a disk, a list for each ring. */
    private static List<List<Long>> rings(long[] cells, int k) {
        List<List<Long>> rings = new ArrayList<>(k + 1);
        int start = 0;
        for (int ring = 0; ring <= k; ring++) {
            int end = start + Math.max(1, 6 * ring);
            rings.add(H3.listOf(Arrays.copyOfRange(cells, start, end)));
            start = end;
        }
        return rings;
    }

    private static List<List<String>> textsOf(List<List<Long>> rings) {
        List<List<String>> texts = new ArrayList<>(rings.size());
        for (List<Long> ring : rings) {
            texts.add(H3.textsOf(ring));
        }
        return texts;
    }

    /** The serialized form of a table: the bytes of its file. */
    private static final class Form implements Serializable {
        private static final long serialVersionUID = 1;
        private final byte[] file;

        Form(byte[] file) {
            this.file = file;
        }

        private Object readResolve() throws InvalidObjectException {
            try {
                return new BaseCellTable(file);
            } catch (BaseCellTableException | H3Exception | NullPointerException error) {
                throw Zones.notRead(error);
            }
        }
    }

    private Object writeReplace() {
        return new Form(file);
    }

    private void readObject(ObjectInputStream stream) throws InvalidObjectException {
        throw new InvalidObjectException("a table is read by its form");
    }
}
