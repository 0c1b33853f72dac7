package h3whole;

import static java.util.Objects.requireNonNull;

/**
 * Cells of which no two overlap, in memory outside of Java's heap, in the order in which others are looked up. Threads
 * may share it.
 */
final class Order {
    private final Memory memory = new Memory();

    /** (the places of the cells in the list are for {@code CELLS_TO_ZONES_PLACES}) */
    Order(long[] cells, boolean hasPlaces) {
        long[] status = new long[1];
        if (!memory.take(Native.zones(requireNonNull(cells), hasPlaces, status))) {
            H3.ofCells(null, status, cells);
        }
    }

    void close() {
        memory.close();
    }

    long[] cells() {
        long address = memory.enter();
        try {
            long[] status = new long[1];
            return H3.found(Native.zonesInOrder(address, status), status, "");
        } finally {
            memory.leave();
        }
    }

    /** The zone of a cell, or 0. */
    long zoneOf(long cell) {
        long address = memory.enter();
        try {
            return H3.checked(Native.zoneOf(address, cell), cell);
        } finally {
            memory.leave();
        }
    }

    /** Fills an array by a function over zones, and returns the first error with its place. */
    long fill(int function, long[] cells, Object out) {
        long address = memory.enter();
        try {
            return Native.fillByZones(function, address, cells, out);
        } finally {
            memory.leave();
        }
    }

    /** Counts cells: the same. */
    long count(long[] cells, long[] counts) {
        long address = memory.enter();
        try {
            return Native.countByZones(address, requireNonNull(cells), counts);
        } finally {
            memory.leave();
        }
    }
}
