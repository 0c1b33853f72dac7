/**
 * Cells of H3 version 4, by whole numbers, over the proved library libh3whole: cells and their hierarchy, compaction,
 * regions and zones, and directed edges.
 *
 * <p>{@link h3whole.H3} has the functions of one index and of lists, under the names that h3-java has for them;
 * {@link h3whole.Columns} those of {@code long[]} in one call; {@link h3whole.Region}, {@link h3whole.Zones} and {@link
 * h3whole.Areas} are sets of cells, by which other cells are looked up and counted; and {@link h3whole.BaseCellTable}
 * has the functions that go from cell to cell. There are no coordinates, boundaries, cell areas or distances, no
 * undirected edges and no vertexes.
 *
 * <p>Every answer comes from the library in C, which is compiled from proved code; this package is tested, not proved.
 * All of it may be called from any number of threads at once, and a null argument is a NullPointerException.
 */
package h3whole;
