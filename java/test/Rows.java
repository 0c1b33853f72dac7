import h3whole.AreaCounts;
import h3whole.AreaLists;
import h3whole.Areas;
import h3whole.BaseCellTable;
import h3whole.BaseCellTableException;
import h3whole.Columns;
import h3whole.Counts;
import h3whole.H3;
import h3whole.H3Exception;
import h3whole.Region;
import h3whole.Zones;
import java.lang.reflect.Array;
import java.lang.reflect.InvocationTargetException;
import java.lang.reflect.Method;
import java.lang.reflect.Modifier;
import java.nio.charset.StandardCharsets;
import java.util.ArrayList;
import java.util.Arrays;
import java.util.BitSet;
import java.util.Collections;
import java.util.List;

/** Worked values of every function, worked out from H3's definitions, and each error. */
final class Rows {
    private static final String CELL = "85283473fffffff";
    private static final long INDEX = 0x85283473fffffffL;
    private static final long PARENT = 0x8428347ffffffffL;
    private static final long PENTAGON = 0x8009fffffffffffL;
    private static final long EDGE = 0x115283473fffffffL;
    private static final long NONE = 0x81087ffffffffffL;
    private static final List<String> CHILDREN =
            List.of(
                    "862834707ffffff",
                    "86283470fffffff",
                    "862834717ffffff",
                    "86283471fffffff",
                    "862834727ffffff",
                    "86283472fffffff",
                    "862834737ffffff");
    private static final List<String> OF_PENTAGON =
            List.of(
                    "81083ffffffffff",
                    "8108bffffffffff",
                    "8108fffffffffff",
                    "81093ffffffffff",
                    "81097ffffffffff",
                    "8109bffffffffff");
    private static final List<String> OF_PARENT =
            List.of(
                    "85283463fffffff",
                    "85283467fffffff",
                    "8528346bfffffff",
                    "8528346ffffffff",
                    "85283473fffffff",
                    "85283477fffffff",
                    "8528347bfffffff");

    private Rows() {}

    static List<Long> numbers(List<String> texts) {
        List<Long> numbers = new ArrayList<>();
        texts.forEach(text -> numbers.add(Long.parseUnsignedLong(text, 16)));
        return numbers;
    }

    static long[] column(String... texts) {
        return numbers(List.of(texts)).stream().mapToLong(Long::longValue).toArray();
    }

    static long[] column(List<String> texts) {
        return column(texts.toArray(new String[0]));
    }

    private static void cells() {
        Check.same("the version", H3.version().matches("[0-9]+\\.[0-9]+\\.[0-9]+"), true);
        for (String text : List.of(CELL, "0X85283473FFFFFFF", " \t85283473fffffff\r")) {
            Check.same(text, H3.isValidCell(text), true);
        }
        for (String text :
                List.of(
                        "81087ffffffffff",
                        "80f5fffffffffff",
                        "8109fffffffffff",
                        "885283473fffffff",
                        "115283473fffffff",
                        "0",
                        "xyz",
                        "",
                        "00085283473fffffff",
                        "85283473fffffff\u0661",
                        "8528347\u00333fffffff\u0100")) {
            Check.same(text, H3.isValidCell(text), false);
        }
        Check.same("a cell", H3.isValidCell(INDEX), true);
        Check.same("an edge", H3.isValidCell(EDGE), false);
        Check.same("resolution", H3.getResolution(INDEX), 5);
        Check.same("resolution", H3.getResolution(CELL), 5);
        Check.same("base cell", H3.getBaseCellNumber(INDEX), 20);
        Check.same("base cell", H3.getBaseCellNumber(CELL), 20);
        Check.same("pentagon", H3.isPentagon(PENTAGON), true);
        Check.same("hexagon", H3.isPentagon(CELL), false);
        Check.same("Class III", H3.isResClassIII(INDEX), true);
        Check.same("Class II", H3.isResClassIII("8428347ffffffff"), false);
        String invalid = "error 5: E_CELL_INVALID: 81087ffffffffff";
        Check.refused(invalid, () -> H3.getResolution(NONE));
        Check.refused(invalid, () -> H3.getBaseCellNumber(NONE));
        Check.refused(invalid, () -> H3.isPentagon(NONE));
        Check.refused(invalid, () -> H3.isResClassIII(NONE));
        Check.refused("error 1: E_FAILED: \"xyz\"", () -> H3.getResolution("xyz"));
    }

    private static void resolutions() {
        Check.same("cells of 15", H3.getNumCells(15), 569707381193162L);
        Check.same("cells of 0", H3.getNumCells(0), 122L);
        Check.refused("error 4: E_RES_DOMAIN: resolution 16", () -> H3.getNumCells(16));
        Check.refused("error 4: E_RES_DOMAIN: resolution -1", () -> H3.getNumCells(-1));
        Check.same("base cells", H3.getRes0Cells().size(), 122);
        Check.same("the first", H3.getRes0CellAddresses().get(0), "8001fffffffffff");
        Check.same("the last", H3.getRes0Cells().get(121), 0x80f3fffffffffffL);
        List<String> pentagons =
                List.of(
                        "8009fffffffffff",
                        "801dfffffffffff",
                        "8031fffffffffff",
                        "804dfffffffffff",
                        "8063fffffffffff",
                        "8075fffffffffff",
                        "807ffffffffffff",
                        "8091fffffffffff",
                        "80a7fffffffffff",
                        "80c3fffffffffff",
                        "80d7fffffffffff",
                        "80ebfffffffffff");
        Check.same("pentagons", H3.getPentagonAddresses(0), pentagons);
        Check.same("pentagons", H3.getPentagons(0), numbers(pentagons));
        Check.refused("error 4: E_RES_DOMAIN: resolution 16", () -> H3.getPentagons(16));
    }

    private static void hierarchy() {
        Check.same("parent", H3.cellToParent(INDEX, 4), PARENT);
        Check.same("parent", H3.cellToParentAddress(CELL, 4), "8428347ffffffff");
        Check.same("itself", H3.cellToParent(INDEX, 5), INDEX);
        Check.refused("error 12: E_RES_MISMATCH: 85283473fffffff at resolution 6", () -> H3.cellToParent(INDEX, 6));
        Check.refused("error 4: E_RES_DOMAIN: 85283473fffffff at resolution 16", () -> H3.cellToParent(INDEX, 16));
        Check.refused("error 5: E_CELL_INVALID: 81087ffffffffff at resolution 0", () -> H3.cellToParent(NONE, 0));
        Check.same("children", H3.cellToChildren(CELL, 6), CHILDREN);
        Check.same("children", H3.cellToChildren(INDEX, 6), numbers(CHILDREN));
        Check.same("children", H3.cellToChildrenArray(INDEX, 6), column(CHILDREN));
        Check.same("of a pentagon", H3.cellToChildren("8009fffffffffff", 1), OF_PENTAGON);
        Check.refused("error 4: E_RES_DOMAIN: 85283473fffffff at resolution 4", () -> H3.cellToChildren(CELL, 4));
        Check.same("sizes", H3.cellToChildrenSize("8029fffffffffff", 15), 4747561509943L);
        Check.same("sizes", H3.cellToChildrenSize(PENTAGON, 15), 3956301258286L);
        Check.refused(
                "error 13: E_MEMORY_ALLOC: 8009fffffffffff at resolution 15", () -> H3.cellToChildren(PENTAGON, 15));
        Check.same("position", H3.cellToChildPos(INDEX, 0), 2279L);
        Check.same("position", H3.cellToChildPos(CELL, 5), 0L);
        Check.same("the last", H3.cellToChildPos("8209b7fffffffff", 0), 40L);
        Check.same("at a position", H3.childPosToCell(2279, "8029fffffffffff", 5), CELL);
        Check.same("at a position", H3.childPosToCell(2279, 0x8029fffffffffffL, 5), INDEX);
        Check.refused(
                "error 2: E_DOMAIN: 8009fffffffffff at resolution 2, position 41",
                () -> H3.childPosToCell(41, PENTAGON, 2));
        Check.refused(
                "error 2: E_DOMAIN: 8009fffffffffff at resolution 2, position -1",
                () -> H3.childPosToCell(-1, PENTAGON, 2));
        Check.same("center", H3.cellToCenterChild(CELL, 15), "8f2834700000000");
        Check.same("center", H3.cellToCenterChild(INDEX, 15), 0x8f2834700000000L);
        Check.refused("error 4: E_RES_DOMAIN: 85283473fffffff at resolution 4", () -> H3.cellToCenterChild(CELL, 4));
        Check.same("last", H3.cellToLastChild(CELL, 7), "872834736ffffff");
        Check.same("last", H3.cellToLastChild(INDEX, 5), INDEX);
        Check.same("last", H3.cellToLastChild("8009fffffffffff", 1), "8109bffffffffff");
        Check.refused("error 4: E_RES_DOMAIN: 85283473fffffff at resolution 4", () -> H3.cellToLastChild(CELL, 4));
    }

    private static void lists() {
        List<String> reversed = new ArrayList<>(CHILDREN);
        Collections.reverse(reversed);
        Check.same("seven", H3.compactCellAddresses(reversed), List.of(CELL));
        Check.same("seven", H3.compactCells(numbers(reversed)), List.of(INDEX));
        Check.same("six", H3.compactCellAddresses(OF_PENTAGON), List.of("8009fffffffffff"));
        Check.same("five", H3.compactCellAddresses(OF_PENTAGON.subList(0, 5)), OF_PENTAGON.subList(0, 5));
        Check.same("none", H3.compactCells(List.of()), List.of());
        Check.same("49", H3.compactCells(H3.cellToChildrenArray(0x8029fffffffffffL, 2)), column("8029fffffffffff"));
        overlaps();
        Check.refused(
                "error 5: E_CELL_INVALID: 81087ffffffffff at place 1",
                () -> H3.compactCells(new long[] {INDEX, NONE}));
        Check.refused("error 1: E_FAILED: \"xyz\"", () -> H3.compactCellAddresses(List.of(CELL, "xyz")));
        Check.same("uncompacted", H3.uncompactCellAddresses(List.of(CELL), 6), CHILDREN);
        Check.same("uncompacted", H3.uncompactCells(List.of(INDEX), 6), numbers(CHILDREN));
        Check.same("no cells", H3.uncompactCells(new long[0], 6), new long[0]);
        List<String> both = new ArrayList<>(OF_PENTAGON);
        both.add("81283ffffffffff");
        Check.same("two", H3.uncompactCells(column("8009fffffffffff", "81283ffffffffff"), 1), column(both));
        Check.refused("error 12: E_RES_MISMATCH: among 1 cells", () -> H3.uncompactCells(new long[] {INDEX}, 4));
        Check.refused("error 4: E_RES_DOMAIN: resolution 16", () -> H3.uncompactCells(new long[] {INDEX}, 16));
        Check.refused("error 4: E_RES_DOMAIN: resolution -1", () -> H3.uncompactCells(new long[0], -1));
        Check.refused("error 13: E_MEMORY_ALLOC: among 1 cells", () -> H3.uncompactCells(new long[] {PENTAGON}, 15));
        Check.refused(
                "error 5: E_CELL_INVALID: 81087ffffffffff at place 1",
                () -> H3.uncompactCells(new long[] {PENTAGON, NONE}, 16));
        Check.thrown(NullPointerException.class, () -> H3.compactCells((long[]) null));
        Check.thrown(NullPointerException.class, () -> H3.isValidCell((String) null));
    }

    /** Cells that overlap are named, with their places. */
    private static void overlaps() {
        String about = "error 10: E_DUPLICATE_INPUT: among ";
        String twice = about + "2 cells: 85283473fffffff at place 1 overlaps 85283473fffffff at place 0";
        String child = about + "3 cells: 85283473fffffff at place 2 overlaps 8428347ffffffff at place 1";
        String parent = about + "4 cells: 8428347ffffffff at place 3 overlaps 85283477fffffff at place 1";
        long[] children = {PENTAGON, PARENT, INDEX};
        long[] parents = {PENTAGON, INDEX + (1L << 30), INDEX, PARENT};
        Check.refused(twice, () -> H3.compactCellAddresses(List.of(CELL, CELL)));
        Check.refused(twice, () -> Zones.of(List.of(INDEX, INDEX)));
        Check.refused(child, () -> H3.compactCells(children));
        Check.refused(child, () -> new Zones(children));
        Check.refused(parent, () -> H3.compactCells(parents));
        Check.refused(parent, () -> new Zones(parents));
        Check.same("the places", H3.findOverlap(children), new int[] {2, 1});
        Check.same("the places", H3.findOverlap(List.of(PENTAGON, INDEX, PARENT, INDEX)), new int[] {2, 1});
        Check.same("no two", H3.findOverlap(new long[] {PENTAGON, INDEX}), new int[0]);
        Check.same("of none", H3.findOverlap(new long[0]), new int[0]);
        Check.refused(
                "error 5: E_CELL_INVALID: 81087ffffffffff at place 2",
                () -> H3.findOverlap(new long[] {INDEX, INDEX, NONE}));
        try {
            new Zones(parents);
            Check.that("an error", false);
        } catch (H3Exception error) {
            Check.same("its value", error.getValue(), PARENT);
            Check.same("its place", error.getPlace(), 3L);
        }
    }

    private static void regions() {
        List<String> some = List.of(OF_PARENT.get(0), OF_PARENT.get(1), OF_PARENT.get(2));
        List<String> overlapping = new ArrayList<>(some);
        overlapping.addAll(List.of("8428347ffffffff", OF_PARENT.get(0), OF_PARENT.get(1)));
        Check.same("united", H3.uniteCells(numbers(overlapping)), List.of(PARENT));
        Check.same("united", new Region(column(overlapping)).toArray(), new long[] {PARENT});
        Check.same("united", new Region(new long[0]).isEmpty(), true);
        Region parent = new Region(new long[] {PARENT});
        Region cell = new Region(new long[] {INDEX});
        List<String> six = new ArrayList<>(OF_PARENT);
        six.remove(CELL);
        Check.same("the other six", parent.difference(cell).toArray(), column(six));
        List<String> twelve = new ArrayList<>(six);
        twelve.addAll(CHILDREN.subList(1, 7));
        Region first = new Region(column(CHILDREN.get(0)));
        Check.same("twelve", parent.difference(first).toArray(), column(twelve));
        Check.same("nothing", parent.difference(parent).size(), 0);
        Check.same(
                "beside a pentagon",
                H3.subtractCells(new long[] {PENTAGON}, column("820807fffffffff")),
                column(
                        "8108bffffffffff",
                        "8108fffffffffff",
                        "81093ffffffffff",
                        "81097ffffffffff",
                        "8109bffffffffff",
                        "820817fffffffff",
                        "82081ffffffffff",
                        "820827fffffffff",
                        "82082ffffffffff",
                        "820837fffffffff"));
        Check.same("shared", H3.intersectCells(numbers(OF_PARENT), List.of(PARENT)), List.of(PARENT));
        Check.same(
                "shared",
                parent.intersection(new Region(column(CELL, "862834757ffffff", "8528340ffffffff"))).toArray(),
                column(CELL, "862834757ffffff"));
        Check.same("subtracted", H3.subtractCells(List.of(INDEX), List.of(PARENT)), List.of());
        Check.same("again", cell.union(parent.difference(cell)), parent);
        Check.same("a hash", cell.union(parent.difference(cell)).hashCode(), parent.hashCode());
        Check.same("covers", parent.covers(cell), true);
        Check.same("covers", cell.covers(parent), false);
        Check.same("covers", parent.covers(INDEX), true);
        long[] asked = {INDEX, PENTAGON, NONE};
        boolean[] out = {false, true, true};
        Check.same("missing", parent.covers(asked, out), BitSet.valueOf(new long[] {4}));
        Check.same("covered", out, new boolean[] {true, false, false});
        Check.refused("error 5: E_CELL_INVALID: 81087ffffffffff at place 2", () -> parent.covers(asked));
        Check.refused("error 5: E_CELL_INVALID: 81087ffffffffff", () -> parent.covers(NONE));
        Check.refused("error 5: E_CELL_INVALID: 81087ffffffffff at place 0", () -> new Region(new long[] {NONE}));
        Check.refused(
                "error 5: E_CELL_INVALID: 81087ffffffffff at place 1",
                () -> H3.subtractCells(new long[] {INDEX}, new long[] {INDEX, NONE}));
        Check.same("a text", cell.toString(), "Region of 1 cells");
        cell.close();
        Check.thrown(IllegalStateException.class, () -> cell.covers(INDEX));
    }

    private static void zones() {
        Zones zones = new Zones(column(CELL, "8009fffffffffff"));
        long[] points = column(CELL, "862834707ffffff", "8428347ffffffff", CELL);
        Check.same("zones", zones.toArray(), new long[] {PENTAGON, INDEX});
        Check.same("zones of", zones.zonesOf(points), new long[] {INDEX, INDEX, 0, INDEX});
        Check.same("zone of", zones.zoneOf(points[1]), INDEX);
        Check.same("zone of", zones.zoneOf(PARENT), 0L);
        Check.same("places of", zones.placesOf(points), new int[] {0, 0, -1, 0});
        Check.same("place of", zones.placeOf(PENTAGON), 1);
        Check.same("place of", zones.placeOf(PARENT), -1);
        Check.same("covers", zones.covers(PARENT), false);
        Check.same("covers", zones.covers(points), new boolean[] {true, true, false, true});
        Counts counts = zones.count(points);
        Check.same("counts", counts.counts(), new long[] {0, 3});
        Check.same("counts", counts.toMap().toString(), "{" + PENTAGON + "=0, " + INDEX + "=3}");
        Check.same("others", counts.others(), 1L);
        Check.same("of", counts.of(INDEX), 3L);
        Check.thrown(IllegalArgumentException.class, () -> counts.of(PARENT));
        Check.same("plus", counts.plus(counts), zones.count(column(
                CELL, "862834707ffffff", "8428347ffffffff", CELL, CELL, "862834707ffffff", "8428347ffffffff", CELL)));
        Check.thrown(IllegalArgumentException.class, () -> counts.plus(new Zones(new long[0]).count(points)));
        long[] mixed = {INDEX, NONE, PARENT, 0};
        Check.refused("error 5: E_CELL_INVALID: 81087ffffffffff at place 1", () -> zones.count(mixed));
        Check.refused("error 5: E_CELL_INVALID: 81087ffffffffff at place 1", () -> zones.zonesOf(mixed));
        Check.refused("error 5: E_CELL_INVALID: 81087ffffffffff", () -> zones.zoneOf(NONE));
        Check.refused("error 5: E_CELL_INVALID: 81087ffffffffff", () -> zones.placeOf(NONE));
        Check.refused("error 5: E_CELL_INVALID: 81087ffffffffff at place 1", () -> zones.placesOf(mixed));
        Check.refused("error 14: E_MEMORY_BOUNDS: room for 1 of 4", () -> zones.placesOf(points, new int[1]));
        int[] placed = new int[mixed.length];
        Check.same("places not valid", zones.placesOf(mixed, placed), BitSet.valueOf(new long[] {10}));
        Check.same("no place", placed[1], -1);
        Check.same("refused", zones.countValid(mixed).toString(),
                "{" + PENTAGON + "=0, " + INDEX + "=1}, others 1, refused 2");
        Check.same("in place", zones.zonesOf(mixed, mixed), BitSet.valueOf(new long[] {10}));
        Check.same("in place", mixed, new long[] {INDEX, 0, 0, 0});
        Check.refused(
                "error 14: E_MEMORY_BOUNDS: room for 1 of 4", () -> zones.zonesOf(points, new long[1]));
        Check.refused("error 5: E_CELL_INVALID: 0 at place 0", () -> new Zones(new long[1]));
        Check.same("no zones", new Zones(new long[0]).count(points).toString(), "{}, others 4, refused 0");
        Check.same("equal", zones, Zones.of(List.of(PENTAGON, INDEX)));
        Check.same("a hash", zones.hashCode(), Zones.of(List.of(PENTAGON, INDEX)).hashCode());
        zones.close();
        zones.close();
        Check.thrown(IllegalStateException.class, () -> zones.zoneOf(INDEX));
        Check.thrown(IllegalStateException.class, () -> zones.count(points));
    }

    private static void areas() {
        int[] numbers = {0, 1, 0, 2};
        long[] cells = column(CELL, "85283477fffffff", CELL, "8428347ffffffff");
        Areas areas = new Areas(cells, numbers);
        long[] points = column(CELL, "8528347bfffffff", "8528340ffffffff", "85283477fffffff", "8428347ffffffff");
        AreaLists lists = areas.areasOf(points);
        Check.same("lists", lists.toArrays(), new int[][] {{2, 0}, {2}, {}, {2, 1}, {2}});
        Check.same("starts", lists.starts(), new int[] {0, 2, 3, 3, 5, 6});
        Check.same("numbers", lists.numbers(), new int[] {2, 0, 2, 2, 1, 2});
        Check.same("places", lists.places(), new int[] {0, 0, 1, 3, 3, 4});
        Check.same("size", lists.size(), 5);
        Check.same("of", lists.of(3), new int[] {2, 1});
        Check.same("none missing", lists.missing(), new BitSet());
        Check.same("a text", lists.toString(), "Lists of the areas of 5 cells, 6 in all");
        Check.same("the same", areas.validAreasOf(points), lists);
        Check.same("a hash", areas.validAreasOf(points).hashCode(), lists.hashCode());
        Check.that("other lists", !lists.equals(areas.areasOf(new long[] {INDEX})) && !lists.equals(null));
        Check.thrown(IndexOutOfBoundsException.class, () -> lists.of(-1));
        Check.thrown(IndexOutOfBoundsException.class, () -> lists.of(5));
        Check.same("of one", areas.areasOf(0x862834707ffffffL), new int[] {2, 0});
        Check.same("of none", areas.areasOf(PENTAGON), new int[0]);
        Check.same("no points", areas.areasOf(new long[0]).starts(), new int[1]);
        Check.same("no areas", new Areas(new long[0], new int[0]).areasOf(points).toArrays(), new int[5][0]);
        Check.same("the numbers", areas.numbers(), new int[] {0, 1, 2});
        Check.same("how many", areas.size(), 3);
        Check.same("a text", areas.toString(), "3 areas of 3 cells");
        Check.same("equal", areas, Areas.of(List.of(PARENT, cells[1], INDEX), List.of(2, 1, 0)));
        Check.same("a hash", areas.hashCode(), Areas.of(List.of(PARENT, cells[1], INDEX), List.of(2, 1, 0)).hashCode());
        Check.that("others", !areas.equals(new Areas(cells, new int[] {0, 1, 2, 2})) && !areas.equals(null));
        cells[0] = PENTAGON;
        lists.numbers()[0] = lists.starts()[1] = lists.places()[0] = lists.of(0)[0] = numbers[3] = 9;
        lists.missing().set(0);
        areas.numbers()[0] = 9;
        Check.same("what was given may change", areas.areasOf(points), lists);
        Check.same("what was returned may change", areas.validAreasOf(points).toArrays(), lists.toArrays());
        areaOrder();
        areaErrors(areas);
        areaCounts(areas, points);
        areas.close();
        areas.close();
        Check.thrown(IllegalStateException.class, () -> areas.areasOf(INDEX));
        Check.thrown(IllegalStateException.class, () -> areas.areasOf(points));
        Check.thrown(IllegalStateException.class, () -> areas.count(points));
    }

    /** By the coarsest cell of each area, and not by the finest, then by number; twins and children add nothing. */
    private static void areaOrder() {
        long[] cells = {INDEX, PARENT, INDEX, INDEX, PARENT, 0x8029fffffffffffL, INDEX};
        Areas areas = new Areas(cells, new int[] {3, 1, Integer.MIN_VALUE, 1, -1, Integer.MAX_VALUE, 0});
        Check.same("an order", areas.areasOf(INDEX), new int[] {Integer.MAX_VALUE, -1, 1, Integer.MIN_VALUE, 0, 3});
        Check.same("an order", areas.areasOf(PARENT), new int[] {Integer.MAX_VALUE, -1, 1});
        Check.same("numbers", areas.numbers(), new int[] {Integer.MIN_VALUE, -1, 0, 1, 3, Integer.MAX_VALUE});
        long[] twins = {INDEX, INDEX, PARENT, INDEX};
        Check.same("twins", new Areas(twins, new int[] {4, 5, 4, 4}).areasOf(INDEX), new int[] {4, 5});
        Check.same("twins", new Areas(twins, new int[4]).areasOf(new long[] {INDEX, INDEX}).numbers(), new int[2]);
        // (more than two areas of each cell: there is room at the second time)
        long[] column = new long[70000];
        Arrays.fill(column, INDEX);
        AreaLists lists = areas.areasOf(column);
        Check.same("all", lists.numbers().length, 420000);
        Check.same("the last", lists.of(69999), areas.areasOf(INDEX));
    }

    private static void areaErrors(Areas areas) {
        long[] mixed = {INDEX, NONE, PENTAGON, 0};
        String at = "error 5: E_CELL_INVALID: 81087ffffffffff at place 1";
        Check.refused(at, () -> areas.areasOf(mixed));
        Check.refused(at, () -> areas.count(mixed));
        Check.refused(at, () -> new Areas(mixed, new int[4]));
        Check.refused(at, () -> Areas.of(List.of(INDEX, NONE, 0L), List.of(5, 5, 5)));
        Check.refused("error 5: E_CELL_INVALID: 81087ffffffffff", () -> areas.areasOf(NONE));
        Check.refused("error 5: E_CELL_INVALID: ffffffffffffffff at place 0", () -> areas.areasOf(new long[] {-1}));
        AreaLists lists = areas.validAreasOf(mixed);
        Check.same("missing", lists.missing(), BitSet.valueOf(new long[] {10}));
        Check.same("missing", lists.toArrays(), new int[][] {{2, 0}, {}, {}, {}});
        Check.that("missing is not none", !areas.validAreasOf(new long[] {INDEX, PENTAGON, PENTAGON, 0}).equals(lists));
        Check.thrown(IllegalArgumentException.class, () -> new Areas(mixed, new int[3]));
        Check.thrown(IllegalArgumentException.class, () -> new Areas(new long[0], new int[1]));
        try {
            new Areas(new long[1], new int[2]);
            Check.that("an error", false);
        } catch (IllegalArgumentException error) {
            Check.same("its text", error.getMessage(), "2 numbers for 1 cells");
        }
    }

    private static void areaCounts(Areas areas, long[] points) {
        AreaCounts counts = areas.count(points);
        Check.same("numbers", counts.numbers(), new int[] {0, 1, 2});
        Check.same("counts", counts.counts(), new long[] {1, 1, 4});
        Check.same("others", counts.others(), 1L);
        Check.same("of", counts.of(2), 4L);
        Check.same("a text", counts.toString(), "{0=1, 1=1, 2=4}, others 1, refused 0");
        Check.thrown(IllegalArgumentException.class, () -> counts.of(3));
        long[] more = Arrays.copyOf(points, points.length + 2);
        more[points.length + 1] = INDEX;
        AreaCounts counted = areas.countValid(more);
        Check.same("refused", counted.toString(), "{0=2, 1=1, 2=5}, others 1, refused 1");
        Check.same("plus", counts.plus(areas.countValid(new long[] {0, INDEX})), counted);
        Check.same("a hash", counts.plus(areas.countValid(new long[] {0, INDEX})).hashCode(), counted.hashCode());
        Check.that("other counts", !counts.equals(counted) && !counts.equals(null));
        Check.same("of no points", areas.count(new long[0]).toString(), "{0=0, 1=0, 2=0}, others 0, refused 0");
        Check.thrown(IllegalArgumentException.class,
                () -> counts.plus(new Areas(new long[] {INDEX}, new int[1]).count(points)));
        counts.counts()[0] = counts.numbers()[0] = 9;
        Check.same("what was returned may change", areas.count(points), counts);
    }

    private static void edges() {
        Check.same("an edge", H3.isValidDirectedEdge(EDGE), true);
        Check.same("direction 1 at a pentagon", H3.isValidDirectedEdge("11009fffffffffff"), false);
        Check.same("no index", H3.isValidDirectedEdge("xyz"), false);
        Check.same("origin", H3.getDirectedEdgeOrigin(EDGE), INDEX);
        Check.same("origin", H3.getDirectedEdgeOrigin("115283473fffffff"), CELL);
        Check.refused("error 6: E_DIR_EDGE_INVALID: 85283473fffffff", () -> H3.getDirectedEdgeOrigin(INDEX));
        Check.same(
                "edges of a pentagon",
                H3.originToDirectedEdges("8009fffffffffff"),
                List.of(
                        "12009fffffffffff",
                        "13009fffffffffff",
                        "14009fffffffffff",
                        "15009fffffffffff",
                        "16009fffffffffff"));
        Check.same("edges", H3.originToDirectedEdges(INDEX).size(), 6);
        Check.same("the first", H3.originToDirectedEdges(INDEX).get(0), EDGE);
        Check.refused("error 5: E_CELL_INVALID: 81087ffffffffff", () -> H3.originToDirectedEdges(NONE));
    }

    private static void texts() {
        Check.same("a text", H3.h3ToString(INDEX), CELL);
        Check.same("0", H3.h3ToString(0), "0");
        Check.same("all bits", H3.h3ToString(-1), "ffffffffffffffff");
        Check.same("all bits", H3.stringToH3("ffffffffffffffff"), -1L);
        Check.same("0", H3.stringToH3("0x0"), 0L);
        Check.refused("error 1: E_FAILED: \"\"", () -> H3.stringToH3(""));
        Check.refused("error 1: E_FAILED: \"" + "9".repeat(40) + '"', () -> H3.stringToH3("9".repeat(1000)));
        Check.same("many blanks", H3.stringToH3(" ".repeat(100000) + CELL), INDEX);
        Check.refused("error 1: E_FAILED: \"\u0661\"", () -> H3.stringToH3("\u0661"));
    }

    private static void columns() {
        long[] cells = {INDEX, PENTAGON, NONE, EDGE};
        long[] valid = {INDEX, PENTAGON};
        Check.same("valid", Columns.areValidCells(cells), new boolean[] {true, true, false, false});
        Check.same("edges", Columns.areValidDirectedEdges(cells), new boolean[] {false, false, false, true});
        Check.same("pentagons", Columns.arePentagons(valid), new boolean[] {false, true});
        Check.same("Class III", Columns.areResClassIII(valid), new boolean[] {true, false});
        Check.same("resolutions", Columns.getResolutions(valid), new int[] {5, 0});
        Check.same("base cells", Columns.getBaseCellNumbers(valid), new int[] {20, 4});
        Check.same("parents", Columns.cellsToParents(valid, 0), new long[] {0x8029fffffffffffL, PENTAGON});
        Check.same("centers", Columns.cellsToCenterChildren(valid, 15),
                new long[] {0x8f2834700000000L, 0x8f0800000000000L});
        Check.same("lasts", Columns.cellsToLastChildren(valid, 7),
                new long[] {0x872834736ffffffL, 0x8709b6db6ffffffL});
        Check.same("sizes", Columns.cellsToChildrenSizes(valid, 6), new long[] {7, 1 + 5 * (117649 - 1) / 6});
        Check.same("positions", Columns.cellsToChildPositions(valid, 0), new long[] {2279, 0});
        Check.same("origins", Columns.getDirectedEdgeOrigins(new long[] {EDGE}), new long[] {INDEX});
        String at = "error 5: E_CELL_INVALID: 81087ffffffffff at place 2";
        Check.refused(at, () -> Columns.arePentagons(cells));
        Check.refused(at, () -> Columns.areResClassIII(cells));
        Check.refused(at, () -> Columns.getResolutions(cells));
        Check.refused(at, () -> Columns.getBaseCellNumbers(cells));
        Check.refused(at, () -> Columns.cellsToParents(cells, 0));
        Check.refused(at, () -> Columns.cellsToCenterChildren(cells, 15));
        Check.refused(at, () -> Columns.cellsToLastChildren(cells, 15));
        Check.refused(at, () -> Columns.cellsToChildrenSizes(cells, 15));
        Check.refused(at, () -> Columns.cellsToChildPositions(cells, 0));
        Check.refused("error 6: E_DIR_EDGE_INVALID: 85283473fffffff at place 0",
                () -> Columns.getDirectedEdgeOrigins(cells));
        Check.refused("error 12: E_RES_MISMATCH: 8009fffffffffff at place 1", () -> Columns.cellsToParents(valid, 5));
        Check.refused("error 4: E_RES_DOMAIN: resolution 16", () -> Columns.cellsToParents(new long[0], 16));
        Check.refused("error 4: E_RES_DOMAIN: resolution -1", () -> Columns.cellsToChildrenSizes(cells, -1, cells));
        missing(cells);
    }

    /** The places of what is refused, and what is written there. */
    private static void missing(long[] cells) {
        BitSet two = BitSet.valueOf(new long[] {12});
        boolean[] truths = {false, false, true, true, true};
        int[] ints = new int[4];
        long[] longs = new long[4];
        Check.same("pentagons", Columns.arePentagons(cells, truths), two);
        Check.same("pentagons", truths, new boolean[] {false, true, false, false, true});
        Check.same("Class III", Columns.areResClassIII(cells, truths), two);
        Check.same("Class III", truths, new boolean[] {true, false, false, false, true});
        Check.same("resolutions", Columns.getResolutions(cells, ints), two);
        Check.same("resolutions", ints, new int[] {5, 0, -1, -1});
        Check.same("base cells", Columns.getBaseCellNumbers(cells, ints), two);
        Check.same("base cells", ints, new int[] {20, 4, -1, -1});
        Check.same("parents", Columns.cellsToParents(cells, 5, longs), BitSet.valueOf(new long[] {14}));
        Check.same("parents", longs, new long[] {INDEX, 0, 0, 0});
        Check.same("centers", Columns.cellsToCenterChildren(cells, 4, longs), BitSet.valueOf(new long[] {13}));
        Check.same("centers", longs, new long[] {0, 0x840800000000000L | 0x1ffffffffL, 0, 0});
        Check.same("lasts", Columns.cellsToLastChildren(cells, 4, longs), BitSet.valueOf(new long[] {13}));
        Check.same("lasts", longs, new long[] {0, 0x8409b6dffffffffL, 0, 0});
        Check.same("sizes", Columns.cellsToChildrenSizes(cells, 5, longs), two);
        Check.same("sizes", longs, new long[] {1, 1 + 5 * (16807 - 1) / 6, -1, -1});
        Check.same("positions", Columns.cellsToChildPositions(cells, 0, longs), two);
        Check.same("positions", longs, new long[] {2279, 0, -1, -1});
        Check.same("origins", Columns.getDirectedEdgeOrigins(cells, longs), BitSet.valueOf(new long[] {7}));
        Check.same("origins", longs, new long[] {0, 0, 0, INDEX});
        Check.same("in place", Columns.cellsToParents(longs, 0, longs), BitSet.valueOf(new long[] {7}));
        Check.same("in place", longs, new long[] {0, 0, 0, 0x8029fffffffffffL});
        Check.same("no error", Columns.cellsToParents(new long[] {INDEX}, 0, longs), new BitSet());
        Check.refused("error 14: E_MEMORY_BOUNDS: room for 4 of 5", () -> Columns.getResolutions(new long[5], ints));
        pieces();
    }

    /** Columns of several pieces, with refused cells in two of them. */
    private static void pieces() {
        for (int length : new int[] {1, 63, 64, 65, 127, 128, 257, 319, 321, 1024, 5000, 65535, 65536, 65537, 200000}) {
            long[] cells = new long[length];
            long[] parents = new long[length];
            Arrays.fill(cells, INDEX);
            Arrays.fill(parents, PARENT);
            Check.same(length + " parents", Columns.cellsToParents(cells, 4), parents);
            int[] resolutions = new int[length];
            Arrays.fill(resolutions, 5);
            Check.same(length + " resolutions", Columns.getResolutions(cells), resolutions);
            boolean[] truths = new boolean[length];
            Arrays.fill(truths, true);
            Check.same(length + " truths", Columns.areResClassIII(cells), truths);
            cells[length - 1] = cells[length / 2] = NONE;
            BitSet places = new BitSet();
            places.set(length / 2);
            places.set(length - 1);
            parents[length - 1] = parents[length / 2] = 0;
            long[] out = new long[length];
            Check.same(length + " places", Columns.cellsToParents(cells, 4, out), places);
            Check.same(length + " parents", out, parents);
            Check.refused(
                    "error 5: E_CELL_INVALID: 81087ffffffffff at place " + length / 2,
                    () -> Columns.cellsToParents(cells, 4));
        }
    }

    /** A table that is no planet's, whose links fit together. */
    static byte[] plainTable() {
        int[] steps = {110, 11, 121, 1, 111, 12};
        List<Integer> pentagons = List.of(4, 14, 24, 38, 49, 58, 63, 72, 83, 97, 107, 117);
        StringBuilder file = new StringBuilder("base,dir,to,rot\n");
        for (int base = 0; base < 122; base++) {
            for (int direction = 1; direction <= 6 && !pentagons.contains(base); direction++) {
                int to = (base + steps[direction - 1]) % 122;
                file.append(base).append(',').append(direction).append(',').append(to).append(",0\n");
            }
        }
        return file.toString().getBytes(StandardCharsets.US_ASCII);
    }

    private static void walks() {
        BaseCellTable table = new BaseCellTable(plainTable());
        List<String> ring =
                List.of(
                        "8528340bfffffff",
                        "85283447fffffff",
                        "8528347bfffffff",
                        "85283463fffffff",
                        "85283477fffffff",
                        "8528340ffffffff");
        List<String> walked =
                List.of(
                        "85283447fffffff",
                        "8528347bfffffff",
                        "85283463fffffff",
                        "85283477fffffff",
                        "8528340ffffffff",
                        "8528340bfffffff");
        Check.same("a disk", table.gridDiskUnsafe(CELL, 1), List.of(List.of(CELL), walked));
        Check.same("distances", table.gridDiskDistancesUnsafe(CELL, 1), List.of(List.of(CELL), walked));
        Check.same("distances", table.gridDiskDistancesUnsafe(INDEX, 0), List.of(List.of(INDEX)));
        Check.same("an array", table.gridDiskArray(INDEX, 0), new long[] {INDEX});
        Check.same("a disk", table.gridDiskUnsafe(INDEX, 20), table.gridDiskDistancesUnsafe(INDEX, 20));
        Check.same("a ring", table.gridRingUnsafe(CELL, 1), ring);
        Check.same("a ring", table.gridRingUnsafe(INDEX, 1), numbers(ring));
        Check.same("a ring of 0", table.gridRingUnsafe("8009fffffffffff", 0), List.of("8009fffffffffff"));
        Check.same("a ring of 20", new ArrayList<>(table.gridRingUnsafe(INDEX, 20)).size(), 120);
        List<List<String>> alone = List.of(List.of("8108bffffffffff"));
        Check.same("a pentagon's cell", table.gridDiskUnsafe("8108bffffffffff", 0), alone);
        Check.refused("error 9: E_PENTAGON: 0 steps from 8009fffffffffff", () -> table.gridDiskUnsafe(PENTAGON, 0));
        Check.refused("error 9: E_PENTAGON: 1 steps from 800bfffffffffff",
                () -> table.gridDiskDistancesUnsafe("800bfffffffffff", 1));
        Check.refused(
                "error 9: E_PENTAGON: 1 steps from 800bfffffffffff", () -> table.gridRingUnsafe("800bfffffffffff", 1));
        Check.refused("error 2: E_DOMAIN: -1 steps from 85283473fffffff", () -> table.gridDiskUnsafe(INDEX, -1));
        Check.refused(
                "error 2: E_DOMAIN: -1 steps from 85283473fffffff", () -> table.gridDiskDistancesUnsafe(INDEX, -1));
        Check.refused("error 2: E_DOMAIN: -1 steps from 85283473fffffff", () -> table.gridRingUnsafe(INDEX, -1));
        Check.refused("error 5: E_CELL_INVALID: 1 steps from 81087ffffffffff", () -> table.gridDiskUnsafe(NONE, 1));
        errors(table);
        for (int k : new int[] {26755, 2147483647}) {
            Check.refused("error 13: E_MEMORY_ALLOC: " + k + " steps from 85283473fffffff",
                    () -> table.gridDiskDistancesUnsafe(INDEX, k));
        }
        // (the way to the ring crosses base cells 21, 22 and so on: 24 is a pentagon)
        Check.refused("error 9: E_PENTAGON: 2147483647 steps from 85283473fffffff",
                () -> table.gridRingUnsafe(INDEX, 2147483647));
        tables(table);
    }

    /** What an error has beside its message. */
    private static void errors(BaseCellTable table) {
        try {
            table.gridDiskUnsafe(NONE, 1);
            Check.that("an error", false);
        } catch (H3Exception error) {
            Check.same("its value", error.getValue(), NONE);
            Check.same("its code", error.getCode(), H3Exception.E_CELL_INVALID);
            Check.same("its name", error.getName(), "E_CELL_INVALID");
            Check.same("its place", error.getPlace(), -1L);
        }
        try {
            Columns.getResolutions(new long[] {INDEX, NONE});
            Check.that("an error", false);
        } catch (H3Exception error) {
            Check.same("its value", error.getValue(), NONE);
            Check.same("its place", error.getPlace(), 1L);
        }
    }

    private static void tables(BaseCellTable table) {
        Check.same("neighbors", table.areNeighborCells("8528340ffffffff", CELL), true);
        Check.same("neighbors", table.areNeighborCells("8528340ffffffff", "8528347bfffffff"), false);
        Check.same("itself", table.areNeighborCells(INDEX, INDEX), false);
        Check.same("an edge", table.cellsToDirectedEdge(CELL, "85283477fffffff"), "115283473fffffff");
        Check.same("an edge", table.cellsToDirectedEdge(INDEX, 0x85283477fffffffL), EDGE);
        Check.refused("error 11: E_NOT_NEIGHBORS: 85283473fffffff and 85283473fffffff",
                () -> table.cellsToDirectedEdge(INDEX, INDEX));
        Check.refused("error 12: E_RES_MISMATCH: 85283473fffffff and 8428347ffffffff",
                () -> table.cellsToDirectedEdge(INDEX, PARENT));
        Check.refused("error 12: E_RES_MISMATCH: 85283473fffffff and 8428347ffffffff",
                () -> table.areNeighborCells(INDEX, PARENT));
        Check.same("its end", table.getDirectedEdgeDestination("115283473fffffff"), "85283477fffffff");
        Check.same("both", table.directedEdgeToCells("115283473fffffff"), List.of(CELL, "85283477fffffff"));
        Check.refused(
                "error 9: E_PENTAGON: 11021fffffffffff", () -> table.getDirectedEdgeDestination("11021fffffffffff"));
        Check.refused("error 6: E_DIR_EDGE_INVALID: 85283473fffffff", () -> table.directedEdgeToCells(INDEX));
        String file = new String(plainTable(), StandardCharsets.US_ASCII);
        refusedTable("table: form 1", "");
        refusedTable("table: range 2", "base,dir,to,rot\n4,1,0,0\n");
        refusedTable("table: missing", file.substring(0, file.lastIndexOf("121,6")));
        refusedTable("table: reversal 0 1", file.replace("\n0,1,110,0\n", "\n0,1,110,1\n"));
    }

    private static void refusedTable(String wanted, String file) {
        try {
            new BaseCellTable(file.getBytes(StandardCharsets.US_ASCII));
            Check.same(wanted, "a table", wanted);
        } catch (BaseCellTableException error) {
            Check.same(wanted, error.getMessage(), wanted);
            Check.that(wanted, error.getCode() >= 3 && error.getAt() >= 0 && error.getDirection() >= 0);
        }
    }

    /** Each public method throws a NullPointerException where an argument is null. */
    private static void nulls(Class<?> kind, Object own) throws ReflectiveOperationException {
        for (Method method : kind.getDeclaredMethods()) {
            Class<?>[] types = method.getParameterTypes();
            boolean isObject = method.getName().matches("equals|readObject|writeReplace");
            for (int at = 0; at < types.length && Modifier.isPublic(method.getModifiers()) && !isObject; at++) {
                if (!types[at].isPrimitive()) {
                    nullAt(method, own, types, at);
                }
            }
        }
    }

    private static Object argument(Class<?> type, Object own) {
        if (type.isArray()) {
            return Array.newInstance(type.getComponentType(), 0);
        }
        return type == long.class
                ? (Object) INDEX
                : type == int.class ? (Object) 5 : type == String.class ? CELL : type == Region.class ? own : List.of();
    }

    private static void nullAt(Method method, Object own, Class<?>[] types, int at)
            throws ReflectiveOperationException {
        Object[] given = Arrays.stream(types).map(type -> argument(type, own)).toArray();
        given[at] = null;
        try {
            method.invoke(own, given);
            Check.same(method + " of null", "no exception", "");
        } catch (InvocationTargetException error) {
            Check.same(method + " of null", error.getCause().getClass(), NullPointerException.class);
        }
    }

    private static void allNulls() throws ReflectiveOperationException {
        nulls(H3.class, null);
        nulls(Columns.class, null);
        nulls(Zones.class, new Zones(new long[] {INDEX}));
        nulls(Region.class, new Region(new long[] {INDEX}));
        nulls(BaseCellTable.class, new BaseCellTable(plainTable()));
        nulls(Counts.class, new Zones(new long[] {INDEX}).count(new long[0]));
        Areas areas = new Areas(new long[] {INDEX}, new int[1]);
        nulls(Areas.class, areas);
        nulls(AreaLists.class, areas.areasOf(new long[0]));
        nulls(AreaCounts.class, areas.count(new long[0]));
        Check.thrown(NullPointerException.class, () -> new Zones(null));
        Check.thrown(NullPointerException.class, () -> new Areas(null, new int[0]));
        Check.thrown(NullPointerException.class, () -> new Areas(new long[0], null));
        Check.thrown(NullPointerException.class, () -> new Region(null));
        Check.thrown(NullPointerException.class, () -> new BaseCellTable(null));
    }

    private interface Part {
        void run() throws Exception;
    }

    public static void main(String[] words) {
        Part[] parts = {
            Rows::cells,
            Rows::resolutions,
            Rows::hierarchy,
            Rows::lists,
            Rows::regions,
            Rows::zones,
            Rows::areas,
            Rows::edges,
            Rows::texts,
            Rows::columns,
            Rows::walks,
            Rows::allNulls,
        };
        for (Part part : parts) {
            try {
                part.run();
            } catch (Exception error) {
                Check.same("a part", error.toString(), "no exception");
                error.printStackTrace();
            }
        }
        Check.end();
    }
}
