#!/usr/bin/python3
"""Measures the extensions for SQLite and PostgreSQL, columns in Python, and counts over a dask.bag: ratios of the best
times of several runs, each pair in turn, or the best time of each.

bench/sql.py [sqlite | postgresql | numpy | texts | dask ..]    these alone; all, if none is given"""
import os
import sqlite3
import subprocess
import sys
import tempfile
import time

ROOT = os.path.dirname(os.path.dirname(os.path.realpath(__file__)))
sys.path[:0] = [os.path.join(ROOT, "tests", "sql"), os.path.join(ROOT, "python")]
RUNS = 5
MILLION = "SELECT count(*) FROM (SELECT {}, count(*) FROM big GROUP BY 1) x"
PARENT = MILLION.format("h3_cell_to_parent(cell, 4)")
# an expression over integers that has as many groups: the digits below resolution 4, and the resolution, are left out
PLAIN = MILLION.format("{} & ~((1{} << 33) - 1)")
LONG = 5_764_801


def timed(call):
    start = time.perf_counter()
    result = call()
    return time.perf_counter() - start, result


def compare(name, ours, theirs):
    """Both in turn; their results are the same."""
    best = [float("inf")] * 2
    for _ in range(RUNS):
        found = [timed(ours), timed(theirs)]
        if found[0][1] != found[1][1]:
            sys.exit(f"{name}: {found[0][1]!r} against {found[1][1]!r}")
        best = [min(before, seconds) for before, (seconds, _) in zip(best, found)]
    print(f"{name}: {best[0] * 1000:.1f} ms / {best[1] * 1000:.1f} ms = {best[0] / best[1]:.2f}", flush=True)


def compact_by_command(path):
    """How many cells `h3 compactCells` writes."""
    with open(path, "rb") as given:
        ran = subprocess.run([COMMAND, "compactCells"], stdin=given, stdout=subprocess.PIPE, check=True)
    return str(ran.stdout.count(b"\n"))


COMMAND = os.path.join(ROOT, "crates", "h3_cli", "out", "h3_cli")


def measure_sqlite(cells):
    subprocess.run(["make", "-s", "-C", os.path.join(ROOT, "sql", "sqlite")], check=True)
    engine = sqlite3.connect(":memory:")
    engine.enable_load_extension(True)
    engine.load_extension(os.path.join(ROOT, "sql", "sqlite", "h3whole"))
    fill = "CREATE TABLE {} AS SELECT value AS cell FROM h3_cell_to_children(?, 8) LIMIT ?"
    for table, count in (("big", 1_000_000), ("long", LONG)):
        engine.execute(fill.format(table), (0x8001FFFFFFFFFFF, count))

    def ask(query):
        return lambda: str(engine.execute(query).fetchone()[0])

    compare("SQLite: a million rows by parents / by an integer expression", ask(PARENT), ask(PLAIN.format("cell", "")))
    query = "SELECT json_array_length(h3_compact_cells(cell)) FROM long"
    compare(f"SQLite: h3_compact_cells of {LONG} rows / h3 compactCells", ask(query), lambda: compact_by_command(cells))
    place = "h3_child_pos_to_cell({}, '8029fffffffffff', 7)"
    count = "WITH RECURSIVE n (n) AS (SELECT 0 UNION ALL SELECT n + 1 FROM n WHERE n < {})"
    engine.execute(
        f"CREATE TABLE shapes AS {count.format(199)} SELECT n, (WITH RECURSIVE p (p) AS (SELECT n.n * 500 UNION ALL"
        f" SELECT p + 1 FROM p WHERE p < n.n * 500 + 1999) SELECT json_group_array({place.format('p * 7')}) FROM p)"
        " AS cells FROM n"
    )
    loop = "SELECT count(*) FROM (SELECT * FROM big LIMIT {}) AS spots CROSS JOIN shapes WHERE n < {}"
    loop += " AND h3_is_covered(cell, cells)"
    name = "SQLite: 100000 lookups in 200 arrays / in 40"
    compare(name, ask(loop.format(500, 200)), ask(loop.format(2500, 40)))
    measure_lookups(engine)


def measure_lookups(engine):
    """Points looked up in 100,000 zones, in each form that a query has them. What a query takes for no point is left
    out."""
    engine.execute(
        "CREATE TABLE zones AS SELECT value AS cell FROM h3_cell_to_children('8029fffffffffff', 6) LIMIT 1e5"
    )
    engine.execute(
        "CREATE TABLE points AS WITH RECURSIVE n (n) AS (SELECT 0 UNION ALL SELECT n + 1 FROM n WHERE n < 199999)"
        " SELECT n, h3_child_pos_to_cell(n * 7919 % 5000000, '8029fffffffffff', 8) AS cell FROM n"
    )
    engine.execute("CREATE TABLE areas AS SELECT json_group_array(cell) AS cells FROM zones")
    array = engine.execute("SELECT cells FROM areas").fetchone()[0]
    listed, of_zones = "json_group_array(cell)", "(SELECT {} FROM zones)"
    prepared = f"h3_prepare_zones({listed})"
    kept = "WITH kept AS MATERIALIZED (SELECT {} AS cells FROM {}) "
    for name, before, zones, tables in (
        ("a parameter", "", "?2", "points"),
        ("a subquery", "", of_zones.format(listed), "points"),
        ("a subquery that prepares it", "", of_zones.format(prepared), "points"),
        ("a table of the query", kept.format(listed, "zones"), "cells", "points, kept"),
        ("a table of the query that prepares it", kept.format(prepared, "zones"), "cells", "points, kept"),
        ("a column of each row", "", "cells", "areas CROSS JOIN points"),
        (
            "a column that is prepared",
            kept.format("h3_prepare_zones(cells)", "areas"),
            "cells",
            "kept CROSS JOIN points",
        ),
    ):
        query = f"{before}SELECT count(h3_zone_of(cell, {zones})) FROM {tables} WHERE n < ?1"
        count = 200_000 if "prepare" in query or "?2" in query else 2_000
        best = [float("inf")] * 2
        for _ in range(RUNS):
            for place, limit in enumerate((0, count)):
                given = (limit, array) if "?2" in query else (limit,)
                best[place] = min(best[place], timed(lambda: engine.execute(query, given).fetchone())[0])
        each = (best[1] - best[0]) / count * 1e6
        print(f"SQLite: h3_zone_of of {count} points, 100000 zones in {name}: {each:.2f} us a point", flush=True)


def measure_postgresql(cells):
    from postgresql_server import server

    settings = ("shared_buffers=1GB", "max_worker_processes=16", "max_parallel_workers=8", "jit=off")
    with server(settings=settings) as engine:
        engine.psql("CREATE EXTENSION h3whole")
        for table, count in (("big", 1_000_000), ("long", LONG)):
            engine.psql(
                f"CREATE UNLOGGED TABLE {table} AS"
                f" SELECT h3_cell_to_children('8001fffffffffff', 8) AS cell LIMIT {count};"
                f"ALTER TABLE {table} SET (parallel_workers = 4); VACUUM ANALYZE {table}"
            )

        def ask(query, workers):
            return lambda: engine.psql(
                f"SET work_mem = '64MB'; SET max_parallel_workers_per_gather = {workers}; {query}"
            )

        plain = PLAIN.format("cell::bigint", "::bigint")
        compare("PostgreSQL: a million rows by parents / by an integer expression", ask(PARENT, 0), ask(plain, 0))
        query = "SELECT cardinality(h3_compact_cells(cell)) FROM long"
        for workers in (0, 1, 4):
            compare(
                f"PostgreSQL: h3_compact_cells of {LONG} rows, {workers} workers beside the leader / h3 compactCells",
                ask(query, workers),
                lambda: compact_by_command(cells),
            )
        measure_points(engine, ask)
        measure_arrays(engine, ask)


ZONED = "SELECT cell FROM h3_cell_to_children('8001fffffffffff', {}) cell WHERE cell::bigint % 10 < 7"
JOINED = "SELECT count(*) FROM points JOIN zones ON zones.cell = ANY (h3_cell_to_ancestors(points.cell))"
BY_ZONE = "SELECT count(*) FROM points JOIN {} zones ON zones.cell = h3_zone_of(points.cell, {})"


def measure_points(engine, ask):
    """Two million points by the zones in which they lie, against the join of zones and of the points' ancestors, and a
    subquery against a constant."""
    for table, res in (("zones", 5), ("millions", 8)):
        engine.psql(
            f"CREATE UNLOGGED TABLE {table} AS {ZONED.format(res)} LIMIT 1000000;"
            f"CREATE UNIQUE INDEX ON {table} (cell); VACUUM ANALYZE {table}"
        )
    engine.psql(
        "CREATE UNLOGGED TABLE points AS SELECT h3_child_pos_to_cell((n * 7919 % 33000000)::bigint,"
        " h3_cell_to_parent(cell, 0), 9) AS cell"
        " FROM (SELECT cell, row_number() OVER () AS n FROM long LIMIT 2000000) numbered; VACUUM ANALYZE points"
    )
    listed = "'" + engine.psql("SELECT array_agg(cell) FROM zones") + "'"
    once = "(SELECT array_agg(cell) FROM {})"
    looked_up, covered = "SELECT count(h3_zone_of(cell, {})) FROM points", "h3_is_covered(cell, {})"
    covered = f"SELECT count(*) FROM points WHERE {covered}"
    for name, query in (
        ("h3_zone_of", looked_up.format(listed)),
        ("h3_is_covered", covered.format(listed)),
        ("h3_zone_of in a subquery", looked_up.format(once.format("zones"))),
        ("zones by h3_zone_of in a subquery", BY_ZONE.format("zones", once.format("zones"))),
    ):
        compare(f"PostgreSQL: {name} of 2000000 points / a join of ancestors", ask(query, 0), ask(JOINED, 0))
    for name, query in (("h3_zone_of", looked_up), ("h3_is_covered", covered)):
        subquery, constant = query.format(once.format("zones")), query.format(listed)
        compare(f"PostgreSQL: {name} in a subquery / in a constant", ask(subquery, 0), ask(constant, 0))
    number = "SELECT sum(cell::bigint % 10) * 0 + 1 FROM points"
    for name, count in (("zones", "10,085"), ("millions", "a million")):
        query = f"SELECT (count(*) > 0)::int FROM ({BY_ZONE.format(name, once.format(name))}) x"
        compare(f"PostgreSQL: zones of 2000000 points in {count} / a sum of remainders", ask(query, 0), ask(number, 0))
        zones = once.format(name)
        counted = (
            f"SELECT count(*) FROM unnest((SELECT h3_count_cells_in_zones(cell, {zones}) FROM points)) WHERE cells > 0"
        )
        grouped = f"SELECT count(*) FROM (SELECT h3_zone_of(cell, {zones}), count(*) FROM points GROUP BY 1) x"
        name = f"PostgreSQL: h3_count_cells_in_zones of 2000000 points in {count} / GROUP BY h3_zone_of"
        compare(name, ask(counted, 0), ask(grouped, 0))


def measure_arrays(engine, ask):
    """A loop over 200 arrays of 2000 cells against one over 40, for as many lookups."""
    engine.psql(
        "CREATE UNLOGGED TABLE shapes AS SELECT n, ARRAY(SELECT h3_child_pos_to_cell(p * 7, '8029fffffffffff', 7)"
        " FROM generate_series(n * 500, n * 500 + 1999) p) AS cells FROM generate_series(0, 199) n;"
        "CREATE UNLOGGED TABLE spots AS SELECT n, h3_child_pos_to_cell(n, '8001fffffffffff', 7) AS cell FROM"
        " generate_series(0, 4999) n; ANALYZE shapes; ANALYZE spots"
    )
    loop = (
        "SELECT sum(found) FROM spots, LATERAL (SELECT count(*) FROM shapes WHERE n < {} AND"
        " h3_is_covered(cell, cells)) x (found) WHERE n < {}"
    )
    name = "PostgreSQL: 200000 lookups in 200 arrays / in 40"
    compare(name, ask(loop.format(200, 1000), 0), ask(loop.format(40, 5000), 0))


C_PROGRAM = r"""
#include "h3whole.h"
#include <stdio.h>
#include <stdlib.h>
#include <time.h>
int main(int argc, char **argv) {
    size_t n = strtoull(argv[2], NULL, 10), at, i;
    H3Index *in = malloc(8 * n), *kept = calloc(n, 8);
    int is_fresh = argc > 3;
    double best = 1e9;
    FILE *file = fopen(argv[1], "rb");
    if (argc < 3 || !in || !kept || !file || fread(in, 8, n, file) != n) return 1;
    for (i = 0; i < 7; i++) {
        struct timespec a, b;
        double seconds;
        H3Index *out;
        clock_gettime(CLOCK_MONOTONIC, &a);
        out = is_fresh ? malloc(8 * n) : kept;
        if (!out || h3w_cellsToParents(in, n, 4, out, n, &at)) return 1;
        if (is_fresh) free(out);
        clock_gettime(CLOCK_MONOTONIC, &b);
        seconds = b.tv_sec - a.tv_sec + (b.tv_nsec - a.tv_nsec) / 1e9;
        if (seconds < best) best = seconds;
    }
    printf("%.9f\n", best);
    return 0;
}
"""


def measure_numpy(_):
    """A column of numpy, whose results are in new memory, against the same call from C, into new memory and into memory
    that was written to before."""
    import numpy

    from h3whole import columns
    import h3whole.int as integers

    cells = numpy.array(integers.cell_to_children(0x8001FFFFFFFFFFF, 8), dtype=numpy.uint64)
    with tempfile.TemporaryDirectory() as folder:
        path, program, source = (os.path.join(folder, name) for name in ("cells", "program", "program.c"))
        cells.tofile(path)
        with open(source, "w", encoding="utf-8") as out:
            out.write(C_PROGRAM)
        words = ["cc", "-O2", "-I" + os.path.join(ROOT, "include"), "-o", program, source]
        subprocess.run([*words, os.path.join(ROOT, "lib", "libh3whole.a")], check=True)
        best = float("inf")
        plain = {"new": best, "kept": best}
        for _ in range(RUNS):
            for kind in plain:
                command = [program, path, str(len(cells)), *(["fresh"] if kind == "new" else [])]
                ran = subprocess.run(command, capture_output=True, text=True, check=True)
                plain[kind] = min(plain[kind], float(ran.stdout))
            for _ in range(7):
                best = min(best, timed(lambda: columns.cells_to_parents(cells, 4))[0])
    for kind, seconds in plain.items():
        ratio = f"{best * 1000:.1f} ms / {seconds * 1000:.1f} ms = {best / seconds:.2f}"
        print(f"numpy: cells_to_parents of {LONG} / h3w_cellsToParents into {kind} memory: {ratio}", flush=True)


def measure_texts(_):
    """Single calls beside a call of str.upper, and columns of a hundred thousand texts beside as many of these."""
    import numpy
    import pandas

    import h3whole
    from h3whole import columns

    text, count = "85283473fffffff", 100_000
    texts = [text] * count
    cells = columns.str_to_int(texts)
    zones = h3whole.Zones(h3whole.cell_to_children("8029fffffffffff", 6)[:100_000])

    def repeated(call):
        return lambda: [call() for _ in range(count)] and None

    def upper():
        return [one.upper() for one in texts] and None

    for name, call in (
        ("cell_to_parent of a text", lambda: h3whole.cell_to_parent(text, 4)),
        ("get_resolution of a text", lambda: h3whole.get_resolution(text)),
        ("h3whole.int.cell_to_parent", lambda: h3whole.int.cell_to_parent(0x85283473FFFFFFF, 4)),
    ):
        compare(f"Python: {name}, {count} times / str.upper", repeated(call), repeated(lambda: text.upper()))
    # (a call that names its arguments goes by ctypes)
    by_ctypes = repeated(lambda: h3whole.cell_to_parent(cell=text, res=4))
    compare(
        f"Python: cell_to_parent of a text, {count} times / by ctypes",
        repeated(lambda: h3whole.cell_to_parent(text, 4)),
        by_ctypes,
    )
    kinds = {
        "a list": texts,
        "numpy's objects": numpy.array(texts, dtype=object),
        "pandas' strings": pandas.Series(texts, dtype="string"),
    }
    compare(f"Python: int_to_str of {count} / str.upper", lambda: columns.int_to_str(cells) and None, upper)
    for kind, column in kinds.items():
        for function, more in ((columns.str_to_int, ()), (columns.cells_to_parents, (4,))):
            name = f"Python: {function.__name__} of {kind} of {count} texts / str.upper"
            compare(name, lambda: function(column, *more) is None, lambda: upper() is not None)
    # (of many cells, in no order)
    places = ((place * 7919) % 5_000_000 for place in range(count))
    points = [h3whole.child_pos_to_cell("8029fffffffffff", 8, place) for place in places]
    kinds = {
        "a list": points,
        "numpy's <U15": numpy.array(points),
        "numpy's objects": numpy.array(points, dtype=object),
    }
    for kind, column in kinds.items():
        for function in (columns.str_to_int, zones.of, zones.count):
            name = f"Python: {function.__qualname__} of {kind} of {count} texts, 100000 zones / str.upper"
            compare(name, lambda: function(column) is None, lambda: upper() is not None)


def measure_dask(_):
    """240,000 cells of a dask.bag counted in 100,000 zones, in this process and in three others."""
    import dask.bag
    import dask.distributed

    import h3whole.int as integers
    from h3whole.parts import count_cells

    zones = integers.Zones(integers.cell_to_children(0x8029FFFFFFFFFFF, 6)[:100_000])
    cells = [integers.child_pos_to_cell(0x8029FFFFFFFFFFF, 8, n * 7919 % 5_000_000) for n in range(240_000)]
    wanted = zones.count(cells)

    def measure(where):
        for count in (4, 8):
            best = float("inf")
            for _ in range(RUNS):
                bag = dask.bag.from_sequence(cells, npartitions=count)
                seconds, found = timed(lambda: count_cells(zones, bag))
                if found != wanted:
                    sys.exit(f"dask: {found}")
                best = min(best, seconds)
            print(f"dask: count_cells of 240000 cells in {count} partitions, {where}: {best * 1000:.0f} ms", flush=True)

    measure("threads")
    with dask.distributed.LocalCluster(3, threads_per_worker=1, dashboard_address=None, silence_logs=50) as cluster:
        with dask.distributed.Client(cluster):
            measure("three processes")


def measure_columns(_):
    """Five million cells looked up in a region of 1,440,000 and in as many zones, against numpy's search in the same
    order."""
    import numpy

    import h3whole.int as integers

    random = numpy.random.default_rng(1)
    below = [integers.cell_to_children(base, 5) for base in integers.get_res0_cells()]
    fives = numpy.concatenate(below).astype(numpy.uint64)
    # no cell whose last digit is 0, so that no siblings are complete
    given = random.permutation(fives[fives >> numpy.uint64(30) & numpy.uint64(7) != 0])[:1_440_000]
    points = random.choice(fives, 5_000_000) + numpy.uint64(4 << 52)
    for res in range(6, 10):
        # from 2 to 6: with 1 a cell below a pentagon may be none
        points -= random.integers(1, 6, len(points), dtype=numpy.uint64) << numpy.uint64(3 * (15 - res))
    region, zones = integers.Region(given), integers.Zones(given)
    ordered = numpy.sort(given >> numpy.uint64(30) & numpy.uint64((1 << 22) - 1))

    def searched():
        above = points >> numpy.uint64(30) & numpy.uint64((1 << 22) - 1)
        places = numpy.minimum(numpy.searchsorted(ordered, above), len(ordered) - 1)
        return int((ordered[places] == above).sum())

    name = "numpy: {} of 5000000 cells in 1440000 / numpy.searchsorted"
    compare(name.format("Region.covers"), lambda: int(numpy.asarray(region.covers(points)).sum()), searched)
    compare(name.format("Zones.of"), lambda: int(numpy.count_nonzero(zones.of(points))), searched)
    compare(name.format("Zones.count"), lambda: len(points) - zones.count(points).others, searched)

    def in_chunks(size):
        chunks = (points[start : start + size] for start in range(0, len(points), size))
        return sum(int(numpy.count_nonzero(zones.of(chunk))) for chunk in chunks)

    name = "numpy: Zones.of of 5000000 cells in 1440000, in chunks of 240000 / whole"
    compare(name, lambda: in_chunks(240_000), lambda: in_chunks(len(points)))


def main():
    subprocess.run([os.path.join(ROOT, "h3"), "--help"], stdout=subprocess.DEVNULL, check=True)
    subprocess.run([os.path.join(ROOT, "tools", "library")], capture_output=True, check=True)
    # the extension in C, as the wheel has it
    subprocess.run([sys.executable, os.path.join(ROOT, "python", "backend.py")], capture_output=True, check=True)
    asked = sys.argv[1:]
    with tempfile.TemporaryDirectory() as folder:
        cells = os.path.join(folder, "cells")
        with open(cells, "wb") as out:
            subprocess.run([COMMAND, "cellToChildren", "-c", "8001fffffffffff", "-r", "8"], stdout=out, check=True)
        kinds = (
            ("numpy", measure_numpy),
            ("numpy", measure_columns),
            ("texts", measure_texts),
            ("dask", measure_dask),
            ("sqlite", measure_sqlite),
            ("postgresql", measure_postgresql),
        )
        for name, measure in kinds:
            if not asked or name in asked:
                measure(cells)


if __name__ == "__main__":
    main()
