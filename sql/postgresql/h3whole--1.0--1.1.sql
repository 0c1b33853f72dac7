\echo Use "ALTER EXTENSION h3whole UPDATE TO '1.1'" to load this file. \quit

-- Functions with a resolution take it as a bigint, to which all integer types are cast. (Beside those of version 1.0,
-- with an integer, a call whose parameters have no type would be one of two.) Where something of the user's depends on
-- one of these, as a view or an index, it stays under the name of its version, and is no part of the extension any more.
DO $$
DECLARE
    old regprocedure;
BEGIN
    FOREACH old IN ARRAY ARRAY[
        'h3_get_num_cells(integer)', 'h3_get_pentagons(integer)', 'h3_cell_to_parent(h3cell, integer)',
        'h3_cell_to_center_child(h3cell, integer)', 'h3_cell_to_children(h3cell, integer)',
        'h3_cell_to_children_size(h3cell, integer)', 'h3_cell_to_child_pos(h3cell, integer)',
        'h3_child_pos_to_cell(bigint, h3cell, integer)', 'h3_uncompact_cells(h3cell[], integer)'
    ]::regprocedure[] LOOP
        BEGIN
            EXECUTE format('DROP FUNCTION %s', old);
        EXCEPTION WHEN dependent_objects_still_exist THEN
            EXECUTE format('ALTER EXTENSION h3whole DROP FUNCTION %s', old);
            RAISE WARNING '% of version 1.0 is in use', old USING
                DETAIL = (SELECT string_agg(pg_describe_object(classid, objid, objsubid), ', ') FROM pg_depend
                          WHERE refclassid = 'pg_proc'::regclass AND refobjid = old AND deptype = 'n'),
                HINT = format('It is %I now: make anew what uses it.',
                              (SELECT proname FROM pg_proc WHERE oid = old) || '_1_0');
            EXECUTE format('ALTER FUNCTION %s RENAME TO %I', old,
                           (SELECT proname FROM pg_proc WHERE oid = old) || '_1_0');
        END;
    END LOOP;
END
$$;

-- How many rows a function has for arguments that the planner knows
CREATE FUNCTION h3_children_rows(internal) RETURNS internal
    AS 'MODULE_PATHNAME', 'h3whole_children_rows' LANGUAGE C STRICT PARALLEL SAFE;
CREATE FUNCTION h3_list_rows(internal) RETURNS internal
    AS 'MODULE_PATHNAME', 'h3whole_list_rows' LANGUAGE C STRICT PARALLEL SAFE;
ALTER FUNCTION h3_compact_cells(h3cell[]) SUPPORT h3_list_rows;

-- At a resolution
CREATE FUNCTION h3_get_num_cells(resolution bigint) RETURNS bigint
    AS 'MODULE_PATHNAME', 'h3whole_get_num_cells_at' LANGUAGE C IMMUTABLE STRICT PARALLEL SAFE;
CREATE FUNCTION h3_get_pentagons(resolution bigint) RETURNS SETOF h3cell
    AS 'MODULE_PATHNAME', 'h3whole_get_pentagons_at' LANGUAGE C IMMUTABLE STRICT PARALLEL SAFE ROWS 12;
CREATE FUNCTION h3_cell_to_parent(cell h3cell, resolution bigint) RETURNS h3cell
    AS 'MODULE_PATHNAME', 'h3whole_cell_to_parent_at' LANGUAGE C IMMUTABLE STRICT PARALLEL SAFE;
CREATE FUNCTION h3_cell_to_center_child(cell h3cell, resolution bigint) RETURNS h3cell
    AS 'MODULE_PATHNAME', 'h3whole_cell_to_center_child_at' LANGUAGE C IMMUTABLE STRICT PARALLEL SAFE;
CREATE FUNCTION h3_cell_to_children(cell h3cell, resolution bigint) RETURNS SETOF h3cell
    AS 'MODULE_PATHNAME', 'h3whole_cell_to_children_at' LANGUAGE C IMMUTABLE STRICT PARALLEL SAFE
    SUPPORT h3_children_rows;
CREATE FUNCTION h3_cell_to_children_size(cell h3cell, resolution bigint) RETURNS bigint
    AS 'MODULE_PATHNAME', 'h3whole_cell_to_children_size_at' LANGUAGE C IMMUTABLE STRICT PARALLEL SAFE;
CREATE FUNCTION h3_cell_to_child_pos(child h3cell, parent_res bigint) RETURNS bigint
    AS 'MODULE_PATHNAME', 'h3whole_cell_to_child_pos_at' LANGUAGE C IMMUTABLE STRICT PARALLEL SAFE;
CREATE FUNCTION h3_child_pos_to_cell(child_pos bigint, parent h3cell, child_res bigint) RETURNS h3cell
    AS 'MODULE_PATHNAME', 'h3whole_child_pos_to_cell_at' LANGUAGE C IMMUTABLE STRICT PARALLEL SAFE;
CREATE FUNCTION h3_uncompact_cells(cells h3cell[], resolution bigint) RETURNS SETOF h3cell
    AS 'MODULE_PATHNAME', 'h3whole_uncompact_cells_at' LANGUAGE C IMMUTABLE STRICT PARALLEL SAFE
    SUPPORT h3_list_rows;

-- At the next resolution
CREATE FUNCTION h3_cell_to_parent(cell h3cell) RETURNS h3cell
    AS 'MODULE_PATHNAME', 'h3whole_cell_to_parent_next' LANGUAGE C IMMUTABLE STRICT PARALLEL SAFE;
CREATE FUNCTION h3_cell_to_center_child(cell h3cell) RETURNS h3cell
    AS 'MODULE_PATHNAME', 'h3whole_cell_to_center_child_next' LANGUAGE C IMMUTABLE STRICT PARALLEL SAFE;
CREATE FUNCTION h3_cell_to_children(cell h3cell) RETURNS SETOF h3cell
    AS 'MODULE_PATHNAME', 'h3whole_cell_to_children_next' LANGUAGE C IMMUTABLE STRICT PARALLEL SAFE
    ROWS 7;
CREATE FUNCTION h3_uncompact_cells(cells h3cell[]) RETURNS SETOF h3cell
    AS 'MODULE_PATHNAME', 'h3whole_uncompact_cells_next' LANGUAGE C IMMUTABLE STRICT PARALLEL SAFE;

-- The least and the greatest, and BRIN
CREATE FUNCTION h3cell_smaller(h3cell, h3cell) RETURNS h3cell
    AS 'MODULE_PATHNAME', 'h3whole_smaller' LANGUAGE C IMMUTABLE STRICT PARALLEL SAFE;
CREATE FUNCTION h3cell_larger(h3cell, h3cell) RETURNS h3cell
    AS 'MODULE_PATHNAME', 'h3whole_larger' LANGUAGE C IMMUTABLE STRICT PARALLEL SAFE;
CREATE AGGREGATE min(h3cell) (
    SFUNC = h3cell_smaller, STYPE = h3cell, COMBINEFUNC = h3cell_smaller, SORTOP = <, PARALLEL = SAFE
);
CREATE AGGREGATE max(h3cell) (
    SFUNC = h3cell_larger, STYPE = h3cell, COMBINEFUNC = h3cell_larger, SORTOP = >, PARALLEL = SAFE
);
CREATE OPERATOR CLASS h3cell_minmax_ops DEFAULT FOR TYPE h3cell USING brin AS
    OPERATOR 1 <, OPERATOR 2 <=, OPERATOR 3 =, OPERATOR 4 >=, OPERATOR 5 >,
    FUNCTION 1 brin_minmax_opcinfo(internal),
    FUNCTION 2 brin_minmax_add_value(internal, internal, internal, internal),
    FUNCTION 3 brin_minmax_consistent(internal, internal, internal),
    FUNCTION 4 brin_minmax_union(internal, internal, internal);

-- Over the base cell table that h3whole.base_cells names, and which another one may replace
CREATE FUNCTION h3_disk_rows(internal) RETURNS internal
    AS 'MODULE_PATHNAME', 'h3whole_disk_rows' LANGUAGE C STRICT PARALLEL SAFE;
CREATE FUNCTION h3_ring_rows(internal) RETURNS internal
    AS 'MODULE_PATHNAME', 'h3whole_ring_rows' LANGUAGE C STRICT PARALLEL SAFE;
CREATE FUNCTION h3_grid_disk_unsafe(origin h3cell, k bigint DEFAULT 1) RETURNS SETOF h3cell
    AS 'MODULE_PATHNAME', 'h3whole_grid_disk_unsafe' LANGUAGE C STABLE STRICT PARALLEL SAFE
    SUPPORT h3_disk_rows;
CREATE FUNCTION h3_grid_disk_distances_unsafe(
    origin h3cell, k bigint DEFAULT 1, OUT index h3cell, OUT distance integer
) RETURNS SETOF record
    AS 'MODULE_PATHNAME', 'h3whole_grid_disk_distances_unsafe' LANGUAGE C STABLE STRICT PARALLEL SAFE
    SUPPORT h3_disk_rows;
CREATE FUNCTION h3_grid_ring_unsafe(origin h3cell, k bigint DEFAULT 1) RETURNS SETOF h3cell
    AS 'MODULE_PATHNAME', 'h3whole_grid_ring_unsafe' LANGUAGE C STABLE STRICT PARALLEL SAFE
    SUPPORT h3_ring_rows;
CREATE FUNCTION h3_are_neighbor_cells(origin h3cell, destination h3cell) RETURNS boolean
    AS 'MODULE_PATHNAME', 'h3whole_are_neighbor_cells' LANGUAGE C STABLE STRICT PARALLEL SAFE;
CREATE FUNCTION h3_cells_to_directed_edge(origin h3cell, destination h3cell) RETURNS h3cell
    AS 'MODULE_PATHNAME', 'h3whole_cells_to_directed_edge' LANGUAGE C STABLE STRICT PARALLEL SAFE;
CREATE FUNCTION h3_get_directed_edge_destination(edge h3cell) RETURNS h3cell
    AS 'MODULE_PATHNAME', 'h3whole_get_directed_edge_destination' LANGUAGE C STABLE STRICT PARALLEL SAFE;

-- What each does
COMMENT ON FUNCTION h3_is_valid_cell(h3cell) IS 'whether it is a cell';
COMMENT ON FUNCTION h3_get_resolution(h3cell) IS 'the resolution of a cell, 0 to 15';
COMMENT ON FUNCTION h3_get_base_cell_number(h3cell) IS 'the base cell of a cell, 0 to 121';
COMMENT ON FUNCTION h3_is_pentagon(h3cell) IS 'whether a cell is a pentagon';
COMMENT ON FUNCTION h3_is_res_class_iii(h3cell) IS 'whether the resolution of a cell is Class III, which is odd';
COMMENT ON FUNCTION h3_get_num_cells(bigint) IS 'the number of cells of a resolution';
COMMENT ON FUNCTION h3_get_res_0_cells() IS 'the 122 cells of resolution 0, ascending';
COMMENT ON FUNCTION h3_get_pentagons(bigint) IS 'the 12 pentagons of a resolution, ascending';
COMMENT ON FUNCTION h3_cell_to_parent(h3cell, bigint) IS 'the ancestor of a cell at a resolution';
COMMENT ON FUNCTION h3_cell_to_parent(h3cell) IS 'the ancestor of a cell at the next coarser resolution';
COMMENT ON FUNCTION h3_cell_to_center_child(h3cell, bigint) IS
    'the descendant in the center of a cell at a resolution';
COMMENT ON FUNCTION h3_cell_to_center_child(h3cell) IS
    'the descendant in the center of a cell at the next finer resolution';
COMMENT ON FUNCTION h3_cell_to_children(h3cell, bigint) IS 'the descendants of a cell at a resolution, ascending';
COMMENT ON FUNCTION h3_cell_to_children(h3cell) IS
    'the descendants of a cell at the next finer resolution, ascending';
COMMENT ON FUNCTION h3_cell_to_children_size(h3cell, bigint) IS
    'the number of descendants of a cell at a resolution';
COMMENT ON FUNCTION h3_cell_to_child_pos(h3cell, bigint) IS
    'the position of a cell, from 0 on, among the descendants of its ancestor at a resolution';
COMMENT ON FUNCTION h3_child_pos_to_cell(bigint, h3cell, bigint) IS
    'the descendant of a cell at a resolution that has this position';
COMMENT ON FUNCTION h3_is_valid_directed_edge(h3cell) IS 'whether it is a directed edge';
COMMENT ON FUNCTION h3_get_directed_edge_origin(h3cell) IS 'the cell that an edge leaves';
COMMENT ON FUNCTION h3_origin_to_directed_edges(h3cell) IS
    'the edges that leave a cell, in ascending direction: six, a pentagon''s five';
COMMENT ON FUNCTION h3_compact_cells(h3cell[]) IS 'the least list of cells that covers the same, ascending';
COMMENT ON FUNCTION h3_uncompact_cells(h3cell[], bigint) IS
    'the descendants at a resolution of the first cell, ascending, then those of the second, and so on';
COMMENT ON FUNCTION h3_uncompact_cells(h3cell[]) IS
    'the same at the resolution that follows the finest of the cells';
COMMENT ON FUNCTION h3cell_in(cstring) IS
    'the index that a text parses as: 1 to 16 hexadecimal digits, with or without 0x';
COMMENT ON FUNCTION h3cell_out(h3cell) IS 'the text of an index';
COMMENT ON FUNCTION h3cell_recv(internal) IS 'the index of the binary form of a bigint';
COMMENT ON FUNCTION h3cell_send(h3cell) IS 'the binary form, which is that of a bigint';
COMMENT ON FUNCTION h3cell_eq(h3cell, h3cell) IS 'implementation of =';
COMMENT ON FUNCTION h3cell_ne(h3cell, h3cell) IS 'implementation of <>';
COMMENT ON FUNCTION h3cell_lt(h3cell, h3cell) IS 'implementation of <';
COMMENT ON FUNCTION h3cell_le(h3cell, h3cell) IS 'implementation of <=';
COMMENT ON FUNCTION h3cell_gt(h3cell, h3cell) IS 'implementation of >';
COMMENT ON FUNCTION h3cell_ge(h3cell, h3cell) IS 'implementation of >=';
COMMENT ON FUNCTION h3cell_cmp(h3cell, h3cell) IS '-1, 0 or 1: the order of the numbers without a sign';
COMMENT ON FUNCTION h3cell_hash(h3cell) IS 'a hash, as of a bigint';
COMMENT ON FUNCTION h3cell_hash_extended(h3cell, bigint) IS 'a hash of 64 bits with a seed, as of a bigint';
COMMENT ON FUNCTION h3cell_smaller(h3cell, h3cell) IS 'the lesser of two';
COMMENT ON FUNCTION h3cell_larger(h3cell, h3cell) IS 'the greater of two';
COMMENT ON FUNCTION h3_compact_step(internal, h3cell) IS 'takes a cell of h3_compact_cells';
COMMENT ON FUNCTION h3_compact_combine(internal, internal) IS 'joins two groups of h3_compact_cells';
COMMENT ON FUNCTION h3_compact_serial(internal) IS 'what a parallel worker hands on of h3_compact_cells';
COMMENT ON FUNCTION h3_compact_deserial(bytea, internal) IS
    'takes what a parallel worker has handed on of h3_compact_cells';
COMMENT ON FUNCTION h3_compact_final(internal) IS 'the result of h3_compact_cells';
COMMENT ON FUNCTION h3_grid_disk_unsafe(h3cell, bigint) IS 'the cells within k steps of a cell, ring by ring';
COMMENT ON FUNCTION h3_grid_disk_distances_unsafe(h3cell, bigint) IS
    'the cells within k steps of a cell, each with its distance';
COMMENT ON FUNCTION h3_grid_ring_unsafe(h3cell, bigint) IS 'the cells at k steps from a cell';
COMMENT ON FUNCTION h3_are_neighbor_cells(h3cell, h3cell) IS 'whether a step leads from the one cell to the other';
COMMENT ON FUNCTION h3_cells_to_directed_edge(h3cell, h3cell) IS 'the edge from a cell to a neighbor';
COMMENT ON FUNCTION h3_get_directed_edge_destination(h3cell) IS 'the cell that an edge leads to';
COMMENT ON FUNCTION h3_disk_rows(internal) IS 'the number of rows of a disk, for the planner';
COMMENT ON FUNCTION h3_ring_rows(internal) IS 'the number of rows of a ring, for the planner';
COMMENT ON FUNCTION h3_children_rows(internal) IS 'the number of rows of h3_cell_to_children, for the planner';
COMMENT ON FUNCTION h3_list_rows(internal) IS 'the number of rows of a function over an array, for the planner';
COMMENT ON AGGREGATE h3_compact_cells(h3cell) IS 'the least list of cells that covers the same, ascending, as an array';
COMMENT ON AGGREGATE min(h3cell) IS 'the least';
COMMENT ON AGGREGATE max(h3cell) IS 'the greatest';
