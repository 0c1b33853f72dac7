\echo Use "ALTER EXTENSION h3whole UPDATE TO '1.3'" to load this file. \quit

-- What a subquery prepares, once, for h3_is_covered and h3_zone_of: the planner writes the calls (h3_lookup_cost).
CREATE TYPE h3_prepared;
CREATE FUNCTION h3_prepared_in(cstring) RETURNS h3_prepared
    AS 'MODULE_PATHNAME', 'h3whole_prepared_in' LANGUAGE C IMMUTABLE STRICT PARALLEL SAFE;
CREATE FUNCTION h3_prepared_out(h3_prepared) RETURNS cstring
    AS 'MODULE_PATHNAME', 'h3whole_prepared_out' LANGUAGE C IMMUTABLE STRICT PARALLEL SAFE;
CREATE TYPE h3_prepared (
    INPUT = h3_prepared_in, OUTPUT = h3_prepared_out, INTERNALLENGTH = VARIABLE, ALIGNMENT = double, STORAGE = plain
);
CREATE FUNCTION h3_prepare_region(cells h3cell[]) RETURNS h3_prepared
    AS 'MODULE_PATHNAME', 'h3whole_prepare_region' LANGUAGE C IMMUTABLE STRICT PARALLEL SAFE COST 1000;
CREATE FUNCTION h3_prepare_zones(cells h3cell[]) RETURNS h3_prepared
    AS 'MODULE_PATHNAME', 'h3whole_prepare_zones' LANGUAGE C IMMUTABLE STRICT PARALLEL SAFE COST 1000;
CREATE FUNCTION h3_prepared_covers(cell h3cell, region h3_prepared) RETURNS boolean
    AS 'MODULE_PATHNAME', 'h3whole_prepared_covers' LANGUAGE C IMMUTABLE STRICT PARALLEL SAFE COST 10;
CREATE FUNCTION h3_prepared_zone_of(cell h3cell, zones h3_prepared) RETURNS h3cell
    AS 'MODULE_PATHNAME', 'h3whole_prepared_zone_of' LANGUAGE C IMMUTABLE STRICT PARALLEL SAFE COST 10;

COMMENT ON TYPE h3_prepared IS 'cells in which others are looked up, as h3_is_covered and h3_zone_of keep them';
COMMENT ON FUNCTION h3_prepared_in(cstring) IS 'refuses: no text is an h3_prepared';
COMMENT ON FUNCTION h3_prepared_out(h3_prepared) IS 'how many cells it has';
COMMENT ON FUNCTION h3_prepare_region(h3cell[]) IS 'what h3_is_covered prepares of a subquery';
COMMENT ON FUNCTION h3_prepare_zones(h3cell[]) IS 'what h3_zone_of prepares of a subquery';
COMMENT ON FUNCTION h3_prepared_covers(h3cell, h3_prepared) IS 'h3_is_covered over the region of a subquery';
COMMENT ON FUNCTION h3_prepared_zone_of(h3cell, h3_prepared) IS 'h3_zone_of over the zones of a subquery';

-- The greatest descendant: the cells of a resolution from the one in the center to it are the descendants there.
CREATE FUNCTION h3_cell_to_last_child(cell h3cell, resolution bigint) RETURNS h3cell
    AS 'MODULE_PATHNAME', 'h3whole_cell_to_last_child' LANGUAGE C IMMUTABLE STRICT PARALLEL SAFE;
CREATE FUNCTION h3_cell_to_last_child(cell h3cell) RETURNS h3cell
    AS 'MODULE_PATHNAME', 'h3whole_cell_to_last_child_next' LANGUAGE C IMMUTABLE STRICT PARALLEL SAFE;
COMMENT ON FUNCTION h3_cell_to_last_child(h3cell, bigint) IS
    'the last descendant of a cell at a resolution, which is the greatest; error 5 if not a valid cell, 4 if the resolution is not from the cell''s own to 15';
COMMENT ON FUNCTION h3_cell_to_last_child(h3cell) IS
    'the last descendant of a cell at the next finer resolution; error 5 if not a valid cell, 4 if it is of resolution 15';

-- Hierarchy: whether a cell covers another. What is no cell covers nothing, and is covered by nothing.
CREATE FUNCTION h3cell_contains(h3cell, h3cell) RETURNS boolean
    AS 'MODULE_PATHNAME', 'h3whole_contains' LANGUAGE C IMMUTABLE STRICT PARALLEL SAFE;
CREATE FUNCTION h3cell_contained(h3cell, h3cell) RETURNS boolean
    AS 'MODULE_PATHNAME', 'h3whole_contained' LANGUAGE C IMMUTABLE STRICT PARALLEL SAFE;
CREATE FUNCTION h3cell_overlaps(h3cell, h3cell) RETURNS boolean
    AS 'MODULE_PATHNAME', 'h3whole_overlaps' LANGUAGE C IMMUTABLE STRICT PARALLEL SAFE;
CREATE OPERATOR @> (
    LEFTARG = h3cell, RIGHTARG = h3cell, FUNCTION = h3cell_contains, COMMUTATOR = <@,
    RESTRICT = contsel, JOIN = contjoinsel
);
CREATE OPERATOR <@ (
    LEFTARG = h3cell, RIGHTARG = h3cell, FUNCTION = h3cell_contained, COMMUTATOR = @>,
    RESTRICT = contsel, JOIN = contjoinsel
);
CREATE OPERATOR && (
    LEFTARG = h3cell, RIGHTARG = h3cell, FUNCTION = h3cell_overlaps, COMMUTATOR = &&,
    RESTRICT = contsel, JOIN = contjoinsel
);

-- A radix tree by ancestors, for these operators
CREATE FUNCTION h3cell_tree_config(internal, internal) RETURNS void
    AS 'MODULE_PATHNAME', 'h3whole_tree_config' LANGUAGE C IMMUTABLE STRICT PARALLEL SAFE;
CREATE FUNCTION h3cell_tree_choose(internal, internal) RETURNS void
    AS 'MODULE_PATHNAME', 'h3whole_tree_choose' LANGUAGE C IMMUTABLE STRICT PARALLEL SAFE;
CREATE FUNCTION h3cell_tree_picksplit(internal, internal) RETURNS void
    AS 'MODULE_PATHNAME', 'h3whole_tree_picksplit' LANGUAGE C IMMUTABLE STRICT PARALLEL SAFE;
CREATE FUNCTION h3cell_tree_inner(internal, internal) RETURNS void
    AS 'MODULE_PATHNAME', 'h3whole_tree_inner' LANGUAGE C IMMUTABLE STRICT PARALLEL SAFE;
CREATE FUNCTION h3cell_tree_leaf(internal, internal) RETURNS boolean
    AS 'MODULE_PATHNAME', 'h3whole_tree_leaf' LANGUAGE C IMMUTABLE STRICT PARALLEL SAFE;
CREATE OPERATOR CLASS h3cell_tree_ops DEFAULT FOR TYPE h3cell USING spgist AS
    OPERATOR 3 && (h3cell, h3cell), OPERATOR 7 @> (h3cell, h3cell), OPERATOR 8 <@ (h3cell, h3cell),
    FUNCTION 1 h3cell_tree_config(internal, internal),
    FUNCTION 2 h3cell_tree_choose(internal, internal),
    FUNCTION 3 h3cell_tree_picksplit(internal, internal),
    FUNCTION 4 h3cell_tree_inner(internal, internal),
    FUNCTION 5 h3cell_tree_leaf(internal, internal);

COMMENT ON FUNCTION h3cell_contains(h3cell, h3cell) IS 'implementation of @>: the first is the second or an ancestor of it';
COMMENT ON FUNCTION h3cell_contained(h3cell, h3cell) IS 'implementation of <@: the second is the first or an ancestor of it';
COMMENT ON FUNCTION h3cell_overlaps(h3cell, h3cell) IS 'implementation of &&: one is the other or an ancestor of it';
COMMENT ON FUNCTION h3cell_tree_config(internal, internal) IS 'what an SP-GiST index of cells is made of';
COMMENT ON FUNCTION h3cell_tree_choose(internal, internal) IS 'where an SP-GiST index puts a cell';
COMMENT ON FUNCTION h3cell_tree_picksplit(internal, internal) IS 'how an SP-GiST index divides a page of cells';
COMMENT ON FUNCTION h3cell_tree_inner(internal, internal) IS 'which branches of an SP-GiST index may have what is asked for';
COMMENT ON FUNCTION h3cell_tree_leaf(internal, internal) IS 'whether a cell of an SP-GiST index is what is asked for';
COMMENT ON OPERATOR @> (h3cell, h3cell) IS 'contains: is it, or an ancestor of it';
COMMENT ON OPERATOR <@ (h3cell, h3cell) IS 'is contained by: is it, or a descendant of it';
COMMENT ON OPERATOR && (h3cell, h3cell) IS 'overlaps: contains it or is contained by it';

-- Equality with a bigint of the same bits, so that indexes of either answer. The order of bigint is another one from
-- 2^63 on, so no merge join goes by these.
CREATE FUNCTION h3cell_eq_bigint(h3cell, bigint) RETURNS boolean
    AS 'int8eq' LANGUAGE internal IMMUTABLE STRICT PARALLEL SAFE;
CREATE FUNCTION bigint_eq_h3cell(bigint, h3cell) RETURNS boolean
    AS 'int8eq' LANGUAGE internal IMMUTABLE STRICT PARALLEL SAFE;
CREATE FUNCTION h3cell_cmp_bigint(h3cell, bigint) RETURNS integer
    AS 'MODULE_PATHNAME', 'h3whole_cmp' LANGUAGE C IMMUTABLE STRICT PARALLEL SAFE;
CREATE FUNCTION bigint_cmp_h3cell(bigint, h3cell) RETURNS integer
    AS 'btint8cmp' LANGUAGE internal IMMUTABLE STRICT PARALLEL SAFE;
CREATE FUNCTION h3cell_cmp_signed(h3cell, h3cell) RETURNS integer
    AS 'btint8cmp' LANGUAGE internal IMMUTABLE STRICT PARALLEL SAFE;
CREATE FUNCTION bigint_cmp_unsigned(bigint, bigint) RETURNS integer
    AS 'MODULE_PATHNAME', 'h3whole_cmp' LANGUAGE C IMMUTABLE STRICT PARALLEL SAFE;
CREATE OPERATOR = (
    LEFTARG = h3cell, RIGHTARG = bigint, FUNCTION = h3cell_eq_bigint, COMMUTATOR = =,
    RESTRICT = eqsel, JOIN = eqjoinsel, HASHES
);
CREATE OPERATOR = (
    LEFTARG = bigint, RIGHTARG = h3cell, FUNCTION = bigint_eq_h3cell, COMMUTATOR = =,
    RESTRICT = eqsel, JOIN = eqjoinsel, HASHES
);
ALTER OPERATOR FAMILY h3cell_ops USING btree ADD
    OPERATOR 3 = (h3cell, bigint), FUNCTION 1 (h3cell, bigint) h3cell_cmp_bigint(h3cell, bigint),
    FUNCTION 1 (bigint, bigint) bigint_cmp_unsigned(bigint, bigint);
ALTER OPERATOR FAMILY integer_ops USING btree ADD
    OPERATOR 3 = (bigint, h3cell), FUNCTION 1 (bigint, h3cell) bigint_cmp_h3cell(bigint, h3cell),
    FUNCTION 1 (h3cell, h3cell) h3cell_cmp_signed(h3cell, h3cell);
ALTER OPERATOR FAMILY h3cell_hash_ops USING hash ADD
    OPERATOR 1 = (h3cell, bigint), OPERATOR 1 = (bigint, h3cell),
    FUNCTION 1 (bigint, bigint) hashint8(bigint), FUNCTION 2 (bigint, bigint) hashint8extended(bigint, bigint);
ALTER OPERATOR FAMILY integer_ops USING hash ADD
    OPERATOR 1 = (bigint, h3cell), FUNCTION 1 (h3cell, h3cell) h3cell_hash(h3cell),
    FUNCTION 2 (h3cell, h3cell) h3cell_hash_extended(h3cell, bigint);

COMMENT ON FUNCTION h3cell_eq_bigint(h3cell, bigint) IS 'implementation of =';
COMMENT ON FUNCTION bigint_eq_h3cell(bigint, h3cell) IS 'implementation of =';
COMMENT ON FUNCTION h3cell_cmp_bigint(h3cell, bigint) IS '-1, 0 or 1: the order of the numbers without a sign';
COMMENT ON FUNCTION bigint_cmp_h3cell(bigint, h3cell) IS '-1, 0 or 1: the order of the numbers with a sign';
COMMENT ON FUNCTION h3cell_cmp_signed(h3cell, h3cell) IS '-1, 0 or 1: the order of the numbers with a sign';
COMMENT ON FUNCTION bigint_cmp_unsigned(bigint, bigint) IS '-1, 0 or 1: the order of the numbers without a sign';

-- Counts by zones, of rows. Zones and counts come as rows of an array, which unnest takes apart.
CREATE TYPE h3_zone_count AS (zone h3cell, cells bigint);
CREATE FUNCTION h3_count_step(internal, h3cell, h3cell[]) RETURNS internal
    AS 'MODULE_PATHNAME', 'h3whole_count_step' LANGUAGE C IMMUTABLE PARALLEL SAFE;
CREATE FUNCTION h3_count_combine(internal, internal) RETURNS internal
    AS 'MODULE_PATHNAME', 'h3whole_count_combine' LANGUAGE C IMMUTABLE PARALLEL SAFE;
CREATE FUNCTION h3_count_serial(internal) RETURNS bytea
    AS 'MODULE_PATHNAME', 'h3whole_count_serial' LANGUAGE C IMMUTABLE STRICT PARALLEL SAFE;
CREATE FUNCTION h3_count_deserial(bytea, internal) RETURNS internal
    AS 'MODULE_PATHNAME', 'h3whole_count_deserial' LANGUAGE C IMMUTABLE STRICT PARALLEL SAFE;
CREATE FUNCTION h3_count_final(internal) RETURNS h3_zone_count[]
    AS 'MODULE_PATHNAME', 'h3whole_count_final' LANGUAGE C IMMUTABLE PARALLEL SAFE;
CREATE AGGREGATE h3_count_cells_in_zones(cell h3cell, zones h3cell[]) (
    SFUNC = h3_count_step, STYPE = internal, FINALFUNC = h3_count_final, COMBINEFUNC = h3_count_combine,
    SERIALFUNC = h3_count_serial, DESERIALFUNC = h3_count_deserial, PARALLEL = SAFE
);

COMMENT ON TYPE h3_zone_count IS 'a zone, or NULL in place of none, and how many cells lie in it';
COMMENT ON FUNCTION h3_count_step(internal, h3cell, h3cell[]) IS 'takes a cell of h3_count_cells_in_zones';
COMMENT ON FUNCTION h3_count_combine(internal, internal) IS 'joins two groups of h3_count_cells_in_zones';
COMMENT ON FUNCTION h3_count_serial(internal) IS 'what a parallel worker hands on of h3_count_cells_in_zones';
COMMENT ON FUNCTION h3_count_deserial(bytea, internal) IS
    'takes what a parallel worker has handed on of h3_count_cells_in_zones';
COMMENT ON FUNCTION h3_count_final(internal) IS 'the result of h3_count_cells_in_zones';
COMMENT ON AGGREGATE h3_count_cells_in_zones(h3cell, h3cell[]) IS
    'how many cells of the rows lie in each zone, ascending, and, with NULL, in none; error 5 if one is not a valid cell, 10 if two zones overlap';

-- What each function does, with H3's errors, in the order in which they are judged.
COMMENT ON FUNCTION h3_is_valid_cell(h3cell) IS 'whether an index is a valid cell';
COMMENT ON FUNCTION h3_get_resolution(h3cell) IS 'the resolution of a cell, 0 to 15; error 5 if not a valid cell';
COMMENT ON FUNCTION h3_get_base_cell_number(h3cell) IS 'the base cell of a cell, 0 to 121; error 5 if not a valid cell';
COMMENT ON FUNCTION h3_is_pentagon(h3cell) IS 'whether a cell is a pentagon; error 5 if not a valid cell';
COMMENT ON FUNCTION h3_is_res_class_iii(h3cell) IS
    'whether the resolution of a cell is Class III, which is odd; error 5 if not a valid cell';
COMMENT ON FUNCTION h3_get_num_cells(bigint) IS
    'the number of cells of a resolution; error 4 if the resolution is not 0 to 15';
COMMENT ON FUNCTION h3_get_pentagons(bigint) IS
    'the 12 pentagons of a resolution, ascending; error 4 if the resolution is not 0 to 15';
COMMENT ON FUNCTION h3_cell_to_parent(h3cell, bigint) IS
    'the ancestor of a cell at a resolution; error 5 if not a valid cell, 4 if the resolution is not 0 to 15, 12 if finer than the cell''s';
COMMENT ON FUNCTION h3_cell_to_center_child(h3cell, bigint) IS
    'the descendant in the center of a cell at a resolution; error 5 if not a valid cell, 4 if the resolution is not from the cell''s own to 15';
COMMENT ON FUNCTION h3_cell_to_children(h3cell, bigint) IS
    'the descendants of a cell at a resolution, ascending; error 5 if not a valid cell, 4 if the resolution is not from the cell''s own to 15';
COMMENT ON FUNCTION h3_cell_to_children_size(h3cell, bigint) IS
    'the number of descendants of a cell at a resolution; error 5 if not a valid cell, 4 if the resolution is not from the cell''s own to 15';
COMMENT ON FUNCTION h3_cell_to_child_pos(h3cell, bigint) IS
    'the position of a cell, from 0 on, among the descendants of its ancestor at a resolution; error 5 if not a valid cell, 4 if the resolution is not 0 to 15, 12 if finer than the cell''s';
COMMENT ON FUNCTION h3_child_pos_to_cell(bigint, h3cell, bigint) IS
    'the descendant of a cell at a position, from 0 on; error 5 if not a valid cell, 4 if the resolution is not 0 to 15, 12 if coarser than the cell''s, 2 if there is no such position';
COMMENT ON FUNCTION h3_is_valid_directed_edge(h3cell) IS 'whether an index is a valid directed edge';
COMMENT ON FUNCTION h3_get_directed_edge_origin(h3cell) IS
    'the cell that an edge leaves; error 6 if not a valid directed edge';
COMMENT ON FUNCTION h3_origin_to_directed_edges(h3cell) IS
    'the edges that leave a cell, in ascending direction: six, of a pentagon five; error 5 if not a valid cell';
COMMENT ON FUNCTION h3_compact_cells(h3cell[]) IS
    'the shortest list of cells that covers the same, ascending; error 5 if one is not a valid cell, 10 if two overlap';
COMMENT ON FUNCTION h3_uncompact_cells(h3cell[], bigint) IS
    'the descendants at a resolution of the first cell, ascending, then those of the second, and so on; error 5 if one is not a valid cell, 4 if the resolution is not 0 to 15, 12 if coarser than a cell''s';
COMMENT ON FUNCTION h3_intersect_cells(h3cell[], h3cell[]) IS
    'the shortest list of cells that covers what both arrays cover, ascending; error 5 if one is not a valid cell';
COMMENT ON FUNCTION h3_subtract_cells(h3cell[], h3cell[]) IS
    'the shortest list of cells that covers what the first array covers and the second does not, ascending; error 5 if one is not a valid cell';
COMMENT ON FUNCTION h3_is_covered(h3cell, h3cell[]) IS
    'whether a region covers a cell: one of its cells is the cell or an ancestor of it; error 5 if one is not a valid cell';
COMMENT ON FUNCTION h3_zone_of(h3cell, h3cell[]) IS
    'the zone of a cell: the one that is the cell or an ancestor of it, or NULL; error 5 if one is not a valid cell, 10 if two zones overlap';
COMMENT ON FUNCTION h3_cell_to_ancestors(h3cell) IS
    'the ancestors of a cell and the cell itself, ascending; error 5 if not a valid cell';
COMMENT ON AGGREGATE h3_compact_cells(h3cell) IS
    'the shortest list of cells that covers the same as the rows, ascending, as an array; error 5 if one is not a valid cell, 10 if two overlap';
COMMENT ON AGGREGATE h3_unite_cells(h3cell) IS
    'the shortest list of cells that covers the same as the rows, which may repeat and overlap, ascending, as an array; error 5 if one is not a valid cell';
