\echo Use "ALTER EXTENSION h3whole UPDATE TO '1.2'" to load this file. \quit

-- Unions: of rows, whose cells may repeat and overlap. What a step and a worker keep is that of h3_compact_cells.
CREATE FUNCTION h3_unite_serial(internal) RETURNS bytea
    AS 'MODULE_PATHNAME', 'h3whole_unite_serial' LANGUAGE C IMMUTABLE STRICT PARALLEL SAFE;
CREATE FUNCTION h3_unite_final(internal) RETURNS h3cell[]
    AS 'MODULE_PATHNAME', 'h3whole_unite_final' LANGUAGE C IMMUTABLE PARALLEL SAFE;
CREATE AGGREGATE h3_unite_cells(h3cell) (
    SFUNC = h3_compact_step, STYPE = internal, FINALFUNC = h3_unite_final, COMBINEFUNC = h3_compact_combine,
    SERIALFUNC = h3_unite_serial, DESERIALFUNC = h3_compact_deserial, PARALLEL = SAFE
);

-- Over arrays, whose cells may repeat and overlap
CREATE FUNCTION h3_intersect_cells(first h3cell[], second h3cell[]) RETURNS h3cell[]
    AS 'MODULE_PATHNAME', 'h3whole_intersect_cells' LANGUAGE C IMMUTABLE STRICT PARALLEL SAFE COST 1000;
CREATE FUNCTION h3_subtract_cells(first h3cell[], second h3cell[]) RETURNS h3cell[]
    AS 'MODULE_PATHNAME', 'h3whole_subtract_cells' LANGUAGE C IMMUTABLE STRICT PARALLEL SAFE COST 1000;

-- Lookups. What they cost depends on whether the array is a constant, which is prepared once.
CREATE FUNCTION h3_lookup_cost(internal) RETURNS internal
    AS 'MODULE_PATHNAME', 'h3whole_lookup_cost' LANGUAGE C STRICT PARALLEL SAFE;
CREATE FUNCTION h3_is_covered(cell h3cell, region h3cell[]) RETURNS boolean
    AS 'MODULE_PATHNAME', 'h3whole_is_covered' LANGUAGE C IMMUTABLE STRICT PARALLEL SAFE COST 100
    SUPPORT h3_lookup_cost;
CREATE FUNCTION h3_zone_of(cell h3cell, zones h3cell[]) RETURNS h3cell
    AS 'MODULE_PATHNAME', 'h3whole_zone_of' LANGUAGE C IMMUTABLE STRICT PARALLEL SAFE COST 100
    SUPPORT h3_lookup_cost;
CREATE FUNCTION h3_cell_to_ancestors(cell h3cell) RETURNS h3cell[]
    AS 'MODULE_PATHNAME', 'h3whole_cell_to_ancestors' LANGUAGE C IMMUTABLE STRICT PARALLEL SAFE COST 10;

COMMENT ON FUNCTION h3_intersect_cells(h3cell[], h3cell[]) IS
    'the least list of cells that covers what both arrays cover, ascending';
COMMENT ON FUNCTION h3_subtract_cells(h3cell[], h3cell[]) IS
    'the least list of cells that covers what the first array covers and the second does not, ascending';
COMMENT ON FUNCTION h3_is_covered(h3cell, h3cell[]) IS 'whether cells cover a cell: one of them is it or an ancestor of it';
COMMENT ON FUNCTION h3_zone_of(h3cell, h3cell[]) IS
    'which of the cells, of which no two overlap, is a cell or an ancestor of it; NULL where none is';
COMMENT ON FUNCTION h3_cell_to_ancestors(h3cell) IS 'the ancestors of a cell and the cell itself, ascending';
COMMENT ON FUNCTION h3_lookup_cost(internal) IS 'what h3_is_covered and h3_zone_of cost, for the planner';
COMMENT ON FUNCTION h3_unite_serial(internal) IS 'what a parallel worker hands on of h3_unite_cells';
COMMENT ON FUNCTION h3_unite_final(internal) IS 'the result of h3_unite_cells';
COMMENT ON FUNCTION h3_compact_step(internal, h3cell) IS 'takes a cell of h3_compact_cells or h3_unite_cells';
COMMENT ON FUNCTION h3_compact_combine(internal, internal) IS
    'joins two groups of h3_compact_cells or of h3_unite_cells';
COMMENT ON FUNCTION h3_compact_deserial(bytea, internal) IS
    'takes what a parallel worker has handed on of h3_compact_cells or h3_unite_cells';
COMMENT ON AGGREGATE h3_unite_cells(h3cell) IS
    'the least list of cells that covers what the rows cover, ascending, as an array';
