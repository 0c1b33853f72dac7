\echo Use "ALTER EXTENSION h3whole UPDATE TO '1.4'" to load this file. \quit

-- The walks over the base cell table, without rows for a cell whose walk meets a pentagon base cell
CREATE FUNCTION h3_grid_disk_unsafe_or_none(origin h3cell, k bigint DEFAULT 1) RETURNS SETOF h3cell
    AS 'MODULE_PATHNAME', 'h3whole_grid_disk_unsafe_or_none' LANGUAGE C STABLE STRICT PARALLEL SAFE
    SUPPORT h3_disk_rows;
CREATE FUNCTION h3_grid_disk_distances_unsafe_or_none(
    origin h3cell, k bigint DEFAULT 1, OUT index h3cell, OUT distance integer
) RETURNS SETOF record
    AS 'MODULE_PATHNAME', 'h3whole_grid_disk_distances_unsafe_or_none' LANGUAGE C STABLE STRICT PARALLEL SAFE
    SUPPORT h3_disk_rows;
CREATE FUNCTION h3_grid_ring_unsafe_or_none(origin h3cell, k bigint DEFAULT 1) RETURNS SETOF h3cell
    AS 'MODULE_PATHNAME', 'h3whole_grid_ring_unsafe_or_none' LANGUAGE C STABLE STRICT PARALLEL SAFE
    SUPPORT h3_ring_rows;

COMMENT ON FUNCTION h3_grid_disk_unsafe_or_none(h3cell, bigint) IS
    'the cells within k steps of a cell, ring by ring; none if a step meets a pentagon base cell';
COMMENT ON FUNCTION h3_grid_disk_distances_unsafe_or_none(h3cell, bigint) IS
    'the cells within k steps of a cell, each with its distance; none if a step meets a pentagon base cell';
COMMENT ON FUNCTION h3_grid_ring_unsafe_or_none(h3cell, bigint) IS
    'the cells at k steps from a cell; none if a step meets a pentagon base cell';

-- The place of a cell's zone in the array, as a subscript of it, and the zones that cover a cell, which may overlap. What
-- a subquery prepares is prepared once, as for h3_zone_of.
CREATE FUNCTION h3_place_of(cell h3cell, zones h3cell[]) RETURNS integer
    AS 'MODULE_PATHNAME', 'h3whole_place_of' LANGUAGE C IMMUTABLE STRICT PARALLEL SAFE COST 100
    SUPPORT h3_lookup_cost;
CREATE FUNCTION h3_zones_of(cell h3cell, zones h3cell[]) RETURNS SETOF h3cell
    AS 'MODULE_PATHNAME', 'h3whole_zones_of' LANGUAGE C IMMUTABLE STRICT PARALLEL SAFE COST 100 ROWS 4
    SUPPORT h3_lookup_cost;
CREATE FUNCTION h3_prepare_places(cells h3cell[]) RETURNS h3_prepared
    AS 'MODULE_PATHNAME', 'h3whole_prepare_places' LANGUAGE C IMMUTABLE STRICT PARALLEL SAFE COST 1000;
CREATE FUNCTION h3_prepared_place_of(cell h3cell, zones h3_prepared) RETURNS integer
    AS 'MODULE_PATHNAME', 'h3whole_prepared_place_of' LANGUAGE C IMMUTABLE STRICT PARALLEL SAFE COST 10;
CREATE FUNCTION h3_prepare_overlapping(cells h3cell[]) RETURNS h3_prepared
    AS 'MODULE_PATHNAME', 'h3whole_prepare_overlapping' LANGUAGE C IMMUTABLE STRICT PARALLEL SAFE COST 1000;
CREATE FUNCTION h3_prepared_zones_of(cell h3cell, zones h3_prepared) RETURNS SETOF h3cell
    AS 'MODULE_PATHNAME', 'h3whole_prepared_zones_of' LANGUAGE C IMMUTABLE STRICT PARALLEL SAFE COST 10 ROWS 4;

COMMENT ON FUNCTION h3_place_of(h3cell, h3cell[]) IS
    'the place of a cell''s zone in the array, as a subscript of it, or NULL; error 5 if one is not a valid cell, 10 if two zones overlap';
COMMENT ON FUNCTION h3_zones_of(h3cell, h3cell[]) IS
    'the zones of the array that are a cell or an ancestor of it, each once, coarsest first; they may overlap; error 5 if one is not a valid cell';
COMMENT ON FUNCTION h3_prepare_places(h3cell[]) IS 'what h3_place_of prepares of a subquery';
COMMENT ON FUNCTION h3_prepared_place_of(h3cell, h3_prepared) IS 'h3_place_of over the zones of a subquery';
COMMENT ON FUNCTION h3_prepare_overlapping(h3cell[]) IS 'what h3_zones_of prepares of a subquery';
COMMENT ON FUNCTION h3_prepared_zones_of(h3cell, h3_prepared) IS 'h3_zones_of over the zones of a subquery';
COMMENT ON FUNCTION h3_lookup_cost(internal) IS
    'what h3_is_covered, h3_zone_of, h3_place_of and h3_zones_of cost, for the planner';
