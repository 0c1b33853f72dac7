\echo Use "CREATE EXTENSION h3whole" to load this file. \quit

-- The type: an index of H3, which is a number of 64 bits without a sign. What it shares with bigint is bigint's own.
CREATE TYPE h3cell;

CREATE FUNCTION h3cell_in(cstring) RETURNS h3cell
    AS 'MODULE_PATHNAME', 'h3whole_in' LANGUAGE C IMMUTABLE STRICT PARALLEL SAFE;
CREATE FUNCTION h3cell_out(h3cell) RETURNS cstring
    AS 'MODULE_PATHNAME', 'h3whole_out' LANGUAGE C IMMUTABLE STRICT PARALLEL SAFE;
CREATE FUNCTION h3cell_recv(internal) RETURNS h3cell
    AS 'int8recv' LANGUAGE internal IMMUTABLE STRICT PARALLEL SAFE;
CREATE FUNCTION h3cell_send(h3cell) RETURNS bytea
    AS 'int8send' LANGUAGE internal IMMUTABLE STRICT PARALLEL SAFE;

CREATE TYPE h3cell (
    INPUT = h3cell_in, OUTPUT = h3cell_out, RECEIVE = h3cell_recv, SEND = h3cell_send, LIKE = bigint
);
COMMENT ON TYPE h3cell IS 'an index of H3: a cell or a directed edge';

-- A bigint has the same bits: from 2^63 on it is negative.
CREATE CAST (bigint AS h3cell) WITHOUT FUNCTION AS IMPLICIT;
CREATE CAST (h3cell AS bigint) WITHOUT FUNCTION AS ASSIGNMENT;

-- Order and hashes
CREATE FUNCTION h3cell_eq(h3cell, h3cell) RETURNS boolean
    AS 'int8eq' LANGUAGE internal IMMUTABLE STRICT PARALLEL SAFE;
CREATE FUNCTION h3cell_ne(h3cell, h3cell) RETURNS boolean
    AS 'int8ne' LANGUAGE internal IMMUTABLE STRICT PARALLEL SAFE;
CREATE FUNCTION h3cell_lt(h3cell, h3cell) RETURNS boolean
    AS 'MODULE_PATHNAME', 'h3whole_lt' LANGUAGE C IMMUTABLE STRICT PARALLEL SAFE;
CREATE FUNCTION h3cell_le(h3cell, h3cell) RETURNS boolean
    AS 'MODULE_PATHNAME', 'h3whole_le' LANGUAGE C IMMUTABLE STRICT PARALLEL SAFE;
CREATE FUNCTION h3cell_gt(h3cell, h3cell) RETURNS boolean
    AS 'MODULE_PATHNAME', 'h3whole_gt' LANGUAGE C IMMUTABLE STRICT PARALLEL SAFE;
CREATE FUNCTION h3cell_ge(h3cell, h3cell) RETURNS boolean
    AS 'MODULE_PATHNAME', 'h3whole_ge' LANGUAGE C IMMUTABLE STRICT PARALLEL SAFE;
CREATE FUNCTION h3cell_cmp(h3cell, h3cell) RETURNS integer
    AS 'MODULE_PATHNAME', 'h3whole_cmp' LANGUAGE C IMMUTABLE STRICT PARALLEL SAFE;
CREATE FUNCTION h3cell_hash(h3cell) RETURNS integer
    AS 'hashint8' LANGUAGE internal IMMUTABLE STRICT PARALLEL SAFE;
CREATE FUNCTION h3cell_hash_extended(h3cell, bigint) RETURNS bigint
    AS 'hashint8extended' LANGUAGE internal IMMUTABLE STRICT PARALLEL SAFE;

CREATE OPERATOR = (
    LEFTARG = h3cell, RIGHTARG = h3cell, FUNCTION = h3cell_eq, COMMUTATOR = =, NEGATOR = <>,
    RESTRICT = eqsel, JOIN = eqjoinsel, HASHES, MERGES
);
CREATE OPERATOR <> (
    LEFTARG = h3cell, RIGHTARG = h3cell, FUNCTION = h3cell_ne, COMMUTATOR = <>, NEGATOR = =,
    RESTRICT = neqsel, JOIN = neqjoinsel
);
CREATE OPERATOR < (
    LEFTARG = h3cell, RIGHTARG = h3cell, FUNCTION = h3cell_lt, COMMUTATOR = >, NEGATOR = >=,
    RESTRICT = scalarltsel, JOIN = scalarltjoinsel
);
CREATE OPERATOR <= (
    LEFTARG = h3cell, RIGHTARG = h3cell, FUNCTION = h3cell_le, COMMUTATOR = >=, NEGATOR = >,
    RESTRICT = scalarlesel, JOIN = scalarlejoinsel
);
CREATE OPERATOR > (
    LEFTARG = h3cell, RIGHTARG = h3cell, FUNCTION = h3cell_gt, COMMUTATOR = <, NEGATOR = <=,
    RESTRICT = scalargtsel, JOIN = scalargtjoinsel
);
CREATE OPERATOR >= (
    LEFTARG = h3cell, RIGHTARG = h3cell, FUNCTION = h3cell_ge, COMMUTATOR = <=, NEGATOR = <,
    RESTRICT = scalargesel, JOIN = scalargejoinsel
);

CREATE OPERATOR CLASS h3cell_ops DEFAULT FOR TYPE h3cell USING btree AS
    OPERATOR 1 <, OPERATOR 2 <=, OPERATOR 3 =, OPERATOR 4 >=, OPERATOR 5 >,
    FUNCTION 1 h3cell_cmp(h3cell, h3cell),
    FUNCTION 4 btequalimage(oid);
CREATE OPERATOR CLASS h3cell_hash_ops DEFAULT FOR TYPE h3cell USING hash AS
    OPERATOR 1 =,
    FUNCTION 1 h3cell_hash(h3cell),
    FUNCTION 2 h3cell_hash_extended(h3cell, bigint);

-- Inspection
CREATE FUNCTION h3_is_valid_cell(cell h3cell) RETURNS boolean
    AS 'MODULE_PATHNAME', 'h3whole_is_valid_cell' LANGUAGE C IMMUTABLE STRICT PARALLEL SAFE;
CREATE FUNCTION h3_get_resolution(cell h3cell) RETURNS integer
    AS 'MODULE_PATHNAME', 'h3whole_get_resolution' LANGUAGE C IMMUTABLE STRICT PARALLEL SAFE;
CREATE FUNCTION h3_get_base_cell_number(cell h3cell) RETURNS integer
    AS 'MODULE_PATHNAME', 'h3whole_get_base_cell_number' LANGUAGE C IMMUTABLE STRICT PARALLEL SAFE;
CREATE FUNCTION h3_is_pentagon(cell h3cell) RETURNS boolean
    AS 'MODULE_PATHNAME', 'h3whole_is_pentagon' LANGUAGE C IMMUTABLE STRICT PARALLEL SAFE;
CREATE FUNCTION h3_is_res_class_iii(cell h3cell) RETURNS boolean
    AS 'MODULE_PATHNAME', 'h3whole_is_res_class_iii' LANGUAGE C IMMUTABLE STRICT PARALLEL SAFE;

-- Resolutions
CREATE FUNCTION h3_get_num_cells(resolution integer) RETURNS bigint
    AS 'MODULE_PATHNAME', 'h3whole_get_num_cells' LANGUAGE C IMMUTABLE STRICT PARALLEL SAFE;
CREATE FUNCTION h3_get_res_0_cells() RETURNS SETOF h3cell
    AS 'MODULE_PATHNAME', 'h3whole_get_res_0_cells' LANGUAGE C IMMUTABLE STRICT PARALLEL SAFE ROWS 122;
CREATE FUNCTION h3_get_pentagons(resolution integer) RETURNS SETOF h3cell
    AS 'MODULE_PATHNAME', 'h3whole_get_pentagons' LANGUAGE C IMMUTABLE STRICT PARALLEL SAFE ROWS 12;

-- Hierarchy
CREATE FUNCTION h3_cell_to_parent(cell h3cell, resolution integer) RETURNS h3cell
    AS 'MODULE_PATHNAME', 'h3whole_cell_to_parent' LANGUAGE C IMMUTABLE STRICT PARALLEL SAFE;
CREATE FUNCTION h3_cell_to_center_child(cell h3cell, resolution integer) RETURNS h3cell
    AS 'MODULE_PATHNAME', 'h3whole_cell_to_center_child' LANGUAGE C IMMUTABLE STRICT PARALLEL SAFE;
CREATE FUNCTION h3_cell_to_children(cell h3cell, resolution integer) RETURNS SETOF h3cell
    AS 'MODULE_PATHNAME', 'h3whole_cell_to_children' LANGUAGE C IMMUTABLE STRICT PARALLEL SAFE;
CREATE FUNCTION h3_cell_to_children_size(cell h3cell, resolution integer) RETURNS bigint
    AS 'MODULE_PATHNAME', 'h3whole_cell_to_children_size' LANGUAGE C IMMUTABLE STRICT PARALLEL SAFE;
CREATE FUNCTION h3_cell_to_child_pos(child h3cell, parent_res integer) RETURNS bigint
    AS 'MODULE_PATHNAME', 'h3whole_cell_to_child_pos' LANGUAGE C IMMUTABLE STRICT PARALLEL SAFE;
CREATE FUNCTION h3_child_pos_to_cell(child_pos bigint, parent h3cell, child_res integer) RETURNS h3cell
    AS 'MODULE_PATHNAME', 'h3whole_child_pos_to_cell' LANGUAGE C IMMUTABLE STRICT PARALLEL SAFE;

-- Directed edges
CREATE FUNCTION h3_is_valid_directed_edge(edge h3cell) RETURNS boolean
    AS 'MODULE_PATHNAME', 'h3whole_is_valid_directed_edge' LANGUAGE C IMMUTABLE STRICT PARALLEL SAFE;
CREATE FUNCTION h3_get_directed_edge_origin(edge h3cell) RETURNS h3cell
    AS 'MODULE_PATHNAME', 'h3whole_get_directed_edge_origin' LANGUAGE C IMMUTABLE STRICT PARALLEL SAFE;
CREATE FUNCTION h3_origin_to_directed_edges(origin h3cell) RETURNS SETOF h3cell
    AS 'MODULE_PATHNAME', 'h3whole_origin_to_directed_edges' LANGUAGE C IMMUTABLE STRICT PARALLEL SAFE ROWS 6;

-- Sets of cells: over arrays, and compaction over rows too
CREATE FUNCTION h3_compact_cells(cells h3cell[]) RETURNS SETOF h3cell
    AS 'MODULE_PATHNAME', 'h3whole_compact_cells' LANGUAGE C IMMUTABLE STRICT PARALLEL SAFE;
CREATE FUNCTION h3_uncompact_cells(cells h3cell[], resolution integer) RETURNS SETOF h3cell
    AS 'MODULE_PATHNAME', 'h3whole_uncompact_cells' LANGUAGE C IMMUTABLE STRICT PARALLEL SAFE;

CREATE FUNCTION h3_compact_step(internal, h3cell) RETURNS internal
    AS 'MODULE_PATHNAME', 'h3whole_compact_step' LANGUAGE C IMMUTABLE PARALLEL SAFE;
CREATE FUNCTION h3_compact_combine(internal, internal) RETURNS internal
    AS 'MODULE_PATHNAME', 'h3whole_compact_combine' LANGUAGE C IMMUTABLE PARALLEL SAFE;
CREATE FUNCTION h3_compact_serial(internal) RETURNS bytea
    AS 'MODULE_PATHNAME', 'h3whole_compact_serial' LANGUAGE C IMMUTABLE STRICT PARALLEL SAFE;
CREATE FUNCTION h3_compact_deserial(bytea, internal) RETURNS internal
    AS 'MODULE_PATHNAME', 'h3whole_compact_deserial' LANGUAGE C IMMUTABLE STRICT PARALLEL SAFE;
CREATE FUNCTION h3_compact_final(internal) RETURNS h3cell[]
    AS 'MODULE_PATHNAME', 'h3whole_compact_final' LANGUAGE C IMMUTABLE PARALLEL SAFE;
CREATE AGGREGATE h3_compact_cells(h3cell) (
    SFUNC = h3_compact_step, STYPE = internal, FINALFUNC = h3_compact_final, COMBINEFUNC = h3_compact_combine,
    SERIALFUNC = h3_compact_serial, DESERIALFUNC = h3_compact_deserial, PARALLEL = SAFE
);
