/* H3's functions in PostgreSQL. h3whole--1.0.sql and the scripts of later versions declare them; docs/library/sql.md
 * lists them. */
#include "postgres.h"

#include "access/spgist.h"
#include "catalog/pg_proc.h"
#include "catalog/pg_type.h"
#include "fmgr.h"
#include "funcapi.h"
#include "miscadmin.h"
#include "nodes/makefuncs.h"
#include "nodes/nodeFuncs.h"
#include "nodes/pathnodes.h"
#include "nodes/supportnodes.h"
#include "optimizer/cost.h"
#include "optimizer/optimizer.h"
#include "rewrite/rewriteManip.h"
#include "storage/fd.h"
#include "utils/acl.h"
#include "utils/array.h"
#include "utils/builtins.h"
#include "utils/guc.h"
#include "utils/lsyscache.h"
#include "utils/memutils.h"
#include "utils/syscache.h"
#include "utils/tuplestore.h"
#include "utils/typcache.h"
#if PG_VERSION_NUM >= 160000
#include "varatt.h"
#endif

#include <inttypes.h>

#include "common.h"

PG_MODULE_MAGIC;

/* an h3cell is its index, as the Datum and as the items of an array */
StaticAssertDecl(sizeof(Datum) == sizeof(H3Index), "h3cell takes a server of 64 bits");

#define GET_INDEX(n) ((H3Index) PG_GETARG_INT64(n))
#define INDEX_DATUM(index) Int64GetDatum((int64) (index))

static int sqlstate_of(H3Error error)
{
	switch (error)
	{
		case E_FAILED:
			return ERRCODE_INVALID_TEXT_REPRESENTATION;
		case E_MEMORY_ALLOC:
			return ERRCODE_OUT_OF_MEMORY;
		default:
			return ERRCODE_INVALID_PARAMETER_VALUE;
	}
}

/* Reports an error of H3, and what was refused. */
static void pg_attribute_printf(2, 3) refuse(H3Error error, const char *format, ...)
{
	char text[H3SQL_ERROR_ROOM];
	char about[H3SQL_ABOUT_ROOM];
	va_list given;

	h3sql_error_text(error, text);
	if (error == E_MEMORY_ALLOC)
		ereport(ERROR, (errcode(sqlstate_of(error)), errmsg("%s", text)));
	va_start(given, format);
	vsnprintf(about, sizeof about, format, given);
	va_end(given);
	ereport(ERROR, (errcode(sqlstate_of(error)), errmsg("%s: %s", text, about)));
}

/* Reports an error of a function of an index. */
static void check(H3Error error, H3Index index)
{
	if (unlikely(error))
		refuse(error, "%" PRIx64, index);
}

/* Reports an error of a function of an index and a resolution. */
static void check_at(H3Error error, H3Index index, int64 res)
{
	if (likely(!error))
		return;
	if (error == E_CELL_INVALID)
		check(error, index);
	refuse(error, "%" PRIx64 " at resolution " INT64_FORMAT, index, res);
}

/* Reports an error of a function of a resolution. */
static void check_resolution(H3Error error, int64 res)
{
	if (unlikely(error))
		refuse(error, "resolution " INT64_FORMAT, res);
}

/* Reports that cells of a list overlap, and, as the detail, which two: by their places too, if it is the list that was
 * given. */
static void refuse_overlap(const H3Index *cells, size_t count, bool has_places)
{
	char text[H3SQL_ERROR_ROOM];
	char about[H3SQL_ABOUT_ROOM];
	char overlap[H3SQL_ABOUT_ROOM];

	h3sql_error_text(E_DUPLICATE_INPUT, text);
	h3sql_about_list(about, E_DUPLICATE_INPUT, cells, count, 0);
	h3sql_about_overlap(overlap, cells, count, has_places);
	if (has_places)
		overlap[0] = pg_toupper((unsigned char) overlap[0]);
	ereport(ERROR, (errcode(sqlstate_of(E_DUPLICATE_INPUT)), errmsg("%s: %s", text, about),
					overlap[0] ? errdetail("%s.", overlap) : 0));
}

/* Reports an error of a function of a list of cells, which may be asked for at a resolution. */
static void check_list(H3Error error, const H3Index *cells, size_t count, int64 res)
{
	char about[H3SQL_ABOUT_ROOM];

	if (likely(!error))
		return;
	if (error == E_RES_DOMAIN)
		check_resolution(error, res);
	if (error == E_DUPLICATE_INPUT)
		refuse_overlap(cells, count, true);
	h3sql_about_list(about, error, cells, count, (int) res);
	refuse(error, "%s", about);
}

/* ---- The type h3cell; what it shares with bigint is PostgreSQL's own */

/* An error of a type's input, which the caller may ask to be kept: from PostgreSQL 16 on. */
#if PG_VERSION_NUM >= 160000
#define REFUSE_INPUT(...) ereturn(fcinfo->context, (Datum) 0, (__VA_ARGS__))
#else
#define REFUSE_INPUT(...) ereport(ERROR, (__VA_ARGS__))
#endif

PG_FUNCTION_INFO_V1(h3whole_in);
Datum h3whole_in(PG_FUNCTION_ARGS)
{
	const char *text = PG_GETARG_CSTRING(0);
	H3Index index = H3_NULL;
	char said[H3SQL_ERROR_ROOM];
	H3Error error = h3w_stringToH3(text, strlen(text), &index);

	if (unlikely(error))
	{
		h3sql_error_text(error, said);
		REFUSE_INPUT(errcode(sqlstate_of(error)), errmsg("invalid input syntax for type %s: \"%s\"", "h3cell", text),
					 errdetail("%s", said));
	}
	PG_RETURN_DATUM(INDEX_DATUM(index));
}

PG_FUNCTION_INFO_V1(h3whole_out);
Datum h3whole_out(PG_FUNCTION_ARGS)
{
	const size_t room = 17;
	char *text = palloc(room);

	check(h3w_h3ToString(GET_INDEX(0), text, room), GET_INDEX(0));
	PG_RETURN_CSTRING(text);
}

/* The order of indexes: that of their numbers, which have no sign. */
PG_FUNCTION_INFO_V1(h3whole_cmp);
Datum h3whole_cmp(PG_FUNCTION_ARGS)
{
	H3Index a = GET_INDEX(0);
	H3Index b = GET_INDEX(1);

	PG_RETURN_INT32((a > b) - (a < b));
}

#define COMPARISON(name, operator) \
	PG_FUNCTION_INFO_V1(name); \
	Datum name(PG_FUNCTION_ARGS) \
	{ \
		PG_RETURN_BOOL(GET_INDEX(0) operator GET_INDEX(1)); \
	}

COMPARISON(h3whole_lt, <)
COMPARISON(h3whole_le, <=)
COMPARISON(h3whole_gt, >)
COMPARISON(h3whole_ge, >=)

/* What the aggregates min and max keep. */
PG_FUNCTION_INFO_V1(h3whole_smaller);
Datum h3whole_smaller(PG_FUNCTION_ARGS)
{
	PG_RETURN_DATUM(INDEX_DATUM(Min(GET_INDEX(0), GET_INDEX(1))));
}

PG_FUNCTION_INFO_V1(h3whole_larger);
Datum h3whole_larger(PG_FUNCTION_ARGS)
{
	PG_RETURN_DATUM(INDEX_DATUM(Max(GET_INDEX(0), GET_INDEX(1))));
}

/* ---- Functions of one index */

PG_FUNCTION_INFO_V1(h3whole_is_valid_cell);
Datum h3whole_is_valid_cell(PG_FUNCTION_ARGS)
{
	PG_RETURN_BOOL(h3w_isValidCell(GET_INDEX(0)));
}

PG_FUNCTION_INFO_V1(h3whole_is_valid_directed_edge);
Datum h3whole_is_valid_directed_edge(PG_FUNCTION_ARGS)
{
	PG_RETURN_BOOL(h3w_isValidDirectedEdge(GET_INDEX(0)));
}

typedef H3Error Column(const H3Index *, size_t, int *, size_t, size_t *);

/* A number or a truth value, by the function for columns, which refuses what is no cell. */
static int number_of(H3Index index, Column *function)
{
	int out = 0;
	size_t at;

	check(function(&index, 1, &out, 1, &at), index);
	return out;
}

PG_FUNCTION_INFO_V1(h3whole_get_resolution);
Datum h3whole_get_resolution(PG_FUNCTION_ARGS)
{
	PG_RETURN_INT32(number_of(GET_INDEX(0), h3w_getResolutions));
}

PG_FUNCTION_INFO_V1(h3whole_get_base_cell_number);
Datum h3whole_get_base_cell_number(PG_FUNCTION_ARGS)
{
	PG_RETURN_INT32(number_of(GET_INDEX(0), h3w_getBaseCellNumbers));
}

PG_FUNCTION_INFO_V1(h3whole_is_pentagon);
Datum h3whole_is_pentagon(PG_FUNCTION_ARGS)
{
	PG_RETURN_BOOL(number_of(GET_INDEX(0), h3w_arePentagons));
}

PG_FUNCTION_INFO_V1(h3whole_is_res_class_iii);
Datum h3whole_is_res_class_iii(PG_FUNCTION_ARGS)
{
	PG_RETURN_BOOL(number_of(GET_INDEX(0), h3w_areResClassIII));
}

/* ---- Functions at a resolution */

/* A number as an int of C: -1, which the library refuses alike, in place of one that it can't hold. */
static int as_int(int64 number)
{
	return number < INT_MIN || number > INT_MAX ? -1 : (int) number;
}

/* A function for SQL whose argument of this place is a resolution, as a bigint; and the same of version 1.0, where it
 * is an integer. What they do is the function `name_of`. */
#define AT_RESOLUTION(name, place) \
	PG_FUNCTION_INFO_V1(name##_at); \
	Datum name##_at(PG_FUNCTION_ARGS) \
	{ \
		return name##_of(fcinfo, PG_GETARG_INT64(place)); \
	} \
	PG_FUNCTION_INFO_V1(name); \
	Datum name(PG_FUNCTION_ARGS) \
	{ \
		return name##_of(fcinfo, PG_GETARG_INT32(place)); \
	}

/* The same at a resolution that is so many steps finer than that of the cell. */
#define AT_NEXT(name, steps) \
	PG_FUNCTION_INFO_V1(name##_next); \
	Datum name##_next(PG_FUNCTION_ARGS) \
	{ \
		return name##_of(fcinfo, number_of(GET_INDEX(0), h3w_getResolutions) + (steps)); \
	}

static Datum h3whole_cell_to_parent_of(FunctionCallInfo fcinfo, int64 res)
{
	H3Index out = H3_NULL;

	check_at(h3w_cellToParent(GET_INDEX(0), as_int(res), &out), GET_INDEX(0), res);
	PG_RETURN_DATUM(INDEX_DATUM(out));
}

AT_RESOLUTION(h3whole_cell_to_parent, 1)
AT_NEXT(h3whole_cell_to_parent, -1)

static Datum h3whole_cell_to_center_child_of(FunctionCallInfo fcinfo, int64 res)
{
	H3Index out = H3_NULL;

	check_at(h3w_cellToCenterChild(GET_INDEX(0), as_int(res), &out), GET_INDEX(0), res);
	PG_RETURN_DATUM(INDEX_DATUM(out));
}

AT_RESOLUTION(h3whole_cell_to_center_child, 1)
AT_NEXT(h3whole_cell_to_center_child, 1)

static Datum h3whole_cell_to_last_child_of(FunctionCallInfo fcinfo, int64 res)
{
	H3Index out = H3_NULL;

	check_at(h3w_cellToLastChild(GET_INDEX(0), as_int(res), &out), GET_INDEX(0), res);
	PG_RETURN_DATUM(INDEX_DATUM(out));
}

PG_FUNCTION_INFO_V1(h3whole_cell_to_last_child);
Datum h3whole_cell_to_last_child(PG_FUNCTION_ARGS)
{
	return h3whole_cell_to_last_child_of(fcinfo, PG_GETARG_INT64(1));
}

AT_NEXT(h3whole_cell_to_last_child, 1)

static Datum h3whole_cell_to_children_size_of(FunctionCallInfo fcinfo, int64 res)
{
	int64_t out = 0;

	check_at(h3w_cellToChildrenSize(GET_INDEX(0), as_int(res), &out), GET_INDEX(0), res);
	PG_RETURN_INT64(out);
}

AT_RESOLUTION(h3whole_cell_to_children_size, 1)

static Datum h3whole_cell_to_child_pos_of(FunctionCallInfo fcinfo, int64 res)
{
	int64_t out = 0;

	check_at(h3w_cellToChildPos(GET_INDEX(0), as_int(res), &out), GET_INDEX(0), res);
	PG_RETURN_INT64(out);
}

AT_RESOLUTION(h3whole_cell_to_child_pos, 1)

static Datum h3whole_child_pos_to_cell_of(FunctionCallInfo fcinfo, int64 res)
{
	int64 position = PG_GETARG_INT64(0);
	H3Index parent = GET_INDEX(1);
	H3Index out = H3_NULL;
	H3Error error = h3w_childPosToCell(position, parent, as_int(res), &out);

	if (error == E_CELL_INVALID)
		check(error, parent);
	if (unlikely(error))
		refuse(error, "position " INT64_FORMAT " in %" PRIx64 " at resolution " INT64_FORMAT, position, parent, res);
	PG_RETURN_DATUM(INDEX_DATUM(out));
}

AT_RESOLUTION(h3whole_child_pos_to_cell, 2)

static Datum h3whole_get_num_cells_of(FunctionCallInfo fcinfo, int64 res)
{
	int64_t out = 0;

	check_resolution(h3w_getNumCells(as_int(res), &out), res);
	PG_RETURN_INT64(out);
}

AT_RESOLUTION(h3whole_get_num_cells, 0)

PG_FUNCTION_INFO_V1(h3whole_get_directed_edge_origin);
Datum h3whole_get_directed_edge_origin(PG_FUNCTION_ARGS)
{
	H3Index out = H3_NULL;

	check(h3w_getDirectedEdgeOrigin(GET_INDEX(0), &out), GET_INDEX(0));
	PG_RETURN_DATUM(INDEX_DATUM(out));
}

/* ---- Functions that return sets, a row a call */

/* The rows of a first call. */
static h3sql_Rows *new_rows(FunctionCallInfo fcinfo, FuncCallContext **context)
{
	*context = SRF_FIRSTCALL_INIT();
	(*context)->user_fctx = MemoryContextAllocZero((*context)->multi_call_memory_ctx, sizeof(h3sql_Rows));
	return (*context)->user_fctx;
}

static Datum next_row(FunctionCallInfo fcinfo)
{
	FuncCallContext *context = SRF_PERCALL_SETUP();
	H3Index row = H3_NULL;
	bool found;

	CHECK_FOR_INTERRUPTS();
	check_resolution(h3sql_next(context->user_fctx, &row, &found), ((h3sql_Rows *) context->user_fctx)->res);
	if (!found)
		SRF_RETURN_DONE(context);
	SRF_RETURN_NEXT(context, INDEX_DATUM(row));
}

PG_FUNCTION_INFO_V1(h3whole_get_res_0_cells);
Datum h3whole_get_res_0_cells(PG_FUNCTION_ARGS)
{
	FuncCallContext *context;

	if (SRF_IS_FIRSTCALL())
		check_resolution(h3sql_res0_cells(new_rows(fcinfo, &context)), 0);
	return next_row(fcinfo);
}

static Datum h3whole_get_pentagons_of(FunctionCallInfo fcinfo, int64 res)
{
	FuncCallContext *context;

	if (SRF_IS_FIRSTCALL())
		check_resolution(h3sql_pentagons(new_rows(fcinfo, &context), as_int(res)), res);
	return next_row(fcinfo);
}

AT_RESOLUTION(h3whole_get_pentagons, 0)

PG_FUNCTION_INFO_V1(h3whole_origin_to_directed_edges);
Datum h3whole_origin_to_directed_edges(PG_FUNCTION_ARGS)
{
	FuncCallContext *context;

	if (SRF_IS_FIRSTCALL())
		check(h3sql_edges(new_rows(fcinfo, &context), GET_INDEX(0)), GET_INDEX(0));
	return next_row(fcinfo);
}

static Datum h3whole_cell_to_children_of(FunctionCallInfo fcinfo, int64 res)
{
	FuncCallContext *context;

	if (SRF_IS_FIRSTCALL())
		check_at(h3sql_children(new_rows(fcinfo, &context), GET_INDEX(0), as_int(res)), GET_INDEX(0), res);
	return next_row(fcinfo);
}

AT_RESOLUTION(h3whole_cell_to_children, 1)
AT_NEXT(h3whole_cell_to_children, 1)

/* ---- The base cell table: the file that the setting h3whole.base_cells names, which is read when that is set */

static char *table_name;
static const H3wTable *table;

/* Reads the file of a table; false where it is refused, and then the detail says why. */
static bool read_table(const char *name, H3wTable *found)
{
	char folder[MAXPGPATH];
	char path[MAXPGPATH];
	char text[H3SQL_FAULT_ROOM] = "table: more than a megabyte";
	char *bytes;
	size_t count;
	FILE *file;
	bool is_read;

	get_share_path(my_exec_path, folder);
	snprintf(path, sizeof path, "%s/extension/h3whole/%s.csv", folder, name);
	file = AllocateFile(path, PG_BINARY_R);
	if (!file)
	{
		GUC_check_errdetail("table: open: \"%s\": %m", path);
		return false;
	}
	bytes = palloc(H3SQL_TABLE_MOST + 1);
	count = fread(bytes, 1, H3SQL_TABLE_MOST + 1, file);
	is_read = !ferror(file);
	FreeFile(file);
	if (!is_read)
		snprintf(text, sizeof text, "table: read");
	else if (count <= H3SQL_TABLE_MOST)
		is_read = h3sql_read_table(found, bytes, count, text) == E_SUCCESS;
	else
		is_read = false;
	pfree(bytes);
	if (!is_read)
		GUC_check_errdetail("%s: \"%s\"", text, path);
	return is_read;
}

static void *take_for_setting(size_t size)
{
#if PG_VERSION_NUM >= 160000
	return guc_malloc(LOG, size);
#else
	return malloc(size);
#endif
}

/* A file's name without its folder and its end, so that no other file of the server can be asked for. */
static bool is_plain_name(const char *name)
{
	return strspn(name, "abcdefghijklmnopqrstuvwxyzABCDEFGHIJKLMNOPQRSTUVWXYZ0123456789_-") == strlen(name);
}

static bool check_table(char **name, void **extra, GucSource source)
{
	H3wTable found;

	if (**name == 0)
		return true;
	if (!is_plain_name(*name))
	{
		GUC_check_errdetail("The name of a table has letters, digits, _ and -.");
		return false;
	}
	if (!read_table(*name, &found))
		return false;
	*extra = take_for_setting(sizeof found);
	if (*extra)
		memcpy(*extra, &found, sizeof found);
	return *extra != NULL;
}

static void assign_table(const char *name, void *extra)
{
	table = extra;
}

void _PG_init(void);

void _PG_init(void)
{
	DefineCustomStringVariable("h3whole.base_cells",
							   "The base cell table of the functions that walk from cell to cell.",
							   "NAME means extension/h3whole/NAME.csv in the server's folder of shared files.",
							   &table_name, "", PGC_USERSET, 0, check_table, assign_table, NULL);
#if PG_VERSION_NUM >= 150000
	MarkGUCPrefixReserved("h3whole");
#endif
}

/* The table that is set. */
static const H3wTable *the_table(void)
{
	if (!table)
		ereport(ERROR,
				(errcode(ERRCODE_OBJECT_NOT_IN_PREREQUISITE_STATE), errmsg("there is no base cell table"),
				 errhint("SET h3whole.base_cells = 'NAME' reads extension/h3whole/NAME.csv in the server's folder "
						 "of shared files.")));
	return table;
}

/* ---- Functions over the table */

/* Reports an error of a walk. */
static void check_walk(H3Error error, H3Index origin, int64 k)
{
	if (likely(!error))
		return;
	if (error == E_CELL_INVALID)
		check(error, origin);
	refuse(error, INT64_FORMAT " steps from %" PRIx64, k, origin);
}

static void *resize_rows(void *engine, void *memory, size_t size)
{
	return MemoryContextAllocHuge((MemoryContext) engine, size);
}

/* Begins the rows of a walk. If it may have none, a pentagon on the way is no error: then it has none. */
static FuncCallContext *begin_walk(FunctionCallInfo fcinfo, h3sql_Walk walk, bool is_or_none)
{
	FuncCallContext *context;
	h3sql_Rows *rows = new_rows(fcinfo, &context);
	int64 k = PG_GETARG_INT64(1);
	void *memory;
	H3Error error = h3sql_walk(rows, walk, the_table(), GET_INDEX(0), as_int(k), resize_rows,
							   context->multi_call_memory_ctx, &memory);

	if (error == E_PENTAGON && is_or_none)
		h3sql_listed(rows, rows->own, 0);
	else
		check_walk(error, GET_INDEX(0), k);
	return context;
}

/* The next row of a walk. */
static Datum walked(FunctionCallInfo fcinfo, h3sql_Walk walk, bool is_or_none)
{
	if (SRF_IS_FIRSTCALL())
		begin_walk(fcinfo, walk, is_or_none);
	return next_row(fcinfo);
}

PG_FUNCTION_INFO_V1(h3whole_grid_disk_unsafe);
Datum h3whole_grid_disk_unsafe(PG_FUNCTION_ARGS)
{
	return walked(fcinfo, H3SQL_DISK, false);
}

PG_FUNCTION_INFO_V1(h3whole_grid_disk_unsafe_or_none);
Datum h3whole_grid_disk_unsafe_or_none(PG_FUNCTION_ARGS)
{
	return walked(fcinfo, H3SQL_DISK, true);
}

PG_FUNCTION_INFO_V1(h3whole_grid_ring_unsafe);
Datum h3whole_grid_ring_unsafe(PG_FUNCTION_ARGS)
{
	return walked(fcinfo, H3SQL_RING, false);
}

PG_FUNCTION_INFO_V1(h3whole_grid_ring_unsafe_or_none);
Datum h3whole_grid_ring_unsafe_or_none(PG_FUNCTION_ARGS)
{
	return walked(fcinfo, H3SQL_RING, true);
}

/* The kind of row that the query expects of a call. */
static TupleDesc row_kind(FunctionCallInfo fcinfo, FuncCallContext *context)
{
	MemoryContext before = MemoryContextSwitchTo(context->multi_call_memory_ctx);
	TupleDesc kind;

	if (get_call_result_type(fcinfo, NULL, &kind) != TYPEFUNC_COMPOSITE)
		ereport(ERROR, (errcode(ERRCODE_FEATURE_NOT_SUPPORTED), errmsg("rows of two columns are not expected")));
	kind = BlessTupleDesc(kind);
	MemoryContextSwitchTo(before);
	return kind;
}

/* The next row of a disk with distances. */
static Datum walked_far(FunctionCallInfo fcinfo, bool is_or_none)
{
	FuncCallContext *context;
	h3sql_Rows *rows;
	H3Index row = H3_NULL;
	Datum values[2];
	bool nulls[2] = {false, false};
	bool found;

	if (SRF_IS_FIRSTCALL())
	{
		context = begin_walk(fcinfo, H3SQL_DISTANCES, is_or_none);
		context->tuple_desc = row_kind(fcinfo, context);
	}
	context = SRF_PERCALL_SETUP();
	rows = context->user_fctx;
	CHECK_FOR_INTERRUPTS();
	check(h3sql_next(rows, &row, &found), row);
	if (!found)
		SRF_RETURN_DONE(context);
	values[0] = INDEX_DATUM(row);
	values[1] = Int32GetDatum(rows->distances[rows->at - 1]);
	SRF_RETURN_NEXT(context, HeapTupleGetDatum(heap_form_tuple(context->tuple_desc, values, nulls)));
}

PG_FUNCTION_INFO_V1(h3whole_grid_disk_distances_unsafe);
Datum h3whole_grid_disk_distances_unsafe(PG_FUNCTION_ARGS)
{
	return walked_far(fcinfo, false);
}

PG_FUNCTION_INFO_V1(h3whole_grid_disk_distances_unsafe_or_none);
Datum h3whole_grid_disk_distances_unsafe_or_none(PG_FUNCTION_ARGS)
{
	return walked_far(fcinfo, true);
}

/* Reports an error of a pair of cells: the first that is no cell, or both. */
static void check_pair(H3Error error, H3Index a, H3Index b)
{
	if (likely(!error))
		return;
	if (error == E_CELL_INVALID)
		check(error, h3w_isValidCell(a) ? b : a);
	refuse(error, "%" PRIx64 " and %" PRIx64, a, b);
}

PG_FUNCTION_INFO_V1(h3whole_are_neighbor_cells);
Datum h3whole_are_neighbor_cells(PG_FUNCTION_ARGS)
{
	int out = 0;

	check_pair(h3w_areNeighborCells(the_table(), GET_INDEX(0), GET_INDEX(1), &out), GET_INDEX(0), GET_INDEX(1));
	PG_RETURN_BOOL(out == 1);
}

PG_FUNCTION_INFO_V1(h3whole_cells_to_directed_edge);
Datum h3whole_cells_to_directed_edge(PG_FUNCTION_ARGS)
{
	H3Index out = H3_NULL;

	check_pair(h3w_cellsToDirectedEdge(the_table(), GET_INDEX(0), GET_INDEX(1), &out), GET_INDEX(0), GET_INDEX(1));
	PG_RETURN_DATUM(INDEX_DATUM(out));
}

PG_FUNCTION_INFO_V1(h3whole_get_directed_edge_destination);
Datum h3whole_get_directed_edge_destination(PG_FUNCTION_ARGS)
{
	H3Index out = H3_NULL;

	check(h3w_getDirectedEdgeDestination(the_table(), GET_INDEX(0), &out), GET_INDEX(0));
	PG_RETURN_DATUM(INDEX_DATUM(out));
}

/* ---- Lists of cells */

/* The cells of an array that stays. */
static h3sql_List cells_of(ArrayType *array)
{
	h3sql_List list;

	if (array_contains_nulls(array))
		ereport(ERROR, (errcode(ERRCODE_NULL_VALUE_NOT_ALLOWED), errmsg("array must not contain nulls")));
	list.cells = (H3Index *) ARR_DATA_PTR(array);
	list.count = (size_t) ArrayGetNItems(ARR_NDIM(array), ARR_DIMS(array));
	list.room = list.count;
	return list;
}

/* What makes a list of cells of another: h3sql_compact or h3sql_unite. */
typedef H3Error Made(const h3sql_List *, H3Index *, size_t *);

/* The list that is made of a list, in the current memory. Where the list is not the whole of what was given, an error
 * names a cell without its place. */
static h3sql_List made_of(Made *made, const h3sql_List *list, bool is_whole)
{
	h3sql_List out = {NULL, 0, list->count + 1};
	H3Error error;

	CHECK_FOR_INTERRUPTS();
	out.cells = MemoryContextAllocHuge(CurrentMemoryContext, out.room * sizeof(H3Index));
	error = made(list, out.cells, &out.count);
	if (error == E_CELL_INVALID && !is_whole)
		check(error, h3sql_first_invalid(list));
	if (error == E_DUPLICATE_INPUT && !is_whole)
		refuse_overlap(list->cells, list->count, false);
	check_list(error, list->cells, list->count, 0);
	return out;
}

PG_FUNCTION_INFO_V1(h3whole_compact_cells);
Datum h3whole_compact_cells(PG_FUNCTION_ARGS)
{
	if (SRF_IS_FIRSTCALL())
	{
		FuncCallContext *context;
		h3sql_Rows *rows = new_rows(fcinfo, &context);
		h3sql_List given = cells_of(PG_GETARG_ARRAYTYPE_P(0));
		MemoryContext before = MemoryContextSwitchTo(context->multi_call_memory_ctx);
		h3sql_List out = made_of(h3sql_compact, &given, true);

		MemoryContextSwitchTo(before);
		h3sql_listed(rows, out.cells, out.count);
	}
	return next_row(fcinfo);
}

/* The rows of cells of an array that stays, at a resolution. */
static void uncompact(FunctionCallInfo fcinfo, FuncCallContext *context, const h3sql_List *given, int64 res)
{
	check_list(h3sql_uncompacted(context->user_fctx, given->cells, given->count, as_int(res)), given->cells,
			   given->count, res);
}

/* The cells of the first argument, in memory that stays while rows are returned. */
static h3sql_List kept_cells(FunctionCallInfo fcinfo, FuncCallContext *context)
{
	MemoryContext before = MemoryContextSwitchTo(context->multi_call_memory_ctx);
	h3sql_List given = cells_of(PG_GETARG_ARRAYTYPE_P_COPY(0));

	MemoryContextSwitchTo(before);
	return given;
}

static Datum h3whole_uncompact_cells_of(FunctionCallInfo fcinfo, int64 res)
{
	if (SRF_IS_FIRSTCALL())
	{
		FuncCallContext *context;
		h3sql_List given;

		new_rows(fcinfo, &context);
		given = kept_cells(fcinfo, context);
		uncompact(fcinfo, context, &given, res);
	}
	return next_row(fcinfo);
}

AT_RESOLUTION(h3whole_uncompact_cells, 1)

/* At the resolution that follows the finest of the cells, which for resolution 15 is that itself. */
PG_FUNCTION_INFO_V1(h3whole_uncompact_cells_next);
Datum h3whole_uncompact_cells_next(PG_FUNCTION_ARGS)
{
	if (SRF_IS_FIRSTCALL())
	{
		FuncCallContext *context;
		h3sql_List given;
		int finest = -1;

		new_rows(fcinfo, &context);
		given = kept_cells(fcinfo, context);
		for (size_t i = 0; i < given.count; i++)
			finest = Max(finest, h3w_getResolution(given.cells[i]));
		uncompact(fcinfo, context, &given, Min(finest + 1, 15));
	}
	return next_row(fcinfo);
}

/* ---- What the planner asks: how many rows a function that returns a set has */

/* The argument of this place, where it is known while a query is planned; else NULL. */
static Const *known(SupportRequestRows *request, int place)
{
	List *arguments = ((FuncExpr *) request->node)->args;
	Node *value;

	if (place >= list_length(arguments))
		return NULL;
	value = estimate_expression_value(request->root, list_nth(arguments, place));
	return IsA(value, Const) && !((Const *) value)->constisnull ? (Const *) value : NULL;
}

/* The number of rows for known arguments, or a number below 0. */
typedef double Estimate(SupportRequestRows *request);

static Datum estimated(FunctionCallInfo fcinfo, Estimate *estimate)
{
	Node *request = (Node *) PG_GETARG_POINTER(0);
	double rows = -1;

	if (IsA(request, SupportRequestRows) && is_funcclause(((SupportRequestRows *) request)->node))
		rows = estimate((SupportRequestRows *) request);
	if (rows < 0)
		PG_RETURN_POINTER(NULL);
	((SupportRequestRows *) request)->rows = rows;
	PG_RETURN_POINTER(request);
}

/* The cell's children at a resolution, where both are known; by default a cell has seven. */
static double children_estimate(SupportRequestRows *request)
{
	Const *cell = known(request, 0);
	Const *res = known(request, 1);
	int64_t size = 0;

	if (list_length(((FuncExpr *) request->node)->args) == 1)
		return 7;
	if (!cell || !res)
		return -1;
	if (h3w_cellToChildrenSize((H3Index) DatumGetInt64(cell->constvalue), as_int(DatumGetInt64(res->constvalue)),
							   &size))
		return -1;
	return size;
}

/* The cells of a disk or a ring of so many steps, of which there are none below 0. */
static double disk_estimate(SupportRequestRows *request)
{
	Const *k = known(request, 1);
	double steps = k ? DatumGetInt64(k->constvalue) : -1;

	return steps < 0 ? -1 : 3 * steps * (steps + 1) + 1;
}

static double ring_estimate(SupportRequestRows *request)
{
	Const *k = known(request, 1);
	double steps = k ? DatumGetInt64(k->constvalue) : -1;

	return steps == 0 ? 1 : 6 * steps;
}

PG_FUNCTION_INFO_V1(h3whole_disk_rows);
Datum h3whole_disk_rows(PG_FUNCTION_ARGS)
{
	return estimated(fcinfo, disk_estimate);
}

PG_FUNCTION_INFO_V1(h3whole_ring_rows);
Datum h3whole_ring_rows(PG_FUNCTION_ARGS)
{
	return estimated(fcinfo, ring_estimate);
}

PG_FUNCTION_INFO_V1(h3whole_children_rows);
Datum h3whole_children_rows(PG_FUNCTION_ARGS)
{
	return estimated(fcinfo, children_estimate);
}

/* The cells of a known array; at a known resolution, their descendants. */
static double list_estimate(SupportRequestRows *request)
{
	Const *array = known(request, 0);
	Const *res = known(request, 1);
	ArrayType *items = array ? DatumGetArrayTypeP(array->constvalue) : NULL;
	double rows = 0;
	h3sql_List cells;

	if (!items || array_contains_nulls(items))
		return -1;
	cells = cells_of(items);
	if (!res)
		return cells.count;
	for (size_t i = 0; i < cells.count; i++)
	{
		int64_t size = 0;

		if (h3w_cellToChildrenSize(cells.cells[i], as_int(DatumGetInt64(res->constvalue)), &size))
			return -1;
		rows += size;
	}
	return rows;
}

PG_FUNCTION_INFO_V1(h3whole_list_rows);
Datum h3whole_list_rows(PG_FUNCTION_ARGS)
{
	return estimated(fcinfo, list_estimate);
}

/* ---- What the planner asks of a lookup. What it costs: in an array that is a constant, which is prepared once, it is
 * a search; of any other the planner takes what the function is declared with. And whether there is a simpler call:
 * where the array is a subquery that depends on nothing outside of it, the subquery prepares it, once:
 *
 *     h3_is_covered(cell, (SELECT ..)) is h3_prepared_covers(cell, (SELECT h3_prepare_region((SELECT ..)))) */

static void cost_lookup(SupportRequestCost *request)
{
	Const *array = lsecond(((FuncExpr *) request->node)->args);
	ArrayType *items = DatumGetArrayTypeP(array->constvalue);
	double count = ArrayGetNItems(ARR_NDIM(items), ARR_DIMS(items));

	request->startup = 2 * count * cpu_operator_cost;
	request->per_tuple = cpu_operator_cost;
	for (; count >= 1; count /= 2)
		request->per_tuple += cpu_operator_cost;
}

/* Whether an array is a subquery, converted or not, that depends on nothing outside of it. */
static bool is_own_subquery(const PlannerInfo *root, Node *array)
{
	SubLink *query;

	while (IsA(array, RelabelType) || IsA(array, ArrayCoerceExpr))
		array =
			IsA(array, RelabelType) ? (Node *) ((RelabelType *) array)->arg : (Node *) ((ArrayCoerceExpr *) array)->arg;
	query = (SubLink *) array;
	if (!IsA(array, SubLink) || (query->subLinkType != EXPR_SUBLINK && query->subLinkType != ARRAY_SUBLINK))
		return false;
	for (Index level = 1; level <= root->query_level; level++)
		if (contain_vars_of_level(query->subselect, (int) level))
			return false;
	return true;
}

/* A function of the schema of another, by its name; InvalidOid if there is none, as before an update of the
 * extension. */
static Oid sibling(Oid function, const char *name, int count, const Oid *types)
{
	return GetSysCacheOid3(PROCNAMEARGSNSP, Anum_pg_proc_oid, CStringGetDatum(name),
						   PointerGetDatum(buildoidvector(types, count)),
						   ObjectIdGetDatum(get_func_namespace(function)));
}

static bool may_execute(Oid function)
{
#if PG_VERSION_NUM >= 160000
	return object_aclcheck(ProcedureRelationId, function, GetUserId(), ACL_EXECUTE) == ACLCHECK_OK;
#else
	return pg_proc_aclcheck(function, GetUserId(), ACL_EXECUTE) == ACLCHECK_OK;
#endif
}

/* The subquery `SELECT prepare(array)`. */
static Node *preparing(Node *array, Oid prepare, Oid type)
{
	Query *query = makeNode(Query);
	SubLink *link = makeNode(SubLink);
	Node *inner = copyObject(array);
	FuncExpr *call;

	IncrementVarSublevelsUp(inner, 1, 0);
	call = makeFuncExpr(prepare, type, list_make1(inner), InvalidOid, InvalidOid, COERCE_EXPLICIT_CALL);
	query->commandType = CMD_SELECT;
	query->querySource = QSRC_ORIGINAL;
	query->canSetTag = true;
	query->jointree = makeFromExpr(NIL, NULL);
	query->targetList = list_make1(makeTargetEntry((Expr *) call, 1, pstrdup("prepared"), false));
	query->hasSubLinks = true;
	link->subLinkType = EXPR_SUBLINK;
	link->subselect = (Node *) query;
	link->location = -1;
	return (Node *) link;
}

/* The call of a lookup over what a subquery prepares; NULL if the array is none. */
static Node *simplified(PlannerInfo *root, FuncExpr *call)
{
	static const char *const names[][3] = {
		{"h3_is_covered", "h3_prepare_region", "h3_prepared_covers"},
		{"h3_zone_of", "h3_prepare_zones", "h3_prepared_zone_of"},
		{"h3_place_of", "h3_prepare_places", "h3_prepared_place_of"},
		{"h3_zones_of", "h3_prepare_overlapping", "h3_prepared_zones_of"},
	};
	char *name = get_func_name(call->funcid);
	Node *array = lsecond(call->args);
	Oid types[2] = {exprType(linitial(call->args)), exprType(array)};
	Oid prepare;
	Oid look_up;
	size_t which = 0;
	FuncExpr *simpler;

	while (name && which < lengthof(names) && strcmp(name, names[which][0]) != 0)
		which++;
	if (!root || !name || which == lengthof(names) || !is_own_subquery(root, array) || !may_execute(call->funcid))
		return NULL;
	prepare = sibling(call->funcid, names[which][1], 1, types + 1);
	if (!OidIsValid(prepare))
		return NULL;
	types[1] = get_func_rettype(prepare);
	look_up = sibling(call->funcid, names[which][2], 2, types);
	if (!OidIsValid(look_up))
		return NULL;
	simpler = makeFuncExpr(look_up, call->funcresulttype,
						   list_make2(linitial(call->args), preparing(array, prepare, types[1])), InvalidOid,
						   InvalidOid, COERCE_EXPLICIT_CALL);
	simpler->funcretset = call->funcretset;
	return (Node *) simpler;
}

/* Whether a node is a call whose second argument is a known array. */
static bool has_known_array(Node *node)
{
	return node && IsA(node, FuncExpr) && IsA(lsecond(((FuncExpr *) node)->args), Const) &&
		   !((Const *) lsecond(((FuncExpr *) node)->args))->constisnull;
}

PG_FUNCTION_INFO_V1(h3whole_lookup_cost);
Datum h3whole_lookup_cost(PG_FUNCTION_ARGS)
{
	Node *request = (Node *) PG_GETARG_POINTER(0);
	Node *answer = NULL;

	if (IsA(request, SupportRequestSimplify))
		answer = simplified(((SupportRequestSimplify *) request)->root, ((SupportRequestSimplify *) request)->fcall);
	else if (IsA(request, SupportRequestCost) && has_known_array(((SupportRequestCost *) request)->node))
	{
		cost_lookup((SupportRequestCost *) request);
		answer = request;
	}
	PG_RETURN_POINTER(answer);
}

/* ---- The aggregates h3_compact_cells and h3_unite_cells. A worker hands on its part compacted, or its region: the
 * compacted list of all parts' compacted lists is that of the whole, and so is the region of all parts' regions. */

/* The state: a list of cells, and whether it is joined of several parts. */
typedef struct
{
	h3sql_List list;
	bool is_joined;
} Gathered;

static void *resize(void *engine, void *memory, size_t size)
{
	return memory ? repalloc_huge(memory, size) : MemoryContextAllocHuge((MemoryContext) engine, size);
}

/* The memory of an aggregate's states. */
static MemoryContext aggregate_memory(FunctionCallInfo fcinfo)
{
	MemoryContext memory;

	if (!AggCheckCallContext(fcinfo, &memory))
		ereport(ERROR, (errcode(ERRCODE_FEATURE_NOT_SUPPORTED), errmsg("called outside of an aggregate")));
	return memory;
}

/* The state of the first argument, which may be NULL before the first cell. */
static Gathered *state(FunctionCallInfo fcinfo, MemoryContext memory)
{
	if (PG_ARGISNULL(0))
		return MemoryContextAllocZero(memory, sizeof(Gathered));
	return (Gathered *) PG_GETARG_POINTER(0);
}

static void append(h3sql_List *list, const void *cells, size_t count, MemoryContext memory)
{
	check_list(h3sql_reserve(list, count, resize, memory), list->cells, list->count, 0);
	if (count > 0)
		memcpy(list->cells + list->count, cells, count * sizeof(H3Index));
	list->count += count;
}

PG_FUNCTION_INFO_V1(h3whole_compact_step);
Datum h3whole_compact_step(PG_FUNCTION_ARGS)
{
	MemoryContext memory = aggregate_memory(fcinfo);
	Gathered *group = state(fcinfo, memory);

	if (!PG_ARGISNULL(1))
		check(h3sql_push(&group->list, GET_INDEX(1), resize, memory), GET_INDEX(1));
	PG_RETURN_POINTER(group);
}

PG_FUNCTION_INFO_V1(h3whole_compact_combine);
Datum h3whole_compact_combine(PG_FUNCTION_ARGS)
{
	MemoryContext memory = aggregate_memory(fcinfo);
	Gathered *group = state(fcinfo, memory);

	group->is_joined = true;
	if (!PG_ARGISNULL(1))
	{
		const Gathered *other = (const Gathered *) PG_GETARG_POINTER(1);

		append(&group->list, other->list.cells, other->list.count, memory);
	}
	PG_RETURN_POINTER(group);
}

/* What a worker hands on of its part. */
static Datum handed_on(FunctionCallInfo fcinfo, Made *made)
{
	h3sql_List part;
	bytea *out;

	aggregate_memory(fcinfo);
	part = made_of(made, &((const Gathered *) PG_GETARG_POINTER(0))->list, false);
	if (part.count > (MaxAllocSize - VARHDRSZ) / sizeof(H3Index))
		ereport(ERROR, (errcode(ERRCODE_PROGRAM_LIMIT_EXCEEDED),
						errmsg("the compacted cells of a worker take more than a gigabyte")));
	out = palloc(VARHDRSZ + part.count * sizeof(H3Index));
	SET_VARSIZE(out, VARHDRSZ + part.count * sizeof(H3Index));
	memcpy(VARDATA(out), part.cells, part.count * sizeof(H3Index));
	pfree(part.cells);
	PG_RETURN_BYTEA_P(out);
}

PG_FUNCTION_INFO_V1(h3whole_compact_serial);
Datum h3whole_compact_serial(PG_FUNCTION_ARGS)
{
	return handed_on(fcinfo, h3sql_compact);
}

PG_FUNCTION_INFO_V1(h3whole_unite_serial);
Datum h3whole_unite_serial(PG_FUNCTION_ARGS)
{
	return handed_on(fcinfo, h3sql_unite);
}

PG_FUNCTION_INFO_V1(h3whole_compact_deserial);
Datum h3whole_compact_deserial(PG_FUNCTION_ARGS)
{
	bytea *given = PG_GETARG_BYTEA_PP(0);
	Gathered *group;

	aggregate_memory(fcinfo);
	group = palloc0(sizeof *group);
	append(&group->list, VARDATA_ANY(given), VARSIZE_ANY_EXHDR(given) / sizeof(H3Index), CurrentMemoryContext);
	PG_RETURN_POINTER(group);
}

/* The type of the items of the array that a function returns. */
static Oid item_type(FunctionCallInfo fcinfo)
{
	return get_element_type(get_func_rettype(fcinfo->flinfo->fn_oid));
}

/* Cells as an array. */
static ArrayType *array_of(const H3Index *cells, size_t count, Oid type)
{
	if (count > MaxAllocSize / sizeof(H3Index))
		ereport(ERROR,
				(errcode(ERRCODE_PROGRAM_LIMIT_EXCEEDED), errmsg("the compacted cells take more than a gigabyte")));
	return construct_array((Datum *) cells, (int) count, type, sizeof(H3Index), FLOAT8PASSBYVAL, TYPALIGN_DOUBLE);
}

/* The result of an aggregate. */
static Datum final(FunctionCallInfo fcinfo, Made *made)
{
	Oid type = get_element_type(get_fn_expr_rettype(fcinfo->flinfo));
	Gathered none = {{NULL, 0, 0}, false};
	const Gathered *group;
	h3sql_List out;
	ArrayType *array;

	aggregate_memory(fcinfo);
	group = PG_ARGISNULL(0) ? &none : (const Gathered *) PG_GETARG_POINTER(0);
	out = made_of(made, &group->list, !group->is_joined);
	array = array_of(out.cells, out.count, type);
	pfree(out.cells);
	PG_RETURN_ARRAYTYPE_P(array);
}

PG_FUNCTION_INFO_V1(h3whole_compact_final);
Datum h3whole_compact_final(PG_FUNCTION_ARGS)
{
	return final(fcinfo, h3sql_compact);
}

PG_FUNCTION_INFO_V1(h3whole_unite_final);
Datum h3whole_unite_final(PG_FUNCTION_ARGS)
{
	return final(fcinfo, h3sql_unite);
}

/* ---- Regions and zones, which are arrays */

/* What two regions share, or one has beyond the other. */
static Datum operate(FunctionCallInfo fcinfo, h3sql_Operation *operation)
{
	h3sql_List first = cells_of(PG_GETARG_ARRAYTYPE_P(0));
	h3sql_List second = cells_of(PG_GETARG_ARRAYTYPE_P(1));
	h3sql_List out;
	H3Error error;
	ArrayType *array;

	CHECK_FOR_INTERRUPTS();
	error = h3sql_operate(&out, operation, &first, &second, resize, CurrentMemoryContext);
	if (error == E_CELL_INVALID && h3sql_has_cells_only(&first))
		check_list(error, second.cells, second.count, 0);
	check_list(error, first.cells, first.count, 0);
	array = array_of(out.cells, out.count, item_type(fcinfo));
	pfree(out.cells);
	PG_RETURN_ARRAYTYPE_P(array);
}

PG_FUNCTION_INFO_V1(h3whole_intersect_cells);
Datum h3whole_intersect_cells(PG_FUNCTION_ARGS)
{
	return operate(fcinfo, h3w_intersectCells);
}

PG_FUNCTION_INFO_V1(h3whole_subtract_cells);
Datum h3whole_subtract_cells(PG_FUNCTION_ARGS)
{
	return operate(fcinfo, h3w_subtractCells);
}

/* An array that is prepared, so that cells are looked up in it. */
typedef struct
{
	h3sql_Kept kept;
	/* what was passed: the array, or the place at which it is stored */
	struct varlena *given;
	h3sql_List zones;
} Prepared;

/* What a call in a query has prepared, for itself and those after it. */
typedef struct
{
	/* whether each call has the same array, which is a constant of the query */
	bool is_constant;
	/* the one of the last call */
	Prepared *last;
	h3sql_Cache cache;
} Lookup;

/* Whether the argument of this place is a constant of the query. (A parameter is none: what PL/pgSQL evaluates again
 * and again has the same call for other values.) */
static bool is_constant(FunctionCallInfo fcinfo, int place)
{
	Node *call = fcinfo->flinfo->fn_expr;

	return call && IsA(call, FuncExpr) && place < list_length(((FuncExpr *) call)->args) &&
		   IsA(list_nth(((FuncExpr *) call)->args, place), Const);
}

/* An array as it was passed; but one in memory that may change in its place, as a variable of PL/pgSQL, as a copy. */
static struct varlena *value_of(struct varlena *given)
{
	if (VARATT_IS_EXTERNAL(given) && !VARATT_IS_EXTERNAL_ONDISK(given))
		return (struct varlena *) DatumGetArrayTypeP(PointerGetDatum(given));
	return given;
}

/* Whether two values are the same array: they have the same bytes, or are stored at the same place. */
static bool is_same(const struct varlena *a, const struct varlena *b)
{
	return VARSIZE_ANY(a) == VARSIZE_ANY(b) && memcmp(a, b, VARSIZE_ANY(a)) == 0;
}

/* Finds what was prepared of an array: of the last call, or by the hash; NULL if it was not. */
static Prepared *find(const Lookup *lookup, const struct varlena *given, uint64_t hash)
{
	h3sql_Kept *found = h3sql_chain(&lookup->cache, hash);

	while (found && !(found->hash == hash && is_same(((Prepared *) found)->given, given)))
		found = found->next;
	return (Prepared *) found;
}

static void release(Prepared *prepared)
{
	pfree(prepared->zones.cells);
	pfree(prepared->given);
	pfree(prepared);
}

/* A list prepared, in the current memory. */
static h3sql_List zones_of(const h3sql_List *cells, h3sql_Kind kind, int32 first)
{
	h3sql_List zones;

	CHECK_FOR_INTERRUPTS();
	check_list(h3sql_prepare(&zones, cells, kind, first, resize, CurrentMemoryContext), cells->cells, cells->count, 0);
	return zones;
}

/* The subscript of the first item of an array, where places are asked for: of one dimension, as for array_position. */
static int32 first_of(ArrayType *array, h3sql_Kind kind)
{
	if (kind != H3SQL_PLACES || ARR_NDIM(array) == 0)
		return 1;
	if (ARR_NDIM(array) > 1)
		ereport(ERROR, (errcode(ERRCODE_FEATURE_NOT_SUPPORTED), errmsg("places in a multidimensional array")));
	return ARR_LBOUND(array)[0];
}

/* Prepares an array, and keeps it. What it takes on the way is of the row's memory, and only the result stays, so that
 * an error leaves nothing behind. */
static Prepared *prepare(Lookup *lookup, struct varlena *given, uint64_t hash, h3sql_Kind kind, MemoryContext memory)
{
	ArrayType *array = DatumGetArrayTypeP(PointerGetDatum(given));
	h3sql_List cells = cells_of(array);
	h3sql_List zones = zones_of(&cells, kind, first_of(array, kind));
	size_t size = h3sql_prepared_size(kind, zones.count);
	Prepared *made = MemoryContextAllocZero(memory, sizeof *made);
	h3sql_Kept *old;

	made->given = MemoryContextAllocHuge(memory, VARSIZE_ANY(given));
	memcpy(made->given, given, VARSIZE_ANY(given));
	made->zones.count = zones.count;
	made->zones.cells = MemoryContextAllocHuge(memory, size + sizeof(H3Index));
	memcpy(made->zones.cells, zones.cells, size);
	pfree(zones.cells);
	made->kept.hash = hash;
	h3sql_keep(&lookup->cache, &made->kept, cells.count, resize, memory);
	lookup->last = made;
	while ((old = h3sql_evict(&lookup->cache, H3SQL_KEPT_CELLS, &made->kept)))
		release((Prepared *) old);
	if ((struct varlena *) array != given)
		pfree(array);
	return made;
}

/* The lookup of a call, which stays for those after it. */
static Lookup *lookup_of(FunctionCallInfo fcinfo)
{
	Lookup *lookup = fcinfo->flinfo->fn_extra;

	if (!lookup)
	{
		lookup = MemoryContextAllocZero(fcinfo->flinfo->fn_mcxt, sizeof *lookup);
		lookup->is_constant = is_constant(fcinfo, 1);
		fcinfo->flinfo->fn_extra = lookup;
	}
	return lookup;
}

/* What is prepared of the array of the second argument. */
static const h3sql_List *prepared_of(FunctionCallInfo fcinfo, h3sql_Kind kind)
{
	Lookup *lookup = lookup_of(fcinfo);
	struct varlena *given;
	uint64_t hash;

	if (lookup->last && lookup->is_constant)
		return &lookup->last->zones;
	given = value_of((struct varlena *) PG_GETARG_POINTER(1));
	if (!lookup->last || !is_same(lookup->last->given, given))
	{
		hash = h3sql_hash(given, VARSIZE_ANY(given));
		lookup->last = find(lookup, given, hash);
		if (!lookup->last)
			prepare(lookup, given, hash, kind, fcinfo->flinfo->fn_mcxt);
	}
	return &lookup->last->zones;
}

/* The zone of the cell of the first argument; H3_NULL if it has none. */
static H3Index looked_up(FunctionCallInfo fcinfo, const h3sql_List *zones)
{
	H3Index zone = H3_NULL;

	check(h3sql_zone_of(zones, GET_INDEX(0), &zone), GET_INDEX(0));
	return zone;
}

/* Returns a zone, or NULL. */
static Datum zone_or_null(FunctionCallInfo fcinfo, H3Index zone)
{
	if (zone == H3_NULL)
		PG_RETURN_NULL();
	PG_RETURN_DATUM(INDEX_DATUM(zone));
}

PG_FUNCTION_INFO_V1(h3whole_is_covered);
Datum h3whole_is_covered(PG_FUNCTION_ARGS)
{
	PG_RETURN_BOOL(looked_up(fcinfo, prepared_of(fcinfo, H3SQL_REGION)) != H3_NULL);
}

PG_FUNCTION_INFO_V1(h3whole_zone_of);
Datum h3whole_zone_of(PG_FUNCTION_ARGS)
{
	return zone_or_null(fcinfo, looked_up(fcinfo, prepared_of(fcinfo, H3SQL_ZONES)));
}

/* Returns the place of the zone of the cell of the first argument, or NULL. */
static Datum place_or_null(FunctionCallInfo fcinfo, const h3sql_List *zones)
{
	int32_t place = 0;
	bool found = false;

	check(h3sql_place_of(zones, GET_INDEX(0), &found, &place), GET_INDEX(0));
	if (!found)
		PG_RETURN_NULL();
	PG_RETURN_INT32(place);
}

PG_FUNCTION_INFO_V1(h3whole_place_of);
Datum h3whole_place_of(PG_FUNCTION_ARGS)
{
	return place_or_null(fcinfo, prepared_of(fcinfo, H3SQL_PLACES));
}

/* The rows of a set that are returned at once: what a call has prepared stays in fn_extra, which a set that returns a
 * row a call needs for itself. */
static Tuplestorestate *all_rows(FunctionCallInfo fcinfo, TupleDesc *columns)
{
	ReturnSetInfo *result = (ReturnSetInfo *) fcinfo->resultinfo;
	MemoryContext before;

	if (!result || !IsA(result, ReturnSetInfo) || !(result->allowedModes & SFRM_Materialize) || !result->expectedDesc)
		ereport(ERROR,
				(errcode(ERRCODE_FEATURE_NOT_SUPPORTED), errmsg("called in a context that cannot accept a set")));
	before = MemoryContextSwitchTo(result->econtext->ecxt_per_query_memory);
	*columns = CreateTupleDescCopy(result->expectedDesc);
	result->returnMode = SFRM_Materialize;
	result->setDesc = *columns;
	result->setResult = tuplestore_begin_heap(result->allowedModes & SFRM_Materialize_Random, false, work_mem);
	MemoryContextSwitchTo(before);
	return result->setResult;
}

/* The zones that cover a cell, which may overlap: rows. */
static Datum rows_of_zones(FunctionCallInfo fcinfo, const h3sql_List *zones)
{
	H3Index found[H3SQL_ANCESTORS];
	size_t count;
	TupleDesc columns;
	Tuplestorestate *rows = all_rows(fcinfo, &columns);

	check(h3sql_zones_of(zones, GET_INDEX(0), found, &count), GET_INDEX(0));
	for (size_t i = 0; i < count; i++)
	{
		Datum zone = INDEX_DATUM(found[i]);
		bool is_null = false;

		tuplestore_putvalues(rows, columns, &zone, &is_null);
	}
	PG_RETURN_NULL();
}

PG_FUNCTION_INFO_V1(h3whole_zones_of);
Datum h3whole_zones_of(PG_FUNCTION_ARGS)
{
	return rows_of_zones(fcinfo, prepared_of(fcinfo, H3SQL_OVERLAPPING));
}

/* ---- The type h3_prepared: an array that a subquery has prepared. The planner writes calls for it, see
 * `h3whole_lookup_cost`; no text is one, so each was made here. */

typedef struct
{
	int32 header;
	/* an h3sql_Kind, of a region that of zones; or REFUSED: the array as it was given, which is refused once a cell is
	 * looked up in it (so is a value that version 1.3 has made) */
	int32 kind;
	H3Index cells[FLEXIBLE_ARRAY_MEMBER];
} PreparedValue;

#define REFUSED 1

static int32 kind_of_value(h3sql_Kind kind)
{
	return kind == H3SQL_REGION ? H3SQL_ZONES : kind;
}

PG_FUNCTION_INFO_V1(h3whole_prepared_in);
Datum h3whole_prepared_in(PG_FUNCTION_ARGS)
{
	ereport(ERROR, (errcode(ERRCODE_FEATURE_NOT_SUPPORTED), errmsg("cannot accept a value of type %s", "h3_prepared")));
	PG_RETURN_VOID();
}

/* How many cells a prepared value has. */
static size_t count_of_value(const PreparedValue *value)
{
	if (value->kind == REFUSED)
		return 0;
	return (VARSIZE(value) - offsetof(PreparedValue, cells)) / h3sql_prepared_size((h3sql_Kind) value->kind, 1);
}

PG_FUNCTION_INFO_V1(h3whole_prepared_out);
Datum h3whole_prepared_out(PG_FUNCTION_ARGS)
{
	PreparedValue *value = (PreparedValue *) PG_DETOAST_DATUM(PG_GETARG_DATUM(0));

	PG_RETURN_CSTRING(psprintf("%zu cells", count_of_value(value)));
}

static Datum prepared_value(const void *bytes, size_t size, int32 kind)
{
	size_t whole = offsetof(PreparedValue, cells) + size;
	PreparedValue *value;

	if (whole > MaxAllocSize)
		ereport(ERROR, (errcode(ERRCODE_PROGRAM_LIMIT_EXCEEDED), errmsg("the cells take more than a gigabyte")));
	value = palloc(whole);
	SET_VARSIZE(value, whole);
	value->kind = kind;
	memcpy(value->cells, bytes, size);
	PG_RETURN_POINTER(value);
}

/* Prepares an array. An error is reported by the lookup, which is called for no cell that is NULL. */
static Datum prepare_value(FunctionCallInfo fcinfo, h3sql_Kind kind)
{
	ArrayType *array = PG_GETARG_ARRAYTYPE_P(0);
	h3sql_List cells;
	h3sql_List zones = {NULL, 0, 0};
	H3Error error = E_CELL_INVALID;

	CHECK_FOR_INTERRUPTS();
	if (!array_contains_nulls(array) && !(kind == H3SQL_PLACES && ARR_NDIM(array) > 1))
	{
		cells = cells_of(array);
		error = h3sql_prepare(&zones, &cells, kind, first_of(array, kind), resize, CurrentMemoryContext);
	}
	if (error == E_MEMORY_ALLOC)
		check(error, H3_NULL);
	if (error)
		return prepared_value(array, VARSIZE(array), REFUSED);
	return prepared_value(zones.cells, h3sql_prepared_size(kind, zones.count), kind_of_value(kind));
}

PG_FUNCTION_INFO_V1(h3whole_prepare_region);
Datum h3whole_prepare_region(PG_FUNCTION_ARGS)
{
	return prepare_value(fcinfo, H3SQL_REGION);
}

PG_FUNCTION_INFO_V1(h3whole_prepare_zones);
Datum h3whole_prepare_zones(PG_FUNCTION_ARGS)
{
	return prepare_value(fcinfo, H3SQL_ZONES);
}

PG_FUNCTION_INFO_V1(h3whole_prepare_places);
Datum h3whole_prepare_places(PG_FUNCTION_ARGS)
{
	return prepare_value(fcinfo, H3SQL_PLACES);
}

PG_FUNCTION_INFO_V1(h3whole_prepare_overlapping);
Datum h3whole_prepare_overlapping(PG_FUNCTION_ARGS)
{
	return prepare_value(fcinfo, H3SQL_OVERLAPPING);
}

/* What the second argument has, a prepared value: in the current memory if its array is prepared here, which refuses
 * it. */
static h3sql_List zones_in_value(FunctionCallInfo fcinfo, h3sql_Kind kind)
{
	PreparedValue *value = (PreparedValue *) PG_DETOAST_DATUM(PG_GETARG_DATUM(1));
	h3sql_List zones;

	if (value->kind == REFUSED)
	{
		ArrayType *array = (ArrayType *) value->cells;

		zones = cells_of(array);
		return zones_of(&zones, kind, first_of(array, kind));
	}
	if (value->kind != kind_of_value(kind))
		ereport(ERROR, (errcode(ERRCODE_INVALID_PARAMETER_VALUE), errmsg("cells that are prepared for another call")));
	zones.cells = value->cells;
	zones.count = zones.room = count_of_value(value);
	return zones;
}

PG_FUNCTION_INFO_V1(h3whole_prepared_covers);
Datum h3whole_prepared_covers(PG_FUNCTION_ARGS)
{
	h3sql_List zones = zones_in_value(fcinfo, H3SQL_REGION);

	PG_RETURN_BOOL(looked_up(fcinfo, &zones) != H3_NULL);
}

PG_FUNCTION_INFO_V1(h3whole_prepared_zone_of);
Datum h3whole_prepared_zone_of(PG_FUNCTION_ARGS)
{
	h3sql_List zones = zones_in_value(fcinfo, H3SQL_ZONES);

	return zone_or_null(fcinfo, looked_up(fcinfo, &zones));
}

PG_FUNCTION_INFO_V1(h3whole_prepared_place_of);
Datum h3whole_prepared_place_of(PG_FUNCTION_ARGS)
{
	h3sql_List zones = zones_in_value(fcinfo, H3SQL_PLACES);

	return place_or_null(fcinfo, &zones);
}

PG_FUNCTION_INFO_V1(h3whole_prepared_zones_of);
Datum h3whole_prepared_zones_of(PG_FUNCTION_ARGS)
{
	h3sql_List zones = zones_in_value(fcinfo, H3SQL_OVERLAPPING);

	return rows_of_zones(fcinfo, &zones);
}

PG_FUNCTION_INFO_V1(h3whole_cell_to_ancestors);
Datum h3whole_cell_to_ancestors(PG_FUNCTION_ARGS)
{
	H3Index ancestors[H3SQL_ANCESTORS];
	size_t count;

	check(h3sql_ancestors(GET_INDEX(0), ancestors, &count), GET_INDEX(0));
	PG_RETURN_ARRAYTYPE_P(array_of(ancestors, count, item_type(fcinfo)));
}

/* ---- The aggregate h3_count_cells_in_zones. A worker hands on its zones with their counts, which add up. */

/* The state: the zones as they were passed, and as others are looked up in them; how many cells lie in each, and in
 * none; and cells that wait to be counted together, once they are as many that a pass over the zones pays. */
typedef struct
{
	struct varlena *given;
	h3sql_List zones;
	h3sql_List waiting;
	/* with room for three numbers for each zone */
	int64_t *counts;
	int64_t others;
} Counted;

/* A zone and its count. */
typedef struct
{
	H3Index zone;
	int64_t count;
} ZoneCount;

/* The state of zones that are prepared, which it takes. */
static Counted *no_counts(const h3sql_List *zones, MemoryContext memory)
{
	Counted *group = MemoryContextAllocZero(memory, sizeof *group);

	group->zones = *zones;
	group->counts = MemoryContextAllocHuge(memory, (3 * zones->count + 1) * sizeof(int64_t));
	memset(group->counts, 0, zones->count * sizeof(int64_t));
	return group;
}

/* Counts the cells that wait. */
static void count_waiting(Counted *group)
{
	size_t count = group->zones.count;
	int64_t *found = group->counts + count;
	/* (of no zones there is room for one number still) */
	uint32_t *table = (uint32_t *) (count ? found + count : found);
	int64_t others;
	size_t at;
	H3Error error;

	CHECK_FOR_INTERRUPTS();
	if (group->waiting.count == 0)
		return;
	error = h3w_countCellsInZonesByTable(group->zones.cells, count, group->waiting.cells, group->waiting.count, table,
										 2 * count, found, count, &others, &at);
	if (error)
		check(error, group->waiting.cells[at]);
	for (size_t i = 0; i < count; i++)
		group->counts[i] += found[i];
	group->others += others;
	group->waiting.count = 0;
}

/* Whether the zones are the same for each row of a group: a constant of the query, or a parameter. */
static bool has_one_value(FunctionCallInfo fcinfo, int place)
{
	Aggref *call = AggGetAggref(fcinfo);
	Node *value = call ? (Node *) ((TargetEntry *) list_nth(call->args, place))->expr : NULL;

	while (value && (IsA(value, RelabelType) || IsA(value, ArrayCoerceExpr)))
		value =
			IsA(value, RelabelType) ? (Node *) ((RelabelType *) value)->arg : (Node *) ((ArrayCoerceExpr *) value)->arg;
	return value && (IsA(value, Const) || IsA(value, Param));
}

static void keep_given(Counted *group, struct varlena *given, MemoryContext memory)
{
	if (group->given)
		pfree(group->given);
	group->given = MemoryContextAllocHuge(memory, VARSIZE_ANY(given));
	memcpy(group->given, given, VARSIZE_ANY(given));
}

/* The zones of an array, prepared in a memory. */
static h3sql_List zones_in(struct varlena *given, MemoryContext memory)
{
	h3sql_List cells = cells_of(DatumGetArrayTypeP(PointerGetDatum(given)));
	MemoryContext before = MemoryContextSwitchTo(memory);
	h3sql_List zones = zones_of(&cells, H3SQL_ZONES, 1);

	MemoryContextSwitchTo(before);
	return zones;
}

/* Refuses other zones than those of the group. */
static void check_zones(const Counted *group, const h3sql_List *zones)
{
	size_t size = zones->count * sizeof(H3Index);

	if (group->zones.count != zones->count || (size > 0 && memcmp(group->zones.cells, zones->cells, size) != 0))
		ereport(ERROR, (errcode(ERRCODE_INVALID_PARAMETER_VALUE),
						errmsg("h3_count_cells_in_zones takes the same zones in all rows of a group")));
}

/* The group with the zones of a row. Those of a later row have to be the same, if in another array. */
static Counted *with_zones(FunctionCallInfo fcinfo, Counted *group, MemoryContext memory)
{
	struct varlena *given;
	h3sql_List zones;

	if (group && has_one_value(fcinfo, 1))
		return group;
	given = value_of((struct varlena *) PG_GETARG_POINTER(2));
	if (group && group->given && is_same(group->given, given))
		return group;
	zones = zones_in(given, group ? CurrentMemoryContext : memory);
	if (group)
	{
		check_zones(group, &zones);
		pfree(zones.cells);
	}
	else
		group = no_counts(&zones, memory);
	keep_given(group, given, memory);
	return group;
}

/* Takes a row: none whose zones are NULL. A cell that is NULL is not counted. */
PG_FUNCTION_INFO_V1(h3whole_count_step);
Datum h3whole_count_step(PG_FUNCTION_ARGS)
{
	MemoryContext memory = aggregate_memory(fcinfo);
	Counted *group = PG_ARGISNULL(0) ? NULL : (Counted *) PG_GETARG_POINTER(0);

	if (!PG_ARGISNULL(2))
		group = with_zones(fcinfo, group, memory);
	if (!PG_ARGISNULL(1) && !PG_ARGISNULL(2))
	{
		check(h3sql_push(&group->waiting, GET_INDEX(1), resize, memory), GET_INDEX(1));
		if (group->waiting.count >= 4096 && group->waiting.count / 4 >= group->zones.count)
			count_waiting(group);
	}
	if (!group)
		PG_RETURN_NULL();
	PG_RETURN_POINTER(group);
}

PG_FUNCTION_INFO_V1(h3whole_count_combine);
Datum h3whole_count_combine(PG_FUNCTION_ARGS)
{
	MemoryContext memory = aggregate_memory(fcinfo);
	Counted *group = PG_ARGISNULL(0) ? NULL : (Counted *) PG_GETARG_POINTER(0);
	const Counted *other = PG_ARGISNULL(1) ? NULL : (const Counted *) PG_GETARG_POINTER(1);
	h3sql_List zones = {NULL, 0, 0};

	if (other && !group)
	{
		append(&zones, other->zones.cells, other->zones.count, memory);
		group = no_counts(&zones, memory);
	}
	if (other)
	{
		check_zones(group, &other->zones);
		for (size_t i = 0; i < other->zones.count; i++)
			group->counts[i] += other->counts[i];
		group->others += other->others;
	}
	if (!group)
		PG_RETURN_NULL();
	PG_RETURN_POINTER(group);
}

/* What a worker hands on: the number of others, the zones, and their counts. */
PG_FUNCTION_INFO_V1(h3whole_count_serial);
Datum h3whole_count_serial(PG_FUNCTION_ARGS)
{
	Counted *group = (Counted *) PG_GETARG_POINTER(0);
	size_t size = group->zones.count * sizeof(H3Index);
	bytea *out;
	char *at;

	aggregate_memory(fcinfo);
	count_waiting(group);
	if (size > (MaxAllocSize - VARHDRSZ) / 2 - sizeof(int64))
		ereport(ERROR,
				(errcode(ERRCODE_PROGRAM_LIMIT_EXCEEDED), errmsg("the counts of a worker take more than a gigabyte")));
	out = palloc(VARHDRSZ + sizeof(int64) + 2 * size);
	SET_VARSIZE(out, VARHDRSZ + sizeof(int64) + 2 * size);
	at = VARDATA(out);
	memcpy(at, &group->others, sizeof(int64));
	memcpy(at + sizeof(int64), group->zones.cells, size);
	memcpy(at + sizeof(int64) + size, group->counts, size);
	PG_RETURN_BYTEA_P(out);
}

PG_FUNCTION_INFO_V1(h3whole_count_deserial);
Datum h3whole_count_deserial(PG_FUNCTION_ARGS)
{
	bytea *given = PG_GETARG_BYTEA_PP(0);
	const char *at = VARDATA_ANY(given);
	size_t size = (VARSIZE_ANY_EXHDR(given) - sizeof(int64)) / 2;
	h3sql_List zones = {NULL, 0, 0};
	Counted *group;

	aggregate_memory(fcinfo);
	append(&zones, at + sizeof(int64), size / sizeof(H3Index), CurrentMemoryContext);
	group = no_counts(&zones, CurrentMemoryContext);
	memcpy(&group->others, at, sizeof(int64));
	memcpy(group->counts, at + sizeof(int64) + size, size);
	PG_RETURN_POINTER(group);
}

static int compare_zones(const void *a, const void *b)
{
	H3Index first = ((const ZoneCount *) a)->zone;
	H3Index second = ((const ZoneCount *) b)->zone;

	return (first > second) - (first < second);
}

/* The zones of a group, ascending, with their counts, and behind them that of the others. */
static ZoneCount *sorted_counts(const Counted *group)
{
	size_t count = group->zones.count;
	ZoneCount *counts = MemoryContextAllocHuge(CurrentMemoryContext, (count + 1) * sizeof *counts);

	for (size_t i = 0; i < count; i++)
	{
		counts[i].zone = group->zones.cells[i];
		counts[i].count = group->counts[i];
	}
	qsort(counts, count, sizeof *counts, compare_zones);
	counts[count].zone = H3_NULL;
	counts[count].count = group->others;
	return counts;
}

/* The counts as an array of rows; in that of the others the zone is NULL. */
PG_FUNCTION_INFO_V1(h3whole_count_final);
Datum h3whole_count_final(PG_FUNCTION_ARGS)
{
	Oid type = get_element_type(get_fn_expr_rettype(fcinfo->flinfo));
	Counted *group = PG_ARGISNULL(0) ? NULL : (Counted *) PG_GETARG_POINTER(0);
	ZoneCount *counts;
	Datum *rows;
	TupleDesc kind;

	aggregate_memory(fcinfo);
	if (!group)
		PG_RETURN_NULL();
	count_waiting(group);
	if (group->zones.count >= MaxAllocSize / sizeof(Datum))
		ereport(ERROR, (errcode(ERRCODE_PROGRAM_LIMIT_EXCEEDED), errmsg("the counts take more than a gigabyte")));
	counts = sorted_counts(group);
	rows = palloc((group->zones.count + 1) * sizeof *rows);
	kind = lookup_rowtype_tupdesc(type, -1);
	for (size_t i = 0; i <= group->zones.count; i++)
	{
		Datum values[2] = {INDEX_DATUM(counts[i].zone), Int64GetDatum(counts[i].count)};
		bool nulls[2] = {i == group->zones.count, false};

		rows[i] = HeapTupleGetDatum(heap_form_tuple(kind, values, nulls));
	}
	ReleaseTupleDesc(kind);
	pfree(counts);
	PG_RETURN_ARRAYTYPE_P(construct_array(rows, (int) group->zones.count + 1, type, -1, false, TYPALIGN_DOUBLE));
}

/* ---- The operators @>, <@ and &&, of which each is false of what is no cell */

/* Whether a cell is another or an ancestor of it. */
static bool contains(H3Index a, H3Index b)
{
	int res = h3w_getResolution(a);
	H3Index above;

	return res >= 0 && h3w_cellToParent(b, res, &above) == E_SUCCESS && above == a;
}

PG_FUNCTION_INFO_V1(h3whole_contains);
Datum h3whole_contains(PG_FUNCTION_ARGS)
{
	PG_RETURN_BOOL(contains(GET_INDEX(0), GET_INDEX(1)));
}

PG_FUNCTION_INFO_V1(h3whole_contained);
Datum h3whole_contained(PG_FUNCTION_ARGS)
{
	PG_RETURN_BOOL(contains(GET_INDEX(1), GET_INDEX(0)));
}

PG_FUNCTION_INFO_V1(h3whole_overlaps);
Datum h3whole_overlaps(PG_FUNCTION_ARGS)
{
	PG_RETURN_BOOL(contains(GET_INDEX(0), GET_INDEX(1)) || contains(GET_INDEX(1), GET_INDEX(0)));
}

/* ---- SP-GiST for these operators: a radix tree. An inner tuple divides indexes by their labels of one level, which is
 * its prefix; of all levels before, they have the same labels. A cell's label of a level is its ancestor at that
 * resolution, or the cell itself if it is not finer; that of any other index is its first hexadecimal digits, one more
 * of each level, and zeros, which is no cell before level 15. From there on each index is its own label. */

#define LAST_LEVEL 15

static H3Index label_of(H3Index index, int level)
{
	H3Index above;

	if (level >= LAST_LEVEL)
		return index;
	if (!h3w_isValidCell(index))
		return index >> (60 - 4 * level) << (60 - 4 * level);
	return h3w_cellToParent(index, level, &above) == E_SUCCESS ? above : index;
}

PG_FUNCTION_INFO_V1(h3whole_tree_config);
Datum h3whole_tree_config(PG_FUNCTION_ARGS)
{
	const spgConfigIn *in = (spgConfigIn *) PG_GETARG_POINTER(0);
	spgConfigOut *out = (spgConfigOut *) PG_GETARG_POINTER(1);

	out->prefixType = INT4OID;
	out->labelType = in->attType;
	out->canReturnData = true;
	out->longValuesOK = false;
	PG_RETURN_VOID();
}

/* Divides an inner tuple at a level before its own: the one above it has one node, for all that it has. */
static void split_tuple(spgChooseOut *out, H3Index label, int level, int lower)
{
	Datum *labels = palloc(sizeof *labels);

	labels[0] = INDEX_DATUM(label);
	out->resultType = spgSplitTuple;
	out->result.splitTuple.prefixHasPrefix = true;
	out->result.splitTuple.prefixPrefixDatum = Int32GetDatum(level);
	out->result.splitTuple.prefixNNodes = 1;
	out->result.splitTuple.prefixNodeLabels = labels;
	out->result.splitTuple.childNodeN = 0;
	out->result.splitTuple.postfixHasPrefix = true;
	out->result.splitTuple.postfixPrefixDatum = Int32GetDatum(lower);
}

PG_FUNCTION_INFO_V1(h3whole_tree_choose);
Datum h3whole_tree_choose(PG_FUNCTION_ARGS)
{
	const spgChooseIn *in = (spgChooseIn *) PG_GETARG_POINTER(0);
	spgChooseOut *out = (spgChooseOut *) PG_GETARG_POINTER(1);
	H3Index index = (H3Index) DatumGetInt64(in->datum);
	H3Index present = (H3Index) DatumGetInt64(in->nodeLabels[0]);
	int level = DatumGetInt32(in->prefixDatum);
	int before = in->level;
	int node = 0;

	while (before < level && label_of(index, before) == label_of(present, before))
		before++;
	while (node < in->nNodes && (H3Index) DatumGetInt64(in->nodeLabels[node]) != label_of(index, level))
		node++;
	if (before < level)
		split_tuple(out, label_of(present, before), before, level);
	else if (node < in->nNodes)
	{
		out->resultType = spgMatchNode;
		out->result.matchNode.nodeN = node;
		out->result.matchNode.levelAdd = level + 1 - in->level;
		out->result.matchNode.restDatum = in->datum;
	}
	else if (in->allTheSame)
		split_tuple(out, present, level, level + 1);
	else
	{
		out->resultType = spgAddNode;
		out->result.addNode.nodeLabel = INDEX_DATUM(label_of(index, level));
		out->result.addNode.nodeN = in->nNodes;
	}
	PG_RETURN_VOID();
}

/* The first level, from one on, whose labels are not all the same; the last one, if all are. */
static int level_of(const spgPickSplitIn *in)
{
	H3Index first = (H3Index) DatumGetInt64(in->datums[0]);
	int level = in->level;
	int same = 0;

	while (level < LAST_LEVEL)
	{
		for (same = 1; same < in->nTuples; same++)
			if (label_of((H3Index) DatumGetInt64(in->datums[same]), level) != label_of(first, level))
				return level;
		level++;
	}
	return level;
}

PG_FUNCTION_INFO_V1(h3whole_tree_picksplit);
Datum h3whole_tree_picksplit(PG_FUNCTION_ARGS)
{
	const spgPickSplitIn *in = (spgPickSplitIn *) PG_GETARG_POINTER(0);
	spgPickSplitOut *out = (spgPickSplitOut *) PG_GETARG_POINTER(1);
	int level = level_of(in);

	out->hasPrefix = true;
	out->prefixDatum = Int32GetDatum(level);
	out->nNodes = 0;
	out->nodeLabels = palloc(sizeof(Datum) * in->nTuples);
	out->mapTuplesToNodes = palloc(sizeof(int) * in->nTuples);
	out->leafTupleDatums = palloc(sizeof(Datum) * in->nTuples);
	for (int i = 0; i < in->nTuples; i++)
	{
		Datum label = INDEX_DATUM(label_of((H3Index) DatumGetInt64(in->datums[i]), level));
		int node = 0;

		while (node < out->nNodes && out->nodeLabels[node] != label)
			node++;
		if (node == out->nNodes)
			out->nodeLabels[out->nNodes++] = label;
		out->mapTuplesToNodes[i] = node;
		out->leafTupleDatums[i] = in->datums[i];
	}
	PG_RETURN_VOID();
}

/* What the numbers of operators in the script are. */
enum
{
	OVERLAPS = 3,
	CONTAINS = 7,
	CONTAINED = 8
};

static bool is_so(int strategy, H3Index cell, H3Index asked)
{
	return (strategy != CONTAINED && contains(cell, asked)) || (strategy != CONTAINS && contains(asked, cell));
}

/* Whether an index with this label may be what each key asks for. Below a cell that contains what is asked for, as
 * below one that is contained, there may be what is; a cell that contains it has labels that do. */
static bool may_have(const spgInnerConsistentIn *in, H3Index label)
{
	for (int i = 0; i < in->nkeys; i++)
	{
		H3Index asked = (H3Index) DatumGetInt64(in->scankeys[i].sk_argument);

		if (!is_so(in->scankeys[i].sk_strategy == CONTAINS ? CONTAINS : OVERLAPS, label, asked))
			return false;
	}
	return true;
}

PG_FUNCTION_INFO_V1(h3whole_tree_inner);
Datum h3whole_tree_inner(PG_FUNCTION_ARGS)
{
	const spgInnerConsistentIn *in = (spgInnerConsistentIn *) PG_GETARG_POINTER(0);
	spgInnerConsistentOut *out = (spgInnerConsistentOut *) PG_GETARG_POINTER(1);

	out->nNodes = 0;
	out->nodeNumbers = palloc(sizeof(int) * in->nNodes);
	out->levelAdds = palloc(sizeof(int) * in->nNodes);
	for (int i = 0; i < in->nNodes; i++)
	{
		if (!may_have(in, (H3Index) DatumGetInt64(in->nodeLabels[i])))
			continue;
		out->levelAdds[out->nNodes] = DatumGetInt32(in->prefixDatum) + 1 - in->level;
		out->nodeNumbers[out->nNodes++] = i;
	}
	PG_RETURN_VOID();
}

PG_FUNCTION_INFO_V1(h3whole_tree_leaf);
Datum h3whole_tree_leaf(PG_FUNCTION_ARGS)
{
	const spgLeafConsistentIn *in = (spgLeafConsistentIn *) PG_GETARG_POINTER(0);
	spgLeafConsistentOut *out = (spgLeafConsistentOut *) PG_GETARG_POINTER(1);
	H3Index cell = (H3Index) DatumGetInt64(in->leafDatum);
	bool found = true;

	out->leafValue = in->leafDatum;
	out->recheck = false;
	for (int i = 0; found && i < in->nkeys; i++)
		found = is_so(in->scankeys[i].sk_strategy, cell, (H3Index) DatumGetInt64(in->scankeys[i].sk_argument));
	PG_RETURN_BOOL(found);
}
