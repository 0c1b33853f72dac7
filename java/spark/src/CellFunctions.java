import h3whole.H3;
import org.apache.spark.sql.SparkSession;
import org.apache.spark.sql.api.java.UDF1;
import org.apache.spark.sql.api.java.UDF2;
import org.apache.spark.sql.types.DataTypes;

/**
 * Functions of cells for Spark SQL, where a cell is a BIGINT. Of NULL they are NULL; an error ends the query, and is
 * named there.
 *
 * <p>Compiled against the stubs of java/spark/stubs in the checks, and not run: Debian has no Spark.
 */
public final class CellFunctions {
    private CellFunctions() {}

    /** Registers the functions, once in the driver. */
    public static void register(SparkSession spark) {
        UDF2<Long, Integer, Long> parent =
                (cell, res) -> cell == null || res == null ? null : (Long) H3.cellToParent(cell, res);
        UDF1<Long, Boolean> isValid = cell -> cell == null ? null : (Boolean) H3.isValidCell(cell);
        UDF1<Long, Integer> resolution = cell -> cell == null ? null : (Integer) H3.getResolution(cell);
        UDF1<String, Long> ofText = text -> text == null ? null : (Long) H3.stringToH3(text);
        UDF1<Long, String> toText = cell -> cell == null ? null : H3.h3ToString(cell);
        spark.udf().register("h3_cell_to_parent", parent, DataTypes.LongType);
        spark.udf().register("h3_is_valid_cell", isValid, DataTypes.BooleanType);
        spark.udf().register("h3_get_resolution", resolution, DataTypes.IntegerType);
        spark.udf().register("h3_string_to_h3", ofText, DataTypes.LongType);
        spark.udf().register("h3_h3_to_string", toText, DataTypes.StringType);
    }
}
