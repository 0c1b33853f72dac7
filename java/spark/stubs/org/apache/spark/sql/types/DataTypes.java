package org.apache.spark.sql.types;

/** As much of Spark's as the examples name. */
public final class DataTypes {
    public static final DataType LongType = null;
    public static final DataType IntegerType = null;
    public static final DataType BooleanType = null;
    public static final DataType StringType = null;

    private DataTypes() {}
}
