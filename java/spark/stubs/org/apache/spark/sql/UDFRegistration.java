package org.apache.spark.sql;

import org.apache.spark.sql.api.java.UDF1;
import org.apache.spark.sql.api.java.UDF2;
import org.apache.spark.sql.types.DataType;

/** As much of Spark's as the examples name. */
public abstract class UDFRegistration {
    public abstract void register(String name, UDF1<?, ?> function, DataType type);

    public abstract void register(String name, UDF2<?, ?, ?> function, DataType type);
}
