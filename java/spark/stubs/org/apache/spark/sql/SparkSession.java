package org.apache.spark.sql;

/** As much of Spark's as the examples name. */
public abstract class SparkSession {
    public abstract UDFRegistration udf();
}
