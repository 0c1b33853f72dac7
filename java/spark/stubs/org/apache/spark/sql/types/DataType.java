package org.apache.spark.sql.types;

/** As much of Spark's as the examples name. */
public abstract class DataType {}
