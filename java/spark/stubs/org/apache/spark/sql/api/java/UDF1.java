package org.apache.spark.sql.api.java;

import java.io.Serializable;

/** As much of Spark's as the examples name. */
public interface UDF1<T1, R> extends Serializable {
    R call(T1 first) throws Exception;
}
