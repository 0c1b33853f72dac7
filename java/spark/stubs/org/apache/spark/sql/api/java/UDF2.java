package org.apache.spark.sql.api.java;

import java.io.Serializable;

/** As much of Spark's as the examples name. */
public interface UDF2<T1, T2, R> extends Serializable {
    R call(T1 first, T2 second) throws Exception;
}
