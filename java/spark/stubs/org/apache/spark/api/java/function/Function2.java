package org.apache.spark.api.java.function;

import java.io.Serializable;

/** As much of Spark's as the examples name. */
public interface Function2<T1, T2, R> extends Serializable {
    R call(T1 first, T2 second) throws Exception;
}
