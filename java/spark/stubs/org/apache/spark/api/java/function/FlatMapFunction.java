package org.apache.spark.api.java.function;

import java.io.Serializable;
import java.util.Iterator;

/** As much of Spark's as the examples name. */
public interface FlatMapFunction<T, R> extends Serializable {
    Iterator<R> call(T value) throws Exception;
}
