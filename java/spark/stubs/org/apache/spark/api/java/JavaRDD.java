package org.apache.spark.api.java;

import java.util.Iterator;
import org.apache.spark.api.java.function.FlatMapFunction;
import org.apache.spark.api.java.function.Function2;

/** As much of Spark's as the examples name. */
public abstract class JavaRDD<T> {
    public abstract <U> JavaRDD<U> mapPartitions(FlatMapFunction<Iterator<T>, U> function);

    public abstract T reduce(Function2<T, T, T> function);
}
