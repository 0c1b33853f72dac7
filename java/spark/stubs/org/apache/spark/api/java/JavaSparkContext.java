package org.apache.spark.api.java;

import org.apache.spark.broadcast.Broadcast;

/** As much of Spark's as the examples name. */
public abstract class JavaSparkContext {
    public abstract <T> Broadcast<T> broadcast(T value);
}
