package org.apache.spark.broadcast;

import java.io.Serializable;

/** As much of Spark's as the examples name. */
public abstract class Broadcast<T> implements Serializable {
    private static final long serialVersionUID = 1;

    public abstract T value();
}
