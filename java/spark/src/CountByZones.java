import h3whole.Counts;
import h3whole.Zones;
import java.util.Arrays;
import java.util.Collections;
import java.util.Iterator;
import org.apache.spark.api.java.JavaRDD;
import org.apache.spark.api.java.JavaSparkContext;
import org.apache.spark.broadcast.Broadcast;

/**
 * Counts points by zones, which are broadcast: each executor prepares them once, and each partition goes through the
 * library in columns. What partitions count adds up to the counts of the whole, however they are cut.
 *
 * <p>Compiled against the stubs of java/spark/stubs in the checks, and not run: Debian has no Spark.
 */
public final class CountByZones {
    private static final int LEAST = 1 << 16;

    private CountByZones() {}

    /** Returns how many points each zone has, and how many none. */
    public static Counts count(JavaSparkContext context, long[] zones, JavaRDD<Long> points) {
        Broadcast<Zones> shared = context.broadcast(new Zones(zones));
        return points.mapPartitions(part -> Collections.singleton(countPart(shared.value(), part)).iterator())
                .reduce(Counts::plus);
    }

    /** Counts the points of a partition, a column at a time, which is no shorter than the list of zones. */
    static Counts countPart(Zones zones, Iterator<Long> points) {
        long[] column = new long[Math.max(LEAST, zones.size())];
        Counts counts = zones.count(new long[0]);
        while (points.hasNext()) {
            int length = 0;
            while (length < column.length && points.hasNext()) {
                column[length++] = points.next();
            }
            counts = counts.plus(zones.count(length < column.length ? Arrays.copyOf(column, length) : column));
        }
        return counts;
    }
}
