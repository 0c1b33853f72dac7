package h3whole;

import java.lang.ref.Cleaner;
import java.util.concurrent.atomic.AtomicInteger;

/**
 * Zones or areas in memory outside of Java's heap, which threads may share. It is freed once, by {@code close} or when
 * the object is no longer reachable, and not before the calls in it have ended.
 */
final class Memory {
    private static final Cleaner CLEANER = Cleaner.create();

    private final Users users = new Users();
    private final Cleaner.Cleanable cleanable = CLEANER.register(this, users);
    private volatile boolean isClosed;

    /** Takes what is at an address over, for {@code freeZones}, and returns whether there is one. */
    boolean take(long address) {
        users.address = address;
        return address != 0;
    }

    /**
     * Returns the address, for a call that ends with {@link #leave}.
     *
     * @throws IllegalStateException it is closed
     */
    long enter() {
        if (isClosed || !users.enter()) {
            throw new IllegalStateException("it is closed");
        }
        return users.address;
    }

    void leave() {
        users.leave();
    }

    void close() {
        isClosed = true;
        cleanable.clean();
    }

    /** How many use the memory: the object itself, until it is closed, and the calls in it. */
    private static final class Users implements Runnable {
        private final AtomicInteger count = new AtomicInteger(1);
        private volatile long address;

        boolean enter() {
            int found = count.get();
            while (found > 0 && !count.compareAndSet(found, found + 1)) {
                found = count.get();
            }
            return found > 0;
        }

        void leave() {
            if (count.decrementAndGet() == 0) {
                Native.freeZones(address);
            }
        }

        @Override
        public void run() {
            leave();
        }
    }
}
