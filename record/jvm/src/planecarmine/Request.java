package planecarmine;

import java.util.List;

/** A thread of a deadlock that waits for a lock. */
final class Request {
    final Turns.T thread;
    final int site;
    private final Things.Thing lock;
    private final boolean asReader;

    Request(Turns.T thread, Things.Thing lock, boolean asReader, int site) {
        this.thread = thread;
        this.lock = lock;
        this.asReader = asReader;
        this.site = site;
    }

    /** The number of another thread of the deadlock that has the lock, or -1. A reader waits for no reader. */
    int holder(List<Request> all) {
        for (Request one : all) if (one != this && isOf(one.thread)) return one.thread.number;
        return -1;
    }

    private boolean isOf(Turns.T other) {
        if (lock.owner == other) return true;
        return !asReader && lock.readers != null && lock.readers.containsKey(other.number);
    }
}
