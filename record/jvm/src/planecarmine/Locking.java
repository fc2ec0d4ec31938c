package planecarmine;

import java.util.ArrayList;
import java.util.HashMap;
import java.util.concurrent.locks.Condition;
import java.util.concurrent.locks.Lock;
import java.util.concurrent.locks.ReentrantLock;
import java.util.concurrent.locks.ReentrantReadWriteLock;

/** Who has which lock, by the recorder's own account. So a thread that has to wait for a lock gives the turn away. */
final class Locking {
    private Locking() { }

    static void acquire(Turns.T t, Things.Thing m, int kind, int site) { acquire(t, m, kind, Kinds.LOCK, site); }

    /** The same; `part` is LOCK, or TRY. */
    static void acquire(Turns.T t, Things.Thing m, int kind, int part, int site) {
        if (m.owner == t) {
            m.count++;
            return;
        }
        if (m.owner != null) {
            wants(t, m, false, site);
            while (m.owner != null && Turns.on) Turns.park(t, m);
            t.wanted = null;
        }
        m.owner = t;
        m.count = 1;
        Store.put(t, kind, m.number, part, site);
    }

    /** A thread is about to wait for a lock. */
    private static void wants(Turns.T t, Things.Thing m, boolean asReader, int site) {
        Store.put(t, Kinds.WANTED, m.number, Kinds.LOCK, site);
        t.wantsRead = asReader;
        t.wantedAt = site;
        t.wanted = m;
        Follow.waits(t, m, asReader, site);
    }

    static void release(Turns.T t, Things.Thing m, int kind, int site) {
        if (m.owner != t || --m.count > 0) return;
        Store.put(t, kind, m.number, Kinds.LOCK, site);
        m.owner = null;
        Turns.unpark(m);
    }

    /** Waits until a lock is free for this thread, before the call that takes it. */
    static void untilFree(Turns.T t, Things.Thing m, boolean asReader) {
        if (!isFree(t, m, asReader)) wants(t, m, asReader, t.site);
        Turns.parkUntil(t, m, () -> t.interrupted || isFree(t, m, asReader));
        t.wanted = null;
    }

    private static boolean isFree(Turns.T t, Things.Thing m, boolean asReader) {
        if (m.owner != null && m.owner != t) return false;
        return asReader || m.readers == null || m.readers.isEmpty()
                || m.readers.size() == 1 && m.readers.containsKey(t.number);
    }

    /** `part` is LOCK, or TRY. */
    static void readerIn(Turns.T t, Things.Thing m, int part, int site) {
        if (m.readers == null) m.readers = new HashMap<>();
        if (m.readers.merge(t.number, 1, Integer::sum) == 1) Store.put(t, Kinds.READER_IN, m.number, part, site);
    }

    static void readerOut(Turns.T t, Things.Thing m, int site) {
        Integer count = m.readers == null ? null : m.readers.get(t.number);
        if (count == null) return;
        if (count > 1) {
            m.readers.put(t.number, count - 1);
            return;
        }
        Store.put(t, Kinds.READER_OUT, m.number, Kinds.LOCK, site);
        m.readers.remove(t.number);
        Turns.unpark(m);
    }

    /** The threads that the library does not know to wait for a lock, a permit or a condition: they wait in a hook. */
    static ArrayList<Thread> waitingFor(Bridge.Call c) {
        Things.Thing m = c.thing();
        if (c.method.contains("Wait")) {
            Things.Thing queue = c.first == null ? null : Things.of(c.t, c.first);
            return Turns.those(t -> queue != null && isWaiter(queue, t));
        }
        // One that was signaled waits for the lock alone.
        return Turns.those(t -> t.queuedAt == m || t.needs == m && t.parkedAt == null);
    }

    private static boolean isWaiter(Things.Thing queue, Turns.T t) {
        return queue.waiters != null && t.parkedAt != null && queue.waiters.contains(t);
    }

    // ---- wait and notify

    /** What a wait keeps while the lock is free. */
    private static final class Waiting {
        final Turns.T t;
        final Things.Thing lock, queue;
        final int count, site;
        final long until;
        final Object mark = new Object();
        boolean interrupted, isLate;

        Waiting(Turns.T t, Things.Thing lock, Things.Thing queue, long nanos, int site) {
            this.t = t;
            this.lock = lock;
            this.queue = queue;
            this.site = site;
            this.count = lock.count;
            this.until = nanos == 0 ? 0 : System.nanoTime() + nanos;
        }

        void begin() {
            lock.count = 1;
            release(t, lock, kindOut(lock), site);
            if (queue.waiters == null) queue.waiters = new ArrayList<>();
            queue.waiters.add(t);
            t.needs = lock;
            t.wantedAt = site;
            t.waits = true;
            t.isTimed = until != 0;
            Turns.parkWithout(t, mark);
        }

        /** If the time is over or the thread was interrupted, it waits for the lock alone. */
        void look() {
            if (!interrupted && !isOver() || t.parkedAt != mark) return;
            isLate = !interrupted;
            Turns.unparkOne(t);
        }

        boolean isOver() { return until != 0 && System.nanoTime() - until > 0; }

        void end() {
            queue.waiters.remove(t);
            t.needs = null;
            t.waits = t.isTimed = false;
            t.wasLate = Follow.on ? Follow.isLate(t) : isLate;
            lock.owner = t;
            lock.count = count;
            if (Turns.on) Store.put(t, kindIn(lock), lock.number, t.wasLate ? Kinds.LATE : Kinds.LOCK, site);
        }

        /** Whether an interrupt ended the wait. In a followed run it may come as late as here, if the recording has it:
         * the thread may have had the turn before. */
        boolean wasInterrupted() {
            boolean isByPlan = !interrupted && Follow.endsByInterrupt(t, site);
            if ((interrupted || isByPlan) && Turns.on) Work.takeInterrupt(t, site);
            return interrupted || isByPlan && Thread.interrupted();
        }
    }

    /** Whether an interrupt ends a wait before it begins. In a followed run it does if it does in the recording. */
    private static boolean isInterrupted(Turns.T t, int site) {
        boolean isByPlan = Follow.endsByInterrupt(t, site);
        if (isByPlan) Work.takeInterrupt(t, site);
        if (Follow.on && !isByPlan || !Thread.interrupted()) return false;
        if (!isByPlan) Work.takeInterrupt(t, site);
        return true;
    }

    private static int kindIn(Things.Thing lock) { return lock.isReadWrite ? Kinds.WRITER_IN : Kinds.ACQUIRE; }
    private static int kindOut(Things.Thing lock) { return lock.isReadWrite ? Kinds.WRITER_OUT : Kinds.RELEASE; }

    /** `Object.wait`: the monitor of the JVM must be free too, so the thread waits there, and looks. */
    static void waitOn(Object o, long ms, int site) throws InterruptedException {
        Turns.T t = Turns.keep();
        Things.Thing m = t == null ? null : Things.of(t, o);
        if (t == null || m.owner != t || ms < 0) {
            o.wait(ms);
            return;
        }
        if (isInterrupted(t, site)) throw new InterruptedException();
        Waiting waiting = new Waiting(t, m, m, ms * 1000000, site);
        waiting.begin();
        while (Turns.on) {
            if (t.go) {
                if (m.owner == null) break;
                Turns.parkWithout(t, m);
            }
            try {
                o.wait(1);
            } catch (InterruptedException e) {
                waiting.interrupted = true;
            }
            waiting.look();
        }
        waiting.end();
        if (waiting.wasInterrupted()) throw new InterruptedException();
    }

    static void wake(Object o, boolean all) {
        Turns.T t = Turns.keep();
        Things.Thing m = t == null ? null : Things.of(t, o);
        if (t != null && m.owner == t && m.waiters != null && !m.waiters.isEmpty()) {
            wake(m, all);
            return;
        }
        if (all) o.notifyAll();
        else o.notify();
    }

    static void wake(Things.Thing queue, boolean all) {
        while (queue.waiters != null && !queue.waiters.isEmpty()) {
            Turns.unparkOne(queue.waiters.remove(all ? 0 : chosen(queue.waiters)));
            if (!all) return;
        }
    }

    private static int chosen(ArrayList<Turns.T> waiters) {
        return Follow.on ? Follow.firstOf(waiters) : Turns.draw(waiters.size());
    }

    // ---- conditions

    /** The lock of a condition, if this thread has it and the recorder knows it; else null. */
    private static Lock lockOf(Turns.T t, Condition c) {
        if (t == null) return null;
        Things.Thing m = Things.of(t, c).base;
        if (m == null || m.owner != t) return null;
        Object lock = m.get();
        if (lock instanceof ReentrantReadWriteLock) return ((ReentrantReadWriteLock) lock).writeLock();
        return lock instanceof ReentrantLock ? (Lock) lock : null;
    }

    private static int holds(Lock lock) {
        return lock instanceof ReentrantLock ? ((ReentrantLock) lock).getHoldCount()
                : ((ReentrantReadWriteLock.WriteLock) lock).getHoldCount();
    }

    /** Whether a wait for a condition is the recorder's own; it has the result in `left`, in nanoseconds. */
    static boolean awaits(Condition c, long nanos, boolean interruptibly, int site) throws InterruptedException {
        Turns.T t = Turns.keep();
        Lock lock = lockOf(t, c);
        if (lock == null) return false;
        if (interruptibly && isInterrupted(t, site)) throw new InterruptedException();
        int holds = holds(lock);
        Things.Thing queue = Things.of(t, c);
        Waiting waiting = new Waiting(t, queue.base, queue, nanos, site);
        waiting.begin();
        for (int k = 0; k < holds; k++) lock.unlock();
        awaitTurn(t, waiting, interruptibly);
        for (int k = 0; k < holds; k++) lock.lock();
        waiting.end();
        if (interruptibly && waiting.wasInterrupted()) throw new InterruptedException();
        if (waiting.interrupted) Turns.interruptAgain();
        return true;
    }

    private static void awaitTurn(Turns.T t, Waiting waiting, boolean interruptibly) {
        boolean interrupted = false;
        synchronized (t) {
            while (!t.go && Turns.on) {
                try {
                    t.wait(waiting.until == 0 ? 100 : 1);
                } catch (InterruptedException e) {
                    interrupted = true;
                    waiting.interrupted = interruptibly;
                }
                if (!waiting.interrupted && !waiting.isOver()) continue;
                break;
            }
        }
        waiting.look();
        Turns.await(t);
        waiting.interrupted |= interrupted;
    }

    /** Whether a signal was the recorder's own. */
    static boolean signals(Condition c, boolean all) {
        Turns.T t = Turns.keep();
        if (lockOf(t, c) == null) return false;
        wake(Things.of(t, c), all);
        return true;
    }
}
