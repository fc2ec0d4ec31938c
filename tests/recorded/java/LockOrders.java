import java.util.concurrent.CountDownLatch;
import java.util.concurrent.TimeUnit;
import java.util.concurrent.locks.ReentrantLock;
import java.util.concurrent.locks.ReentrantReadWriteLock;

/** Two threads take two locks, in two orders. The first argument says which locks, and whether another order of the run
 * is a deadlock: lines with HOLDS and WAITS are those of one. ORDERS_AS in the environment makes a thread take another
 * lock than in the recording. */
public class LockOrders {
    static final String AS = String.valueOf(System.getenv("ORDERS_AS"));
    static final Object a = new Object(), b = new Object(), gate = new Object(), other = new Object();
    static final ReentrantLock own = new ReentrantLock();
    static final ReentrantReadWriteLock table = new ReentrantReadWriteLock();
    static final CountDownLatch isFirstDone = new CountDownLatch(1);
    static boolean waits, isReady;
    static int shared;

    interface Work {
        void run() throws InterruptedException;
    }

    static Thread started(Work work) {
        Thread thread = new Thread(() -> {
            try {
                work.run();
            } catch (InterruptedException e) {
                throw new IllegalStateException(e);
            }
        });
        thread.start();
        return thread;
    }

    static void nested(Object outer, Object inner) {
        synchronized (outer) { // HOLDS monitors, WAITS readers
            synchronized (inner) { // WAITS monitors
                shared++;
            }
        }
    }

    /** A monitor and then a lock; and the other way round. */
    static void monitorFirst() {
        synchronized (a) { // HOLDS lock
            own.lock(); // WAITS lock
            shared++;
            own.unlock();
        }
    }

    static void lockFirst() {
        own.lock(); // HOLDS lock
        synchronized (AS.equals("other") ? other : a) { // WAITS lock
            shared++;
        }
        own.unlock();
    }

    /** A reader, and a writer. */
    static void readerFirst() {
        table.readLock().lock(); // HOLDS readers
        nested(b, a);
        table.readLock().unlock();
    }

    static void writerLast() {
        synchronized (b) { // HOLDS readers
            table.writeLock().lock(); // WAITS readers
            shared++;
            table.writeLock().unlock();
        }
    }

    /** A thread that comes back from a `wait` needs the monitor again. */
    static void comesBack() throws InterruptedException {
        synchronized (b) { // HOLDS notified
            synchronized (a) {
                waits = true;
                while (!isReady) a.wait(); // WAITS notified
            }
        }
    }

    static void notifies() throws InterruptedException {
        while (!isReady)
            synchronized (a) {
                isReady = waits;
                if (isReady) a.notify();
            }
        Thread.sleep(50);
        synchronized (a) { // HOLDS notified
            synchronized (b) { // WAITS notified
                shared++;
            }
        }
    }

    static void gated(Object outer, Object inner) {
        synchronized (gate) {
            nested(outer, inner);
        }
    }

    /** A try of a lock waits for nobody, or for a time only. */
    static void tries() throws InterruptedException {
        synchronized (a) {
            if (own.tryLock()) own.unlock(); // TRIES
            if (table.writeLock().tryLock(1, TimeUnit.MILLISECONDS)) table.writeLock().unlock(); // TRIES
            if (table.readLock().tryLock()) table.readLock().unlock(); // TRIES
        }
    }

    static void waitsFor() {
        own.lock();
        table.writeLock().lock();
        synchronized (a) {
            shared++;
        }
        table.writeLock().unlock();
        own.unlock();
    }

    static void after(CountDownLatch latch) throws InterruptedException {
        latch.await();
        nested(b, a);
    }

    static void before(CountDownLatch latch) {
        nested(a, b);
        latch.countDown();
    }

    public static void main(String[] args) throws InterruptedException {
        Work first = () -> nested(a, b), second = () -> nested(b, a);
        switch (args[0]) {
            case "lock": first = LockOrders::monitorFirst; second = LockOrders::lockFirst; break;
            case "readers": first = LockOrders::readerFirst; second = LockOrders::writerLast; break;
            case "notified": first = LockOrders::comesBack; second = LockOrders::notifies; break;
            case "gate": first = () -> gated(a, b); second = () -> gated(b, a); break;
            case "ordered": first = () -> before(isFirstDone); second = () -> after(isFirstDone); break;
            case "same": second = first; break;
            case "tries": first = LockOrders::tries; second = LockOrders::waitsFor; break;
            default:
        }
        Thread one = started(first), two = started(second);
        one.join();
        two.join();
        System.out.println("the end");
    }
}
