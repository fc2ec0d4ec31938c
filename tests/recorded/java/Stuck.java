import java.util.concurrent.CountDownLatch;
import java.util.concurrent.ExecutorService;
import java.util.concurrent.Executors;
import java.util.concurrent.TimeUnit;
import java.util.concurrent.locks.Lock;
import java.util.concurrent.locks.ReentrantLock;
import java.util.concurrent.locks.ReentrantReadWriteLock;

/** Programs that hang in a deadlock, of the sort that the first argument names; and some that do not. */
public class Stuck {
    static final Object first = new Object(), second = new Object(), third = new Object();
    static final Lock one = new ReentrantLock(), other = new ReentrantLock();
    static final ReentrantReadWriteLock table = new ReentrantReadWriteLock();
    static final CountDownLatch both = new CountDownLatch(2), all = new CountDownLatch(3);
    static int shared;

    interface Work {
        void run() throws InterruptedException;
    }

    static Thread started(Work work) {
        Thread t = new Thread(() -> {
            try {
                work.run();
            } catch (InterruptedException e) {
                throw new IllegalStateException(e);
            }
        });
        t.start();
        return t;
    }

    static void come(CountDownLatch latch) throws InterruptedException {
        latch.countDown();
        latch.await();
    }

    static void monitors(Object own, Object wanted, CountDownLatch latch) throws InterruptedException {
        synchronized (own) { // HOLDS monitors
            come(latch);
            synchronized (wanted) { // WAITS monitors
                shared++;
            }
        }
    }

    static void locks(Lock own, Lock wanted) throws InterruptedException {
        own.lock(); // HOLDS locks
        come(both);
        wanted.lock(); // WAITS locks
        shared++;
    }

    /** Two readers that want to write: each waits for the other. */
    static void upgrade() throws InterruptedException {
        table.readLock().lock(); // HOLDS upgrade
        come(both);
        table.writeLock().lock(); // WAITS upgrade
        shared++;
    }

    static boolean ready, waits;

    /** A thread that comes back from a `wait` needs the monitor again. */
    static void comesBack() throws InterruptedException {
        synchronized (second) { // HOLDS notified
            synchronized (first) {
                waits = true;
                while (!ready) first.wait(); // WAITS notified
            }
        }
    }

    static void notifies() throws InterruptedException {
        while (true)
            synchronized (first) { // HOLDS notified
                if (!waits) continue;
                ready = true;
                first.notify();
                synchronized (second) { // WAITS notified
                    shared++;
                }
            }
    }

    static void pool() throws InterruptedException {
        ExecutorService workers = Executors.newFixedThreadPool(3);
        workers.execute(() -> inPool(first, second));
        workers.execute(() -> inPool(second, first));
        workers.shutdown();
        workers.awaitTermination(Long.MAX_VALUE, TimeUnit.DAYS);
    }

    static void inPool(Object own, Object wanted) {
        try {
            monitors(own, wanted, both);
        } catch (InterruptedException e) {
            throw new IllegalStateException(e);
        }
    }

    /** One of the threads waits for a time and then lets go: this is no deadlock. */
    static void timed() throws InterruptedException {
        one.lock();
        come(both);
        if (other.tryLock(1, TimeUnit.SECONDS)) other.unlock();
        one.unlock();
    }

    static void waitsForOne() throws InterruptedException {
        other.lock();
        come(both);
        one.lock();
        one.unlock();
        other.unlock();
    }

    /** Nobody notifies: the thread waits for no lock, so this is no deadlock of locks. */
    static void lost() throws InterruptedException {
        synchronized (first) {
            System.out.println("waits");
            first.wait();
        }
    }

    public static void main(String[] args) throws InterruptedException {
        Thread[] threads = {};
        switch (args[0]) {
            case "monitors":
                threads = new Thread[] {started(() -> monitors(first, second, both)),
                    started(() -> monitors(second, first, both))};
                break;
            case "three":
                threads = new Thread[] {started(() -> monitors(first, second, all)),
                    started(() -> monitors(second, third, all)), started(() -> monitors(third, first, all))};
                break;
            case "locks":
                threads = new Thread[] {started(() -> locks(one, other)), started(() -> locks(other, one))};
                break;
            case "upgrade": threads = new Thread[] {started(Stuck::upgrade), started(Stuck::upgrade)}; break;
            case "notified": threads = new Thread[] {started(Stuck::comesBack), started(Stuck::notifies)}; break;
            case "pool": pool(); break;
            case "lost": threads = new Thread[] {started(Stuck::lost), started(() -> shared++)}; break;
            case "timed": threads = new Thread[] {started(Stuck::timed), started(Stuck::waitsForOne)}; break;
            default:
        }
        for (Thread t : threads) t.join();
        System.out.println("the end");
    }
}
