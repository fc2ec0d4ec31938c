import java.util.Collection;
import java.util.concurrent.Semaphore;
import java.util.concurrent.locks.Condition;
import java.util.concurrent.locks.ReentrantLock;
import java.util.concurrent.locks.ReentrantReadWriteLock;

/** A program that looks who waits, and goes on when somebody does: for a permit, a lock, a lock of writers, and a
 * condition. */
public class Queued {
    /** A lock that ends the waits for a condition. */
    private static final class Gate extends ReentrantLock {
        final transient Condition isOpen = newCondition();

        Collection<Thread> waiters() { return getWaitingThreads(isOpen); }
    }

    private static final Semaphore permits = new Semaphore(0);
    private static final ReentrantLock lock = new ReentrantLock();
    private static final ReentrantReadWriteLock table = new ReentrantReadWriteLock();
    private static final Gate gate = new Gate();

    private static Thread started(Runnable work) {
        Thread thread = new Thread(work);
        thread.start();
        return thread;
    }

    private static void waitAtGate() {
        gate.lock();
        try {
            gate.isOpen.await();
        } catch (InterruptedException e) {
            System.out.println("a waiter is interrupted");
        } finally {
            gate.unlock();
        }
    }

    private static boolean endWaits() {
        gate.lock();
        try {
            if (!gate.hasWaiters(gate.isOpen) || gate.getWaitQueueLength(gate.isOpen) != 1) return false;
            for (Thread waiter : gate.waiters()) waiter.interrupt();
            return true;
        } finally {
            gate.unlock();
        }
    }

    public static void main(String[] arguments) throws Exception {
        Thread taker = started(permits::acquireUninterruptibly);
        while (!permits.hasQueuedThreads()) Thread.sleep(1);
        System.out.println("permits: " + permits.getQueueLength());
        permits.release();
        taker.join();
        lock.lock();
        Thread locker = started(() -> {
            lock.lock();
            lock.unlock();
        });
        while (!lock.hasQueuedThread(locker)) Thread.sleep(1);
        System.out.println("lock: " + lock.getQueueLength() + " " + lock.hasQueuedThread(taker));
        lock.unlock();
        locker.join();
        table.writeLock().lock();
        Thread reader = started(() -> {
            table.readLock().lock();
            table.readLock().unlock();
        });
        while (table.getQueueLength() != 1) Thread.sleep(1);
        table.writeLock().unlock();
        reader.join();
        Thread waiter = started(Queued::waitAtGate);
        while (!endWaits()) Thread.sleep(1);
        waiter.join();
        System.out.println("queued: " + (permits.hasQueuedThreads() || lock.hasQueuedThreads() || table.hasQueuedThreads()));
    }
}
