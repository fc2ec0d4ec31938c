import java.util.HashMap;
import java.util.Map;
import java.util.concurrent.atomic.AtomicInteger;
import java.util.concurrent.locks.Condition;
import java.util.concurrent.locks.Lock;
import java.util.concurrent.locks.ReadWriteLock;
import java.util.concurrent.locks.ReentrantLock;
import java.util.concurrent.locks.ReentrantReadWriteLock;

/** Clean: a ReentrantLock with a Condition, a read-write lock, an atomic number. */
public class Locks {
    final Lock lock = new ReentrantLock();
    final Condition full = lock.newCondition();
    final ReadWriteLock both = new ReentrantReadWriteLock();
    final AtomicInteger tickets = new AtomicInteger();
    int items, table;
    Map<String, Integer> map = new HashMap<>();

    void make() {
        lock.lock();
        try {
            items++;
            full.signal();
        } finally {
            lock.unlock();
        }
        both.writeLock().lock();
        try {
            table++;
            map.put("k" + tickets.incrementAndGet(), table);
        } finally {
            both.writeLock().unlock();
        }
    }

    int use() throws InterruptedException {
        lock.lock();
        try {
            while (items == 0) full.await();
            items--;
        } finally {
            lock.unlock();
        }
        both.readLock().lock();
        try {
            return table + map.size();
        } finally {
            both.readLock().unlock();
        }
    }

    public static void main(String[] args) throws Exception {
        Locks locks = new Locks();
        Thread[] all = new Thread[4];
        for (int k = 0; k < 4; k++) {
            boolean makes = k % 2 == 0;
            all[k] = new Thread(() -> {
                try {
                    for (int i = 0; i < 3; i++)
                        if (makes) locks.make();
                        else locks.use();
                } catch (InterruptedException e) {
                    throw new IllegalStateException(e);
                }
            });
            all[k].start();
        }
        for (Thread t : all) t.join();
        System.out.println(locks.items + " " + locks.table + " " + locks.map.size());
    }
}
