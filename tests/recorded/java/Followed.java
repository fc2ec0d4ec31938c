import java.nio.file.Files;
import java.nio.file.Path;
import java.util.ArrayList;
import java.util.List;
import java.util.concurrent.ExecutorService;
import java.util.concurrent.Executors;
import java.util.concurrent.TimeUnit;
import java.util.concurrent.atomic.AtomicIntegerFieldUpdater;
import java.util.concurrent.locks.Condition;
import java.util.concurrent.locks.ReentrantLock;

/** Each way has a race that a followed run comes to. What leads to it differs: waits, conditions, times, pools, the ends
 * of threads. FOLLOWED_AS in the environment makes it go another way than in the recording. */
public class Followed {
    static final String AS = String.valueOf(System.getenv("FOLLOWED_AS"));
    static final Object lock = new Object();
    static final ReentrantLock own = new ReentrantLock();
    static final Condition full = own.newCondition();
    static final AtomicIntegerFieldUpdater<Followed> count = AtomicIntegerFieldUpdater.newUpdater(Followed.class, "counted");
    static long total;
    static boolean isReady;
    static int items;
    static String name = "first";
    static final List<String> names = new ArrayList<>();
    volatile int counted;
    int[] rows = {1, 2};

    interface Work {
        void run() throws Exception;
    }

    static Thread started(Work work) {
        Thread thread = new Thread(() -> {
            try {
                work.run();
            } catch (Exception e) {
                throw new IllegalStateException(e);
            }
        });
        thread.start();
        return thread;
    }

    /** Two threads wait, one notify for each. */
    static void waits() throws Exception {
        Work wait = () -> {
            synchronized (lock) {
                while (items == 0) lock.wait();
                items--;
            }
            total++; // RACE waits
        };
        Thread first = started(wait), second = started(wait);
        for (int k = 0; k < 2; k++) {
            synchronized (lock) {
                items++;
                lock.notify();
            }
        }
        first.join();
        second.join();
    }

    /** A condition, and a wait whose time is over. */
    static void conditions() throws Exception {
        Thread first = started(() -> {
            own.lock();
            try {
                while (items == 0) full.await();
                items--;
            } finally {
                own.unlock();
            }
            total++; // RACE conditions
        });
        Thread second = started(() -> {
            own.lock();
            try {
                boolean came = full.await(30, TimeUnit.MILLISECONDS);
                items++;
                full.signal();
                if (came) return;
            } finally {
                own.unlock();
            }
            total++; // RACE conditions
        });
        first.join();
        second.join();
    }

    /** Works of a pool; a collection without a lock. */
    static void pool() throws Exception {
        ExecutorService pool = Executors.newFixedThreadPool(2);
        for (int k = 0; k < 2; k++) pool.submit(() -> names.add("x")); // RACE pool
        pool.shutdown();
        pool.awaitTermination(5, TimeUnit.SECONDS);
    }

    /** A thread that is joined has more to do than the schedule needs; an element of an array. */
    static void ends() throws Exception {
        Followed one = new Followed();
        Thread first = started(() -> {
            int sum = 0;
            for (int k = 0; k < 50; k++) sum += k;
            one.rows[1] = sum; // RACE ends
        });
        Thread second = started(() -> {
            int[] own = new int[20];
            for (int k = 1; k < own.length; k++) own[k] = own[k - 1] + k;
        });
        second.join();
        System.out.println(one.rows[1] > 0); // RACE ends
        first.join();
    }

    /** An update of a field, and a plain look at a name that another thread sets to null. */
    static void crashes() throws Exception {
        Followed one = new Followed();
        Thread first = started(() -> {
            count.incrementAndGet(one);
            name = null; // RACE crashes
        });
        System.out.println(name.length()); // RACE crashes
        first.join();
    }

    /** A look at a flag, and then a wait that misses its notify if the flag is set in between. */
    static void lost() throws Exception {
        Thread first = started(() -> {
            if (isReady) return; // RACE lost
            synchronized (lock) {
                lock.wait(AS.equals("hangs") ? 0 : 20);
            }
        });
        Thread second = started(() -> {
            isReady = true; // RACE lost
            synchronized (lock) {
                lock.notify();
            }
        });
        first.join();
        second.join();
    }

    /** Waits for a condition and for a monitor, which interrupts end. */
    static void interrupted() throws Exception {
        Thread first = started(() -> {
            own.lock();
            try {
                full.await();
            } catch (InterruptedException e) {
                items++;
            } finally {
                own.unlock();
            }
            total++; // RACE interrupted
        });
        Thread second = started(() -> {
            synchronized (lock) {
                try {
                    lock.wait();
                } catch (InterruptedException e) {
                    isReady = true;
                }
            }
            total++; // RACE interrupted
        });
        Thread.sleep(100);
        first.interrupt();
        second.interrupt();
        Thread.sleep(100);
        total++; // RACE interrupted
        first.join();
        second.join();
    }

    /** The thread of one access sleeps long before it, and that of the other one has come to its own by then. */
    static void sleeps() throws Exception {
        Thread first = started(() -> total = 1); // RACE sleeps
        Thread.sleep(300);
        System.out.println("seen " + total); // RACE sleeps
        first.join();
    }

    /** What comes in the second thread hangs on the environment. */
    static void changes() throws Exception {
        Thread first = started(() -> total = 1); // RACE changes
        Thread second = started(() -> {
            if (AS.equals("other")) isReady = true;
            if (AS.equals("ends")) Runtime.getRuntime().halt(9);
            if (AS.equals("killed")) {
                Files.writeString(Path.of("pid"), ProcessHandle.current().pid() + "\n");
                Thread.sleep(600_000);
            }
            System.out.println(total > 1); // RACE changes
        });
        if (AS.equals("waits")) Thread.sleep(60_000);
        first.join();
        second.join();
        System.out.println(isReady);
    }

    public static void main(String[] args) throws Exception {
        switch (args[0]) {
            case "waits": waits(); break;
            case "conditions": conditions(); break;
            case "pool": pool(); break;
            case "ends": ends(); break;
            case "crashes": crashes(); break;
            case "lost": lost(); break;
            case "interrupted": interrupted(); break;
            case "sleeps": sleeps(); break;
            default: changes();
        }
    }
}
