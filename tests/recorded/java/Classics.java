import java.util.LinkedHashMap;
import java.util.Map;
import java.util.Random;
import java.util.function.IntConsumer;

/** Small programs as the literature on race detection has them, written from what they do. */
public class Classics {
    interface Program {
        void run(int n) throws Exception;
    }

    interface Work {
        void run() throws Exception;
    }

    static void quietly(Work work) {
        try {
            work.run();
        } catch (Exception e) {
            throw new IllegalStateException(e);
        }
    }

    static Thread[] all(int n, IntConsumer work) {
        Thread[] threads = new Thread[n];
        for (int k = 0; k < n; k++) {
            int mine = k;
            threads[k] = new Thread(() -> work.accept(mine));
        }
        for (Thread t : threads) t.start();
        return threads;
    }

    static void join(Thread[] threads) throws InterruptedException {
        for (Thread t : threads) t.join();
    }

    /** Accounts: the account's lock guards a deposit, and a transfer holds one lock of two. */
    static class Account {
        int amount;

        synchronized void deposit(int n) {
            amount += n; // RACE account
        }

        synchronized void transfer(Account to, int n) {
            amount -= n; // RACE account
            to.amount += n; // RACE account
        }
    }

    static void account(int n) throws Exception {
        Account[] accounts = {new Account(), new Account(), new Account()};
        join(all(3, k -> {
            for (int i = 0; i < n; i++) {
                accounts[k].deposit(10);
                accounts[k].transfer(accounts[(k + 1) % 3], 1);
            }
        }));
        System.out.println(accounts.length);
    }

    /** Airline: threads sell tickets by a count, and look at a flag, both without a lock. */
    static int sold, seats;
    static boolean stop;

    static void airline(int n) throws Exception {
        seats = n;
        join(all(4, k -> {
            while (!stop) { // RACE airline
                sold++; // RACE airline
                if (sold >= seats) stop = true; // RACE airline
            }
        }));
        System.out.println(sold >= seats);
    }

    /** Bubble sort by several threads: a lock guards a swap, but not the comparison before it. */
    static void bubblesort(int n) throws Exception {
        int[] rows = new int[n];
        for (int i = 0; i < n; i++) rows[i] = n - i;
        Object lock = new Object();
        join(all(3, k -> {
            for (int pass = 0; pass < n; pass++)
                for (int i = 0; i + 1 < n; i++)
                    if (rows[i] > rows[i + 1]) // RACE bubblesort
                        synchronized (lock) {
                            int x = rows[i];
                            rows[i] = rows[i + 1]; // RACE bubblesort
                            rows[i + 1] = x; // RACE bubblesort
                        }
        }));
        System.out.println(rows.length);
    }

    /** Ping-pong: one thread sets a shared object to null, and others use it. */
    static class Ball {
        int hits;
    }

    static Ball ball;

    static void pingpong(int n) throws Exception {
        ball = new Ball();
        join(all(4, k -> {
            for (int i = 0; i < n; i++) {
                Ball b = ball; // RACE pingpong
                ball = null; // RACE pingpong
                if (b != null) {
                    b.hits++; // RACE pingpong
                    ball = b; // RACE pingpong
                }
            }
        }));
        System.out.println("done");
    }

    /** Producers and consumers around a buffer of wait and notify: clean except for the count of what was made. */
    static class Buffer {
        final Object[] slots = new Object[3];
        int in, out, size;

        synchronized void put(Object x) throws InterruptedException {
            while (size == slots.length) wait();
            slots[in] = x;
            in = (in + 1) % slots.length;
            size++;
            notifyAll();
        }

        synchronized Object get() throws InterruptedException {
            while (size == 0) wait();
            Object x = slots[out];
            out = (out + 1) % slots.length;
            size--;
            notifyAll();
            return x;
        }
    }

    static int made;

    static void producers(int n) throws Exception {
        Buffer buffer = new Buffer();
        Thread[] makers = all(2, k -> quietly(() -> {
            for (int i = 0; i < n; i++) {
                buffer.put(new int[] {i});
                made++; // RACE producers
            }
        }));
        Thread[] users = all(2, k -> quietly(() -> {
            for (int i = 0; i < n; i++) ((int[]) buffer.get())[0]++;
        }));
        join(makers);
        join(users);
        System.out.println(buffer.size);
    }

    /** Merge sort by a thread for each half: clean, by fork and join alone. */
    static void mergesort(int n) throws Exception {
        int[] rows = new Random(1).ints(n, 0, 1000).toArray();
        merge(rows, 0, n, 2);
        for (int i = 1; i < n; i++) if (rows[i - 1] > rows[i]) throw new IllegalStateException();
        System.out.println("sorted");
    }

    static void merge(int[] rows, int from, int to, int depth) throws InterruptedException {
        if (to - from < 2) return;
        int middle = (from + to) / 2;
        if (depth > 0) {
            Thread t = new Thread(() -> quietly(() -> merge(rows, from, middle, depth - 1)));
            t.start();
            merge(rows, middle, to, depth - 1);
            t.join();
        } else {
            merge(rows, from, middle, 0);
            merge(rows, middle, to, 0);
        }
        int[] both = new int[to - from];
        for (int i = from, j = middle, k = 0; k < both.length; k++)
            both[k] = j >= to || i < middle && rows[i] <= rows[j] ? rows[i++] : rows[j++];
        for (int k = 0; k < both.length; k++) rows[from + k] = both[k];
    }

    /** A critical section by Peterson's turns with volatile words: clean. */
    static volatile boolean wants0, wants1;
    static volatile int turn;
    static int inside;

    static void critical(int n) throws Exception {
        join(all(2, k -> {
            for (int i = 0; i < n; i++) {
                if (k == 0) {
                    wants0 = true;
                    turn = 1;
                    while (wants1 && turn == 1) Thread.yield();
                    inside++;
                    wants0 = false;
                } else {
                    wants1 = true;
                    turn = 0;
                    while (wants0 && turn == 0) Thread.yield();
                    inside++;
                    wants1 = false;
                }
            }
        }));
        System.out.println(inside);
    }

    /** Rows of a matrix by a thread each, and a barrier of wait and notify between two steps: clean. */
    static int came, round;

    static synchronized void barrier(int threads) throws InterruptedException {
        int mine = round;
        if (++came == threads) {
            came = 0;
            round++;
            Classics.class.notifyAll();
        } else {
            while (mine == round) Classics.class.wait();
        }
    }

    static void matrix(int n) throws Exception {
        double[][] a = new double[n][n], b = new double[n][n];
        join(all(3, k -> quietly(() -> {
            for (int step = 0; step < 2; step++) {
                for (int i = k; i < n; i += 3) for (int j = 0; j < n; j++) b[i][j] = a[i][j] + a[(i + 1) % n][j] + 1;
                barrier(3);
                for (int i = k; i < n; i += 3) for (int j = 0; j < n; j++) a[i][j] = b[i][j] + b[(i + n - 1) % n][j];
                barrier(3);
            }
        })));
        System.out.println(a[0][0]);
    }

    public static void main(String[] args) throws Exception {
        Map<String, Program> programs = new LinkedHashMap<>();
        programs.put("account", Classics::account);
        programs.put("airline", Classics::airline);
        programs.put("bubblesort", Classics::bubblesort);
        programs.put("pingpong", Classics::pingpong);
        programs.put("producers", Classics::producers);
        programs.put("mergesort", Classics::mergesort);
        programs.put("critical", Classics::critical);
        programs.put("matrix", Classics::matrix);
        programs.get(args[0]).run(Integer.parseInt(args[1]));
    }
}
