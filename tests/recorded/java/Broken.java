import java.util.concurrent.CountDownLatch;

/** A race, and then an end of the sort that the first argument names. */
public class Broken {
    static int shared;
    static final Object first = new Object();

    static void raise(int n) {
        for (int k = 0; k < n; k++) shared++; // RACE shared
    }

    /** Many threads, each with one access; they live at once, or one after another. */
    static void many(int n, boolean atOnce) throws InterruptedException {
        Thread[] all = new Thread[n];
        CountDownLatch begin = new CountDownLatch(1);
        for (int k = 0; k < n; k++) {
            all[k] = new Thread(() -> {
                if (atOnce) await(begin);
                raise(1);
            });
            all[k].start();
            if (!atOnce) all[k].join();
        }
        begin.countDown();
        for (Thread t : all) t.join();
    }

    private static void await(CountDownLatch latch) {
        try {
            latch.await();
        } catch (InterruptedException e) {
            throw new IllegalStateException(e);
        }
    }

    private static boolean isTimed() {
        return Thread.getAllStackTraces().keySet().stream().anyMatch(t -> t.getName().equals("planecarmine timer"));
    }

    /** Has a lock as long as the recorder's timer runs; other threads wait for it then. */
    private static void hold() {
        synchronized (first) {
            try {
                do Thread.sleep(10);
                while (isTimed());
            } catch (InterruptedException e) {
                throw new IllegalStateException(e);
            }
            shared++;
        }
    }

    private static void held() throws InterruptedException {
        Thread[] all = new Thread[4];
        for (int k = 0; k < all.length; k++) {
            all[k] = new Thread(Broken::hold);
            all[k].start();
        }
        for (Thread t : all) t.join();
    }

    static int deep(int n) {
        return n + deep(n + 1);
    }

    static void kill() throws Exception {
        new ProcessBuilder("kill", "-9", Long.toString(ProcessHandle.current().pid())).start().waitFor();
        Thread.sleep(600_000);
    }

    public static void main(String[] args) throws Exception {
        int n = Integer.parseInt(args[1]);
        Thread other = new Thread(() -> raise(n));
        other.start();
        raise(n);
        other.join();
        switch (args[0]) {
            case "throws": throw new IllegalStateException("on the way");
            case "exits": System.exit(7);
            case "halts": Runtime.getRuntime().halt(9);
            case "kills": kill(); break;
            case "overflows": deep(0); break;
            case "threads": many(n, true); break;
            case "turns": many(n, false); break;
            case "held": held(); break;
            default:
        }
        System.out.println("the end");
    }
}
