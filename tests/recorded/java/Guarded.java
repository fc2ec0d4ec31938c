/** Clean: a synchronized method, a synchronized block, a static one. */
public class Guarded {
    private int hits;
    private final int[] rows = new int[4];
    private static long total;

    synchronized void raise(int k) {
        hits++;
        rows[k % 4] += hits;
    }

    static synchronized void add(int n) {
        total += n;
    }

    public static void main(String[] args) throws Exception {
        Guarded guarded = new Guarded();
        Thread[] all = new Thread[3];
        for (int k = 0; k < 3; k++) {
            int mine = k;
            all[k] = new Thread(() -> {
                for (int i = 0; i < 5; i++) {
                    guarded.raise(mine + i);
                    add(i);
                    synchronized (guarded) {
                        guarded.rows[0]++;
                    }
                }
            });
            all[k].start();
        }
        for (Thread t : all) t.join();
        System.out.println(guarded.hits + " " + total);
    }
}
