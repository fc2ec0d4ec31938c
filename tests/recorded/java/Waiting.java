import java.util.ArrayDeque;

/** Clean: wait and notify around a queue of one place. */
public class Waiting {
    private final ArrayDeque<Integer> queue = new ArrayDeque<>();

    synchronized void put(int x) throws InterruptedException {
        while (queue.size() == 1) wait();
        queue.add(x);
        notifyAll();
    }

    synchronized int take() throws InterruptedException {
        while (queue.isEmpty()) wait(1000);
        int x = queue.poll();
        notifyAll();
        return x;
    }

    public static void main(String[] args) throws Exception {
        Waiting waiting = new Waiting();
        int[] sums = new int[2];
        Thread[] takers = new Thread[2];
        for (int k = 0; k < 2; k++) {
            int mine = k;
            takers[k] = new Thread(() -> {
                try {
                    for (int i = 0; i < 5; i++) sums[mine] += waiting.take();
                } catch (InterruptedException e) {
                    throw new IllegalStateException(e);
                }
            });
            takers[k].start();
        }
        for (int i = 0; i < 10; i++) waiting.put(i);
        for (Thread t : takers) t.join();
        System.out.println(sums[0] + sums[1]);
    }
}
