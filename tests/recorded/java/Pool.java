import java.util.ArrayList;
import java.util.List;
import java.util.concurrent.ArrayBlockingQueue;
import java.util.concurrent.BlockingQueue;
import java.util.concurrent.CompletableFuture;
import java.util.concurrent.ConcurrentHashMap;
import java.util.concurrent.CountDownLatch;
import java.util.concurrent.ExecutorService;
import java.util.concurrent.Executors;
import java.util.concurrent.Future;
import java.util.concurrent.TimeUnit;

/** Clean except for `lost`: an executor, futures, a latch, a map, a queue, CompletableFuture. */
public class Pool {
    static int lost;
    static final ConcurrentHashMap<Integer, int[]> map = new ConcurrentHashMap<>();
    static final CountDownLatch latch = new CountDownLatch(4);
    static final BlockingQueue<int[]> queue = new ArrayBlockingQueue<>(2);

    static int[] work(int[] given) {
        lost++; // RACE lost
        map.put(given[0], new int[] {given[0] * 2});
        latch.countDown();
        return new int[] {given[0] + 1};
    }

    static void fill() {
        try {
            for (int i = 0; i < 5; i++) queue.put(new int[] {i});
        } catch (InterruptedException e) {
            throw new IllegalStateException(e);
        }
    }

    public static void main(String[] args) throws Exception {
        ExecutorService pool = Executors.newFixedThreadPool(3);
        List<Future<int[]>> futures = new ArrayList<>();
        for (int k = 0; k < 4; k++) {
            int[] given = {k};
            futures.add(pool.submit(() -> work(given)));
        }
        int sum = 0;
        for (Future<int[]> f : futures) sum += f.get()[0];
        latch.await();
        for (int k = 0; k < 4; k++) sum += map.get(k)[0];
        pool.execute(Pool::fill);
        for (int i = 0; i < 5; i++) sum += queue.take()[0];
        int[] box = {1};
        CompletableFuture<Integer> f = CompletableFuture.supplyAsync(() -> ++box[0], pool).thenApply(x -> x + box[0]);
        sum += f.get();
        pool.shutdown();
        pool.awaitTermination(5, TimeUnit.SECONDS);
        System.out.println(sum + box[0]);
    }
}
