import java.lang.ref.WeakReference;
import java.util.concurrent.CompletableFuture;

/** Two threads look at an object each and hold it no longer, and so does a future that another one came from. Each can
 * be collected then. */
public class Collected {
    private static volatile WeakReference<Object> ofWorker;
    private static volatile boolean isOver;
    private int value;

    private static WeakReference<Object> looked() {
        Collected one = new Collected();
        one.value++;
        return new WeakReference<>(one);
    }

    private static boolean isGone(WeakReference<Object> one) {
        for (int k = 0; k < 20 && one.get() != null; k++) System.gc();
        return one.get() == null;
    }

    public static void main(String[] arguments) throws Exception {
        Thread worker = new Thread(() -> {
            ofWorker = looked();
            while (!isOver) Thread.onSpinWait();
        });
        worker.start();
        while (ofWorker == null) Thread.onSpinWait();
        WeakReference<Object> own = looked();
        boolean isOwnGone = isGone(own), isOthersGone = isGone(ofWorker);
        isOver = true;
        worker.join();
        CompletableFuture<String> first = CompletableFuture.completedFuture("first");
        CompletableFuture<String> second = first.thenApply(text -> text + ", second");
        WeakReference<Object> ofFirst = new WeakReference<>(first);
        first = null;
        System.out.println(isOwnGone + " " + isOthersGone + " " + isGone(ofFirst) + " " + second.get());
    }
}
