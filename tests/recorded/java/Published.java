/** Clean: a volatile flag publishes. A second pair without `volatile` is a race. */
public class Published {
    int[] data;
    volatile boolean ready;
    int[] more;
    boolean hint;

    void write() {
        data = new int[] {1, 2};
        ready = true;
        more = new int[] {3};
        hint = true; // RACE hint
    }

    public static void main(String[] args) throws Exception {
        Published published = new Published();
        Thread writer = new Thread(published::write);
        writer.start();
        while (!published.ready) Thread.onSpinWait();
        int sum = published.data[0] + published.data[1];
        while (!published.hint) Thread.onSpinWait(); // RACE hint
        sum += published.more[0];
        writer.join();
        System.out.println(sum);
    }
}
