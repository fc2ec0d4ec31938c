/** A program with a race: the writer counts under a lock, and the reader looks once without it. */
public class Count {
    private int hits;

    synchronized void write() {
        for (int k = 0; k < 2; k++) hits++;
    }

    void read() {
        System.out.println(hits);
    }

    public static void main(String[] args) throws InterruptedException {
        Count count = new Count();
        Thread writer = new Thread(count::write), reader = new Thread(count::read);
        writer.start();
        reader.start();
        writer.join();
        reader.join();
    }
}
