/** A race: two threads raise a field. */
public class Counter {
    int hits;

    void raise() {
        hits++; // RACE hits
    }

    public static void main(String[] args) throws Exception {
        Counter counter = new Counter();
        Thread first = new Thread(counter::raise), second = new Thread(counter::raise);
        first.start();
        second.start();
        first.join();
        second.join();
        System.out.println(counter.hits);
    }
}
