/** A race that the recorded order of a lock may hide: the write is before the section, the read after one. */
public class Hidden {
    int value;
    int done, seen;

    void writer() {
        value = 42; // RACE value
        synchronized (this) {
            done++;
        }
    }

    int reader() {
        synchronized (this) {
            seen++;
        }
        return value; // RACE value
    }

    public static void main(String[] args) throws Exception {
        Hidden hidden = new Hidden();
        Thread writer = new Thread(hidden::writer);
        writer.start();
        Thread reader = new Thread(() -> System.out.println(hidden.reader() % 42));
        reader.start();
        writer.join();
        reader.join();
    }
}
