/** Two locks in two orders: a deadlock in another order of the run, but no race. */
public class Abba {
    final Object a = new Object(), b = new Object();
    int x;

    void first() {
        synchronized (a) {
            synchronized (b) {
                x++;
            }
        }
    }

    void second() {
        synchronized (b) {
            synchronized (a) {
                x++;
            }
        }
    }

    public static void main(String[] args) throws Exception {
        Abba both = new Abba();
        Thread first = new Thread(both::first), second = new Thread(both::second);
        first.start();
        second.start();
        first.join();
        second.join();
        System.out.println(both.x);
    }
}
