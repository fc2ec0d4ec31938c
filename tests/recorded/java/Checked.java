/** A race: double-checked locking without `volatile`. `Holder` is the clean way. */
public class Checked {
    static Checked only;
    int[] rows;

    Checked() {
        rows = new int[] {1, 2, 3};
    }

    static Checked get() {
        if (only == null) { // RACE only
            synchronized (Checked.class) {
                if (only == null) only = new Checked(); // RACE only
            }
        }
        return only; // RACE only
    }

    static class Holder {
        static Checked one = new Checked();
    }

    public static void main(String[] args) throws Exception {
        Thread first = new Thread(() -> System.out.println(get().rows[1] + Holder.one.rows[0]));
        Thread second = new Thread(() -> System.out.println(get().rows[1] + Holder.one.rows[0]));
        first.start();
        second.start();
        first.join();
        second.join();
    }
}
