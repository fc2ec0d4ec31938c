package planecarmine;

import java.lang.ref.ReferenceQueue;
import java.lang.ref.WeakReference;
import java.util.ArrayList;
import java.util.HashMap;

/** Objects by identity, without keeping them: a number for each, and what the recorder knows of it as a lock. */
final class Things {
    private Things() { }

    static final class Thing extends WeakReference<Object> {
        final int hash, number;
        final Class<?> type;
        Thing next;
        /** As a lock: who has it, how often, and who waits for a notify. */
        Turns.T owner;
        int count;
        ArrayList<Turns.T> waiters;
        /** As a reader-writer lock: how often each thread reads, by its number. */
        HashMap<Integer, Integer> readers;
        /** The object that has the order of this one: the collection of a view, the lock of a condition. */
        Thing base;
        /** What a future comes from: the work, and other futures. */
        Thing[] sources;
        /** The threads that did work of this executor. */
        java.util.TreeSet<Integer> doneBy;
        /** A reader-writer lock; a future that was completed by a call. */
        boolean isReadWrite, hasPassed;
        /** As a barrier: how many came to this meeting, and which it is. */
        int came, meeting;
        /** The field that an updater or a handle is of, or 0. */
        int field;

        Thing(Object o, int hash, int number, Thing next) {
            super(o, gone);
            this.hash = hash;
            this.number = number;
            this.type = o.getClass();
            this.next = next;
        }
    }

    private static final ReferenceQueue<Object> gone = new ReferenceQueue<>();
    private static Thing[] table = new Thing[1 << 16];
    private static int used, last;
    private static final HashMap<Class<?>, Integer> types = new HashMap<>();

    /** The thing of an object that the thread met last, or of any other. The thread keeps no object, since the program
     * may wait until one is collected. */
    static Thing of(Turns.T t, Object o) {
        Thing first = t.firstThing, found = t.secondThing;
        if (first != null && first.refersTo(o)) return first;
        if (found == null || !found.refersTo(o)) found = found(o);
        if (found == null) {
            found = made(o);
            Store.put(t, Kinds.MET, found.number, type(o), 0);
        }
        t.secondThing = first;
        t.firstThing = found;
        return found;
    }

    /** The thing with a number, if its object is there. */
    static Thing numbered(int number) {
        for (Thing first : table) for (Thing t = first; t != null; t = t.next) if (t.number == number) return t;
        return null;
    }

    /** An object was made by the program, at a place. */
    static void allocated(Turns.T t, Object o, int site) {
        Thing found = found(o);
        if (found == null) found = made(o);
        Store.put(t, Kinds.ALLOCATED, found.number, type(o), site);
    }

    private static Thing found(Object o) {
        int hash = System.identityHashCode(o);
        for (Thing t = table[hash & table.length - 1]; t != null; t = t.next)
            if (t.hash == hash && t.refersTo(o)) return t;
        return null;
    }

    private static Thing made(Object o) {
        clean();
        if (used > table.length) grow();
        int hash = System.identityHashCode(o), k = hash & table.length - 1;
        Thing t = new Thing(o, hash, ++last, table[k]);
        table[k] = t;
        used++;
        return t;
    }

    /** The number of what names the object: its class, or for a class itself that class, as a negative number. */
    private static int type(Object o) {
        Class<?> c = o instanceof Class ? (Class<?>) o : o.getClass();
        Integer known = types.get(c);
        if (known == null) {
            types.put(c, known = types.size() + 1);
            Store.name(Kinds.CLASS, known, 0, 0, c.getTypeName());
        }
        return o instanceof Class ? -known : known;
    }

    private static void clean() {
        for (Object r = gone.poll(); r != null; r = gone.poll()) {
            Thing dead = (Thing) r;
            int k = dead.hash & table.length - 1;
            for (Thing t = table[k], before = null; t != null; before = t, t = t.next)
                if (t == dead) {
                    if (before == null) table[k] = t.next;
                    else before.next = t.next;
                    used--;
                    break;
                }
        }
    }

    private static void grow() {
        Thing[] old = table;
        table = new Thing[2 * old.length];
        for (Thing first : old)
            for (Thing t = first, next; t != null; t = next) {
                next = t.next;
                int k = t.hash & table.length - 1;
                t.next = table[k];
                table[k] = t;
            }
    }
}
