package planecarmine;

import java.util.ArrayList;
import java.util.IdentityHashMap;
import java.util.concurrent.Callable;
import java.util.concurrent.Future;
import java.util.function.BiConsumer;
import java.util.function.BiFunction;
import java.util.function.Consumer;
import java.util.function.Function;
import java.util.function.Supplier;

/** Work that a thread gives to others, and the orders that come of it: it begins after it was given, and who gets its
 * result comes after its end. */
final class Work {
    private Work() { }

    /** The work that has no wrap, as that of a parallel stream: one order for all that was given, and one for each
     * thread of a pool for all that it has done. */
    private static final int GIVEN = Classes.field("work", "given");
    private static final ArrayList<Integer> done = new ArrayList<>();
    private static boolean isGiven;

    static void pass(Turns.T t, Things.Thing x, int site) { Store.put(t, Kinds.PASS, x.number, Kinds.ORDER, site); }
    static void take(Turns.T t, Things.Thing x, int site) { Store.put(t, Kinds.TAKE, x.number, Kinds.ORDER, site); }
    static void pass(Turns.T t, int field, int site) { Store.put(t, Kinds.PASS, 0, field, site); }
    static void take(Turns.T t, int field, int site) { Store.put(t, Kinds.TAKE, 0, field, site); }

    static Things.Thing base(Turns.T t, Object o) {
        Things.Thing x = Things.of(t, o);
        while (x.base != null) x = x.base;
        return x;
    }

    // ---- interrupts, and permits to go on

    private static int interruptOf(Turns.T t) { return Classes.field("interrupt", "T" + t.number); }
    private static int permitOf(Turns.T t) { return Classes.field("park", "T" + t.number); }

    static void passInterrupt(Turns.T t, Turns.T to, int site) { pass(t, interruptOf(to), site); }
    static void takeInterrupt(Turns.T t, int site) { take(t, interruptOf(t), site); }
    static void passPermit(Turns.T t, Turns.T to, int site) { pass(t, permitOf(to), site); }
    static void takePermit(Turns.T t, int site) { take(t, permitOf(t), site); }

    // ---- work without a wrap

    static void give(Turns.T t, int site) {
        isGiven = true;
        pass(t, GIVEN, site);
    }

    /** A thread of a pool comes into code of the program, or leaves it. */
    static void comesIn(Turns.T t, int site) {
        if (isGiven) take(t, GIVEN, site);
    }

    static void goesOut(Turns.T t, int site) {
        int field = Classes.field("work", "T" + t.number);
        if (!done.contains(field)) done.add(field);
        pass(t, field, site);
    }

    /** A thread goes on after all that threads of pools have done. */
    static void gather(Turns.T t, int site) {
        for (int field : done) take(t, field, site);
    }

    // ---- futures

    /** A future comes from work and from other futures. */
    static void link(Turns.T t, Object result, ArrayList<Object> from) {
        if (!(result instanceof Future)) return;
        Things.Thing f = Things.of(t, result);
        if (f.sources != null || from.isEmpty()) return;
        f.sources = new Things.Thing[from.size()];
        for (int k = 0; k < f.sources.length; k++) f.sources[k] = Things.of(t, from.get(k));
    }

    /** A thread has the result of a future. */
    static void takeResult(Turns.T t, Object future, int site) {
        IdentityHashMap<Things.Thing, Boolean> seen = new IdentityHashMap<>();
        ArrayList<Things.Thing> left = new ArrayList<>();
        left.add(Things.of(t, future));
        boolean isKnown = false;
        while (!left.isEmpty()) {
            Things.Thing x = left.remove(left.size() - 1);
            if (seen.put(x, true) != null) continue;
            take(t, x, site);
            isKnown |= Job.class.isAssignableFrom(x.type) || x.hasPassed;
            if (x.sources != null) for (Things.Thing one : x.sources) left.add(one);
        }
        if (!isKnown) gather(t, site);
    }

    // ---- work with a wrap

    static boolean canWrap(Object work) {
        if (work == null || work instanceof Future || work instanceof Job || work instanceof Comparable) return false;
        return work instanceof Runnable || work instanceof Callable || work instanceof Supplier || work instanceof Function
                || work instanceof Consumer || work instanceof BiFunction || work instanceof BiConsumer;
    }

    /** The wrap of work with two arguments, or with one or none. */
    static Job wrapped(Bridge.Call c, Object work, boolean two) {
        Turns.T t = c.t;
        int site = c.site;
        Object by = c.on instanceof Class ? null : c.on;
        Job job = two ? new JobOfTwo(work, by, site) : new JobOfOne(work, by, site);
        Things.allocated(t, job, site);
        pass(t, Things.of(t, job), site);
        return job;
    }

    /** What an executor has done is an order for each of its threads, so that its works stay apart. */
    static void passDone(Turns.T t, Object executor, int site) {
        Things.Thing x = Things.of(t, executor);
        if (x.doneBy == null) x.doneBy = new java.util.TreeSet<>();
        x.doneBy.add(t.number);
        Store.put(t, Kinds.PASS, x.number, t.number, site);
    }

    static void takeDone(Turns.T t, Object executor, int site) {
        Things.Thing x = Things.of(t, executor);
        if (x.doneBy != null) for (int thread : x.doneBy) Store.put(t, Kinds.TAKE, x.number, thread, site);
        gather(t, site);
    }

    /** Work that begins after it was given, and whose end comes before what its future gives. */
    static class Job {
        final Object work;
        private final Object by;
        private final int site;

        Job(Object work, Object by, int site) {
            this.work = work;
            this.by = by;
            this.site = site;
        }

        boolean begin() {
            boolean had = Turns.on && Turns.holder == Turns.me();
            Turns.T t = Turns.keep();
            if (t == null) return true;
            take(t, Things.of(t, this), site);
            if (by instanceof Future) takeResult(t, by, site);
            return had;
        }

        /** A function that answers with a future: what comes of it comes of that one too. */
        Object of(Object result) {
            Turns.T t = result instanceof Future ? Turns.keep() : null;
            if (t != null) Things.of(t, this).sources = new Things.Thing[] {Things.of(t, result)};
            return result;
        }

        void end(boolean had) {
            Turns.T t = Turns.keep();
            if (t == null) return;
            pass(t, Things.of(t, this), site);
            if (by != null && !(by instanceof Future)) passDone(t, by, site);
            if (!had) Turns.give(t);
        }

        @Override public String toString() { return work.toString(); }
    }

    @SuppressWarnings({"unchecked", "rawtypes"})
    static final class JobOfOne extends Job implements Runnable, Callable, Supplier, Function, Consumer {
        JobOfOne(Object work, Object by, int site) { super(work, by, site); }

        @Override public void run() {
            boolean had = begin();
            try {
                ((Runnable) work).run();
            } finally {
                end(had);
            }
        }

        @Override public Object call() throws Exception {
            boolean had = begin();
            try {
                return ((Callable) work).call();
            } finally {
                end(had);
            }
        }

        @Override public Object get() {
            boolean had = begin();
            try {
                return ((Supplier) work).get();
            } finally {
                end(had);
            }
        }

        @Override public Object apply(Object x) {
            boolean had = begin();
            try {
                return of(((Function) work).apply(x));
            } finally {
                end(had);
            }
        }

        @Override public void accept(Object x) {
            boolean had = begin();
            try {
                ((Consumer) work).accept(x);
            } finally {
                end(had);
            }
        }
    }

    @SuppressWarnings({"unchecked", "rawtypes"})
    static final class JobOfTwo extends Job implements BiFunction, BiConsumer {
        JobOfTwo(Object work, Object by, int site) { super(work, by, site); }

        @Override public Object apply(Object x, Object y) {
            boolean had = begin();
            try {
                return of(((BiFunction) work).apply(x, y));
            } finally {
                end(had);
            }
        }

        @Override public void accept(Object x, Object y) {
            boolean had = begin();
            try {
                ((BiConsumer) work).accept(x, y);
            } finally {
                end(had);
            }
        }
    }
}
