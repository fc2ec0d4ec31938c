package planecarmine;

import java.util.ArrayList;
import java.util.Collection;
import java.util.List;
import java.util.Set;
import java.util.concurrent.TimeUnit;

/** Calls of the library: each goes by a bridge, a method that the agent adds to the class of the program. It calls
 * `before`, the library, and `after`, or `threw` if the call throws. */
public final class Bridge {
    private Bridge() { }

    /** One call. The receiver of a static method is its class. A method that takes a time has ` for` after its name. */
    public static final class Call {
        final Turns.T t;
        final Object on, first;
        final Object[] arguments;
        final String method;
        final int site;
        Row row;
        Things.Thing thing;
        int meeting;
        /** The work that it gives away, and futures that it has. */
        ArrayList<Object> sources;

        Call(Turns.T t, Object on, Object[] arguments, String method, int site) {
            this.t = t;
            this.on = on;
            this.arguments = arguments;
            this.first = arguments.length > 0 ? arguments[0] : null;
            this.method = method;
            this.site = site;
        }

        boolean is(String name) { return method.equals(name); }
        boolean begins(String name) { return method.startsWith(name); }
        boolean isTimed() { return method.endsWith(" for"); }

        /** Whether it waits for a day or longer. */
        boolean isLong() {
            int n = arguments.length;
            return isTimed() && n > 1 && arguments[n - 2] instanceof Long && arguments[n - 1] instanceof TimeUnit
                    && ((TimeUnit) arguments[n - 1]).toDays((Long) arguments[n - 2]) > 0;
        }

        Things.Thing thing() {
            if (thing == null) thing = Work.base(t, on);
            return thing;
        }

        void put(int kind, int part) { Store.put(t, kind, thing().number, part, site); }
        void pass() { put(Kinds.PASS, Kinds.ORDER); }
        void take() { put(Kinds.TAKE, Kinds.ORDER); }

        void source(Object one) {
            if (sources == null) sources = new ArrayList<>();
            sources.add(one);
        }
    }

    private static final Object[] NO_ARGUMENTS = {};

    public static Call before(Object on, String method, int site) { return before(on, NO_ARGUMENTS, method, site); }

    /** Null if nothing is left to do after the call. */
    public static Call before(Object on, Object[] arguments, String method, int site) {
        Turns.T t = Turns.comes(site);
        if (t == null || on == null) return null;
        t.site = site;
        Row row = Table.of(on);
        if (row == Rows.NONE) return null;
        Call call = new Call(t, on, arguments, method, site);
        call.row = row;
        if (!row.before(call)) return null;
        t.waitsLong = call.isLong();
        return call;
    }

    public static void after(Call call, Object result, boolean isTrue) {
        if (call == null) return;
        call.t.waitsLong = false;
        if (!Turns.on || Turns.keep() == null) return;
        call.row.after(call, result, isTrue);
    }

    public static void after(Call call, Object result, int isTrue) { after(call, result, isTrue != 0); }

    public static void threw(Call call, Throwable what) {
        if (call == null) return;
        call.t.waitsLong = false;
        if (!Turns.on || Turns.keep() == null) return;
        if (what instanceof InterruptedException) Work.takeInterrupt(call.t, call.site);
        call.row.threw(call);
    }

    /** The methods that say who waits for a lock, a permit or a condition. */
    static final Set<String> ASK_WHO_WAITS = Set.of("hasQueuedThreads", "hasQueuedThread", "getQueueLength",
            "getQueuedThreads", "hasWaiters", "getWaitQueueLength", "getWaitingThreads");

    /* The library's answer, and the threads that wait in a hook. */

    public static boolean answer(boolean is, Call call) { return is || !waiting(call).isEmpty(); }
    public static int answer(int count, Call call) { return count + waiting(call).size(); }

    public static Collection<Thread> answer(Collection<Thread> threads, Call call) {
        List<Thread> all = waiting(call);
        all.addAll(threads);
        return all;
    }

    private static List<Thread> waiting(Call call) {
        if (call == null || !Turns.on || Turns.keep() == null) return new ArrayList<>();
        List<Thread> found = Locking.waitingFor(call);
        if (call.is("hasQueuedThread")) found.removeIf(thread -> thread != call.first);
        return found;
    }

    /** What the library gets instead of work that the program gives it. */
    public static Object wrap(Call call, Object work) { return wrap(call, work, false); }
    public static Object wrapOfTwo(Call call, Object work) { return wrap(call, work, true); }

    private static Object wrap(Call call, Object work, boolean two) {
        if (call == null || work == null || !call.row.givesWork()) return work;
        if (!Work.canWrap(work)) {
            Work.give(call.t, call.site);
            return work;
        }
        Work.Job job = Work.wrapped(call, work, two);
        call.source(job);
        return job;
    }
}
