package planecarmine;

import java.util.concurrent.TimeUnit;
import java.util.concurrent.locks.Condition;
import java.util.concurrent.locks.LockSupport;

/** The hooks: what the program calls. A hook has the turn, so the order of the records is that of what happened. */
public final class Rec {
    private Rec() { }

    // ---- calls

    /** A method begins; the node of its caller. */
    public static int call(int method) {
        if (!Turns.on) return -1;
        Turns.T t = Turns.me();
        if (t.isUnknown) return -1;
        int old = t.node;
        t.node = t.calls.child(old, t.site, method);
        if (old == 0 && t.isOfLibrary && Turns.keep() != null) Work.comesIn(t, t.site);
        return old;
    }

    public static void leave(int old) {
        if (old < 0 || !Turns.on) return;
        Turns.T t = Turns.me();
        if (old == 0 && t.isOfLibrary && Turns.keep() != null) Work.goesOut(t, t.site);
        t.node = old;
    }

    /** The line of the next call. */
    public static void at(int site) {
        if (Turns.on) Turns.me().site = site;
    }

    // ---- fields, statics, elements

    public static void read(Object o, int field, int site) { access(Kinds.READ, o, field, site); }
    public static void write(Object o, int field, int site) { access(Kinds.WRITE, o, field, site); }
    public static void readVolatile(Object o, int field, int site) { access(Kinds.ATOMIC_READ, o, field, site); }
    public static void writeVolatile(Object o, int field, int site) { access(Kinds.ATOMIC_WRITE, o, field, site); }

    private static void access(int kind, Object o, int field, int site) {
        Turns.T t = Turns.comes(site);
        if (t == null || o == null) return;
        int thing = Things.of(t, o).number;
        if (kind == Kinds.READ || kind == Kinds.ATOMIC_READ) Turns.reads(t, thing, site);
        else t.readSite = t.readSite2 = 0;
        Store.put(t, kind, thing, field, site);
    }

    /* The class is made by now: the method looks at the static before it calls the hook. */
    public static void readStatic(int field, int making, int site) { ofClass(Kinds.READ, field, making, site); }
    public static void writeStatic(int field, int making, int site) { ofClass(Kinds.WRITE, field, making, site); }

    public static void readStaticVolatile(int field, int making, int site) {
        ofClass(Kinds.ATOMIC_READ, field, making, site);
    }

    public static void writeStaticVolatile(int field, int making, int site) {
        ofClass(Kinds.ATOMIC_WRITE, field, making, site);
    }

    private static void ofClass(int kind, int field, int making, int site) {
        Turns.T t = Turns.comes(site);
        if (t == null) return;
        if (making != 0) uses(t, making, site);
        if (kind == Kinds.READ || kind == Kinds.ATOMIC_READ) Turns.reads(t, -field, site);
        else t.readSite = t.readSite2 = 0;
        Store.put(t, kind, 0, field, site);
    }

    public static void readElement(Object a, int i, int site) { element(Kinds.READ, a, i, site); }
    public static void writeElement(Object a, int i, int site) { element(Kinds.WRITE, a, i, site); }

    private static void element(int kind, Object a, int i, int site) {
        Turns.T t = Turns.comes(site);
        if (t != null && a != null && i >= 0 && i < java.lang.reflect.Array.getLength(a))
            Store.put(t, kind, Things.of(t, a).number, i, site);
    }

    /** The program made an object. */
    public static void allocated(Object o, int site) {
        Turns.T t = Turns.keep();
        if (t != null && o != null) Things.allocated(t, o, site);
    }

    /** The program made an array of arrays. */
    public static void allocatedAll(Object o, int site) {
        Turns.T t = Turns.keep();
        if (t == null || o == null) return;
        Things.allocated(t, o, site);
        if (o instanceof Object[] && o.getClass().getComponentType().isArray())
            for (Object part : (Object[]) o) allocatedAll(part, site);
    }

    // ---- classes: each use by another thread comes after the making

    private static boolean[] made = new boolean[1 << 12];

    public static void making() {
        Turns.T t = Turns.keep();
        if (t != null) t.quiet++;
    }

    public static void made(int making, int site) {
        Turns.T t = Turns.keep();
        if (t == null) return;
        if (t.quiet > 0) t.quiet--;
        if (making >= made.length) made = java.util.Arrays.copyOf(made, 2 * making);
        made[making] = true;
        noteUse(t, making);
        Work.pass(t, making, site);
    }

    public static void uses(int making, int site) {
        Turns.T t = Turns.keep();
        if (t != null) uses(t, making, site);
    }

    private static void noteUse(Turns.T t, int making) {
        if (making >= t.uses.length) t.uses = java.util.Arrays.copyOf(t.uses, 2 * making);
        t.uses[making] = true;
    }

    private static void uses(Turns.T t, int making, int site) {
        if (making < t.uses.length && t.uses[making] || making >= made.length || !made[making]) return;
        noteUse(t, making);
        Work.take(t, making, site);
    }

    // ---- monitors

    public static void enter(Object o, int site) {
        Turns.T t = Turns.comes(site);
        if (t != null && o != null) Locking.acquire(t, Things.of(t, o), Kinds.ACQUIRE, site);
    }

    public static void exit(Object o, int site) {
        Turns.T t = Turns.keep();
        if (t != null && o != null) Locking.release(t, Things.of(t, o), Kinds.RELEASE, site);
    }

    public static void waitFor(Object o, int site) throws InterruptedException { Locking.waitOn(o, 0, site); }
    public static void waitFor(Object o, long ms, int site) throws InterruptedException { Locking.waitOn(o, ms, site); }

    public static void waitFor(Object o, long ms, int ns, int site) throws InterruptedException {
        Locking.waitOn(o, ns > 0 ? ms + 1 : ms, site);
    }

    public static void notify(Object o, int site) { Locking.wake(o, false); }
    public static void notifyAll(Object o, int site) { Locking.wake(o, true); }

    // ---- conditions

    /** A wait that is not the recorder's own: the turn is given away while it lasts. */
    private interface Wait {
        long done() throws InterruptedException;
    }

    private static long without(Wait wait) throws InterruptedException {
        Turns.T t = Turns.keep();
        if (t != null) Turns.give(t);
        try {
            return wait.done();
        } finally {
            if (t != null && Turns.on) Turns.take(t);
        }
    }

    public static void await(Condition c, int site) throws InterruptedException {
        if (Locking.awaits(c, 0, true, site)) return;
        without(() -> {
            c.await();
            return 0;
        });
    }

    public static void awaitUninterruptibly(Condition c, int site) {
        try {
            if (Locking.awaits(c, 0, false, site)) return;
            without(() -> {
                c.awaitUninterruptibly();
                return 0;
            });
        } catch (InterruptedException e) {
            Turns.interruptAgain();
        }
    }

    public static long awaitNanos(Condition c, long nanos, int site) throws InterruptedException {
        long from = System.nanoTime();
        if (Locking.awaits(c, Math.max(nanos, 1), true, site)) {
            long left = nanos - (System.nanoTime() - from);
            return Turns.me().wasLate ? Math.min(left, 0) : Math.max(left, 1);
        }
        return without(() -> c.awaitNanos(nanos));
    }

    public static boolean await(Condition c, long time, TimeUnit unit, int site) throws InterruptedException {
        return awaitNanos(c, unit.toNanos(time), site) > 0;
    }

    public static boolean awaitUntil(Condition c, java.util.Date until, int site) throws InterruptedException {
        return awaitNanos(c, (until.getTime() - System.currentTimeMillis()) * 1000000, site) > 0;
    }

    public static void signal(Condition c, int site) {
        if (!Locking.signals(c, false)) c.signal();
    }

    public static void signalAll(Condition c, int site) {
        if (!Locking.signals(c, true)) c.signalAll();
    }

    // ---- threads: `starts`, `exits` and `interrupts` are called by java.lang.Thread itself

    public static void starts(Thread child) {
        if (!Turns.on || child.getClass().getName().startsWith("planecarmine.")) return;
        Turns.T known = Turns.known(Thread.currentThread());
        if (known == null || Turns.known(child) != null || child.getState() != Thread.State.NEW) return;
        Turns.T t = Turns.keep();
        if (t == null) return;
        Turns.T c = Turns.register(child, Follow.childOf(t));
        c.isOfLibrary = !Agent.runsProgram(child);
        Agent.started();
        Store.put(t, Kinds.FORK, c.number, 0, t.site);
        if (!c.isOfLibrary) Turns.comesLater(c);
    }

    public static void exits(Thread thread) {
        if (!Turns.on) return;
        Turns.T t = Turns.known(thread);
        if (t == null) return;
        Turns.take(t);
        if (Follow.on) Follow.arriveAtEnd(t);
        t.ended = true;
        if (Turns.on) {
            Things.Thing own = Things.of(t, thread);
            Locking.wake(own, true);
        }
        Turns.unpark(t);
        Turns.forget(t);
        Turns.give(t);
    }

    public static void interrupts(Thread thread) {
        Turns.T by = Turns.on ? Turns.known(Thread.currentThread()) : null;
        if (by == null || by.isInterruptedAgain) return;
        Turns.T to = Turns.known(thread);
        Turns.T t = to == null ? null : Turns.keep();
        if (t == null) return;
        Work.passInterrupt(t, to, t.site);
        to.interrupted = true;
    }

    public static boolean isInterrupted(Thread u, int site) {
        Turns.T t = Turns.comes(site), of = t == null ? null : Turns.known(u);
        boolean is = u.isInterrupted();
        if (is && of != null) Work.take(t, Classes.field("interrupt", "T" + of.number), site);
        return is;
    }

    public static boolean interrupted(int site) {
        Turns.T t = Turns.comes(site);
        boolean is = Thread.interrupted();
        if (is && t != null) Work.takeInterrupt(t, site);
        return is;
    }

    public static void join(Thread u, int site) throws InterruptedException { join(u, 0L, site); }
    public static void join(Thread u, long ms, int ns, int site) throws InterruptedException {
        join(u, ns > 0 ? ms + 1 : ms, site);
    }

    public static void join(Thread u, long ms, int site) throws InterruptedException {
        Turns.T t = Turns.comes(site), x = t == null ? null : Turns.known(u);
        if (x == null || ms < 0) {
            if (t != null) Turns.give(t);
            u.join(ms);
            return;
        }
        if (ms > 0) Turns.give(t);
        else Turns.parkUntil(t, x, () -> x.ended || t.interrupted);
        t.waitsShort = true;
        try {
            u.join(ms);
        } catch (InterruptedException e) {
            if (Turns.keep() != null) Work.takeInterrupt(t, site);
            throw e;
        } finally {
            t.waitsShort = false;
        }
        if (x.ended && Turns.keep() != null) Store.put(t, Kinds.JOIN, x.number, 0, site);
    }

    public static boolean isAlive(Thread u, int site) {
        Turns.T t = Turns.comes(site), x = t == null ? null : Turns.known(u);
        if (x != null && Follow.on) {
            if (!Follow.isNext(t, Kinds.JOIN)) return u.getState() != Thread.State.NEW;
            Turns.parkUntil(t, x, () -> x.ended);
        }
        if (x == null || !x.ended) return u.isAlive();
        Store.put(t, Kinds.JOIN, x.number, 0, site);
        return false;
    }

    public static Thread.State getState(Thread u, int site) {
        return isAlive(u, site) || u.getState() == Thread.State.NEW ? u.getState() : Thread.State.TERMINATED;
    }

    public static void sleep(long ms, int site) throws InterruptedException {
        Turns.T t = Turns.keep();
        if (t != null) Turns.give(t);
        try {
            Thread.sleep(ms);
        } catch (InterruptedException e) {
            if (Turns.keep() != null) Work.takeInterrupt(t, site);
            throw e;
        } finally {
            if (t != null && Turns.on) Turns.take(t);
        }
    }

    public static void sleep(long ms, int ns, int site) throws InterruptedException { sleep(ns > 0 ? ms + 1 : ms, site); }

    public static void yield(int site) {
        Turns.T t = Turns.keep();
        if (t != null) Turns.giveAndTake(t);
        Thread.yield();
    }

    public static void onSpinWait(int site) { Rec.yield(site); }

    // ---- permits of threads

    public static void unpark(Thread u, int site) {
        Turns.T t = Turns.comes(site), to = t == null || u == null ? null : Turns.known(u);
        if (to != null) Work.passPermit(t, to, site);
        LockSupport.unpark(u);
    }

    /** A thread parks; `until` is a time of the clock, or it is 0; so is `nanos`. */
    private static void parks(Object blocker, long nanos, long until, int site) {
        Turns.T t = Turns.comes(site);
        if (t != null) Turns.give(t);
        if (nanos > 0) LockSupport.parkNanos(blocker, nanos);
        else if (until > 0) LockSupport.parkUntil(blocker, until);
        else LockSupport.park(blocker);
        if (t == null || Turns.keep() == null) return;
        Work.takePermit(t, site);
        if (Thread.currentThread().isInterrupted()) Work.takeInterrupt(t, site);
    }

    public static void park(int site) { parks(null, 0, 0, site); }
    public static void park(Object blocker, int site) { parks(blocker, 0, 0, site); }
    public static void parkNanos(long nanos, int site) { if (nanos > 0) parks(null, nanos, 0, site); }
    public static void parkNanos(Object blocker, long nanos, int site) { if (nanos > 0) parks(blocker, nanos, 0, site); }
    public static void parkUntil(long until, int site) { parks(null, 0, Math.max(until, 1), site); }
    public static void parkUntil(Object blocker, long until, int site) { parks(blocker, 0, Math.max(until, 1), site); }

    // ---- arrays that the library goes over

    /** The most elements that are recorded for a call. */
    private static final int MOST_ELEMENTS = 1 << 12;

    public static void elements(Object a, int from, int to, boolean writes, int site) {
        Turns.T t = Turns.comes(site);
        if (t == null || a == null || !a.getClass().isArray()) return;
        int end = Math.min(to, java.lang.reflect.Array.getLength(a)), begin = Math.max(from, 0);
        if (end - begin > MOST_ELEMENTS) {
            Store.name(Kinds.FACT, end - begin - MOST_ELEMENTS, 0, 0, "cut");
            end = begin + MOST_ELEMENTS;
        }
        int number = Things.of(t, a).number;
        for (int k = begin; k < end; k++) Store.put(t, writes ? Kinds.WRITE : Kinds.READ, number, k, site);
    }

    public static void arraycopy(Object from, int at, Object to, int place, int count, int site) {
        if (from != null && to != null && count > 0 && at >= 0 && place >= 0) {
            elements(from, at, at + count, false, site);
            elements(to, place, place + count, true, site);
        }
        System.arraycopy(from, at, to, place, count);
    }

    // ---- work of a ForkJoinPool

    public static void begins(Object task, int site) {
        Turns.T t = Turns.keep();
        if (t != null) Work.take(t, Work.base(t, task), site);
    }

    public static void ends(Object task, int site) {
        Turns.T t = Turns.keep();
        if (t == null) return;
        Things.Thing x = Work.base(t, task);
        x.hasPassed = true;
        Work.pass(t, x, site);
    }
}
