package planecarmine;

import java.util.ArrayList;
import java.util.IdentityHashMap;
import java.util.function.BooleanSupplier;
import java.util.function.Predicate;

/** One thread of the program runs at a time: the one that has the turn. A thread passes the turn on at a hook now and
 * then, and when it waits for another thread. The seed draws who goes on. */
final class Turns {
    private Turns() { }

    /** A thread of the program. */
    static final class T {
        final int number;
        final Thread thread;
        /** The program did not start it: it runs unrecorded. */
        final boolean isUnknown;
        /** What it runs is of the library, as that of a thread of a pool. */
        boolean isOfLibrary;
        boolean go, ended, inLine;
        /** It waits for the end of a thread that has had its last turn. */
        volatile boolean waitsShort;
        /** It was interrupted while it waited for its turn. */
        volatile boolean interrupted;
        boolean isInterruptedAgain;
        /** How many makings of classes it is in: the turn may not pass there. */
        int quiet;
        Object parkedAt;
        /** What it waits for before a call of the library, from which the library does not know that it waits. */
        Object queuedAt;
        /** If this holds, a parked thread may go on. */
        BooleanSupplier ready;
        /** The monitor that it needs before it goes on: it comes back from a wait. */
        Things.Thing needs;
        /** The lock that it waits for, whether as a reader, and the line of that or of its `wait`. */
        Things.Thing wanted;
        boolean wantsRead;
        int wantedAt;
        long left = 1;
        int longer = 1;
        boolean news;
        /** Its last two reads. */
        int readSite, readThing, readSite2, readThing2;
        /** The node of the calls that it is in, the last one in the records, and the line of its last call. */
        int node, writtenNode, site;
        Calls.Cache calls = new Calls.Cache();
        boolean[] uses = new boolean[64];
        /** What it met last, and before that. */
        Things.Thing firstThing, secondThing;
        /** Its clock: how many records it has made. A followed run lets it pass the record with this clock early. */
        long ticks, mayPass;
        /** The place of its last record. */
        int lastSite;
        /** It is at its end; it is in a `wait`, and in one with a time; the last one ended since its time was over. */
        boolean atEnd, waits, isTimed, wasLate;
        /** It is in a call of the library that waits for a day or longer. */
        volatile boolean waitsLong;

        T(int number, Thread thread, boolean isUnknown) {
            this.number = number;
            this.thread = thread;
            this.isUnknown = isUnknown;
        }
    }

    /** A turn that came to no line that is new for its thread makes the next one twice as long, up to LONGEST times. */
    private static final int LONGEST = 16;
    private static final boolean[] seen = new boolean[1 << 16];
    static final Object LOCK = new Object();
    static volatile T holder;
    static volatile boolean on;
    static long turns, forced, progress;
    static long chance;
    static int oneIn = 40;
    static final ArrayList<T> waiting = new ArrayList<>(), parked = new ArrayList<>();
    static final IdentityHashMap<Thread, T> threads = new IdentityHashMap<>();
    private static final ThreadLocal<T> mine = new ThreadLocal<>();
    private static int known;

    static int draw(int below) {
        chance ^= chance >>> 12;
        chance ^= chance << 25;
        chance ^= chance >>> 27;
        return (int) (((chance * 2685821657736338717L) >>> 33) % below);
    }

    /** A thread that the program starts. In a followed run it may have a number of the plan. */
    static T register(Thread thread, int numberInPlan) {
        synchronized (LOCK) {
            T t = threads.get(thread);
            if (t != null) return t;
            known = Math.max(known, Follow.threads());
            threads.put(thread, t = new T(numberInPlan >= 0 ? numberInPlan : known++, thread, false));
            Follow.isThere(t);
            return t;
        }
    }

    static T known(Thread thread) {
        synchronized (LOCK) {
            return threads.get(thread);
        }
    }

    /** This thread. */
    static T me() {
        T h = holder;
        Thread now = Thread.currentThread();
        if (h != null && h.thread == now) return h;
        T t = mine.get();
        if (t == null) mine.set(t = found(now));
        return t;
    }

    private static T found(Thread now) {
        synchronized (LOCK) {
            T t = threads.get(now);
            return t != null ? t : new T(-1, now, true);
        }
    }

    /** This thread, with the turn; null if nothing is recorded. */
    static T keep() {
        if (!on) return null;
        T t = me();
        if (holder != t) {
            if (t.isUnknown) {
                Agent.isUnknown(t.thread);
                return null;
            }
            take(t);
        }
        if (Follow.on) Follow.arrive(t);
        return on ? t : null;
    }

    /** As `keep`, and another thread may come first. */
    static T comes(int site) {
        T t = keep();
        if (t == null) return null;
        progress++;
        int k = (site ^ t.number << 20) * 0x9e3779b9 >>> 16;
        if (!seen[k]) seen[k] = t.news = true;
        if (--t.left <= 0 && t.quiet == 0 && !Follow.on) passOn(t);
        return t;
    }

    /** A thread reads. If it read the same in the same line before and wrote nothing, it waits for another thread. */
    static void reads(T t, int thing, int site) {
        boolean again = t.readSite == site && t.readThing == thing || t.readSite2 == site && t.readThing2 == thing;
        t.readSite2 = t.readSite;
        t.readThing2 = t.readThing;
        t.readSite = site;
        t.readThing = thing;
        if (again && t.left > 2L * oneIn) t.left = 1 + draw(2 * oneIn - 1);
    }

    private static void passOn(T t) {
        t.longer = t.news ? 1 : Math.min(2 * t.longer, LONGEST);
        t.news = false;
        t.left = t.longer * (1L + draw(2 * oneIn - 1));
        if (!waiting.isEmpty()) giveAndTake(t);
        while (holder != t && on) take(t);
    }

    private static void handTo(T t) {
        holder = t;
        Store.noteTurns(++turns, forced);
        progress++;
        synchronized (t) {
            t.go = true;
            t.notify();
        }
    }

    static boolean canGo(T t) {
        return t.needs == null || t.needs.owner == null;
    }

    /** A thread in line that can go on, by chance or by the plan; null if no thread can. */
    private static T choose() {
        T t = Follow.on ? Follow.choose(waiting) : drawn();
        if (t == null) return null;
        waiting.remove(t);
        t.inLine = false;
        return t;
    }

    private static T drawn() {
        int can = 0;
        for (T t : waiting) if (canGo(t) && !Follow.holdsBack(t)) can++;
        Follow.lookAtHeldBack(can);
        can = 0;
        for (T t : waiting) if (canGo(t) && !Follow.holdsBack(t)) can++;
        if (can == 0) return null;
        int k = draw(can);
        for (T t : waiting) if (canGo(t) && !Follow.holdsBack(t) && k-- == 0) return t;
        return null;
    }

    private static void handOn() {
        T t = choose();
        if (t == null) holder = null;
        else handTo(t);
    }

    private static void line(T t) {
        if (t.inLine) return;
        t.inLine = true;
        waiting.add(t);
    }

    /** A thread that was started is in line before it comes, so a seed is a run. */
    static void comesLater(T t) {
        synchronized (LOCK) {
            t.go = false;
            line(t);
        }
    }

    static void take(T t) {
        synchronized (LOCK) {
            if (holder == t) return;
            if (holder == null && !t.inLine && !Follow.on) {
                t.go = true;
                holder = t;
            } else {
                if (!t.inLine) t.go = false;
                line(t);
                if (holder == null) handOn();
            }
        }
        await(t);
    }

    static void await(T t) {
        boolean interrupted = false;
        synchronized (t) {
            while (!t.go && on) {
                try {
                    t.wait(100);
                } catch (InterruptedException e) {
                    interrupted = true;
                    t.interrupted = true;
                }
            }
        }
        if (interrupted) Turns.interruptAgain();
    }

    /** Sets the flag of an interrupt again that a hook took from this thread. It is no interrupt of the program. */
    static void interruptAgain() {
        T t = known(Thread.currentThread());
        if (t != null) t.isInterruptedAgain = true;
        Thread.currentThread().interrupt();
        if (t != null) t.isInterruptedAgain = false;
    }

    static void give(T t) {
        synchronized (LOCK) {
            if (holder != t) return;
            Follow.lookForEnd(t);
            t.go = false;
            handOn();
        }
    }

    /** A thread of a followed run waits for its turn in the plan. */
    static void waitInLine(T t) {
        synchronized (LOCK) {
            t.go = false;
            line(t);
            if (holder == t || holder == null) handOn();
        }
        await(t);
    }

    /** In a followed run: a thread wakes from a `wait` by the plan. */
    static void wake(T t) {
        parked.remove(t);
        t.parkedAt = null;
        line(t);
    }

    /** In a followed run: nobody has the turn for a while, so others than the next thread may go on. */
    static void lookForOthers() {
        synchronized (LOCK) {
            if (holder == null && Follow.on) Follow.openFor(Turns::handOn);
        }
    }

    static void giveAndTake(T t) {
        synchronized (LOCK) {
            if (holder != t || waiting.isEmpty() || Follow.on) return;
            T next = choose();
            if (next == null) return;
            t.go = false;
            line(t);
            handTo(next);
        }
        await(t);
    }

    /** Waits until `unpark` of the same; the caller looks again. */
    static void park(T t, Object at) {
        parkWithout(t, at);
        await(t);
    }

    /** Waits until something holds that calls of other threads change. */
    static void parkUntil(T t, Object at, BooleanSupplier ready) {
        t.interrupted = Thread.currentThread().isInterrupted();
        t.queuedAt = at;
        while (on && !ready.getAsBoolean()) {
            t.ready = ready;
            park(t, at);
            t.ready = null;
        }
        t.queuedAt = null;
    }

    /** The threads of the program for which this holds. */
    static ArrayList<Thread> those(Predicate<T> holds) {
        ArrayList<Thread> found = new ArrayList<>();
        synchronized (LOCK) {
            for (T t : threads.values()) if (holds.test(t)) found.add(t.thread);
        }
        return found;
    }

    static void parkWithout(T t, Object at) {
        synchronized (LOCK) {
            t.go = false;
            t.parkedAt = at;
            parked.add(t);
            if (holder != t) return;
            Follow.lookForEnd(t);
            handOn();
        }
    }

    static void unpark(Object at) {
        synchronized (LOCK) {
            if (parked.isEmpty()) return;
            for (int k = 0; k < parked.size();) {
                T t = parked.get(k);
                if (t.parkedAt != at) {
                    k++;
                    continue;
                }
                parked.remove(k);
                t.parkedAt = null;
                line(t);
            }
            if (holder == null) handOn();
        }
    }

    /** Takes one thread out of the parked, into the line; whether it was parked. */
    static boolean unparkOne(T t) {
        synchronized (LOCK) {
            if (!parked.remove(t)) return false;
            t.parkedAt = null;
            line(t);
            if (holder == null) handOn();
            return true;
        }
    }

    /** Threads that wait for something which came without a hook go on. */
    static void lookAtParked() {
        synchronized (LOCK) {
            for (int k = parked.size() - 1; k >= 0; k--) {
                T t = parked.get(k);
                BooleanSupplier ready = t.ready;
                if (ready != null && ready.getAsBoolean()) unparkOne(t);
            }
        }
    }

    /** Takes the turn from a thread that made no progress since it was seen. */
    static void force(T from, long seen) {
        synchronized (LOCK) {
            if (holder == from && progress == seen && !waiting.isEmpty()) {
                Follow.lookForEnd(from);
                from.go = false;
                forced++;
                Follow.openFor(Turns::handOn);
            }
        }
    }

    /** Nothing more is recorded: all threads go on freely. */
    static void stop() {
        on = false;
        synchronized (LOCK) {
            for (T t : threads.values())
                synchronized (t) {
                    t.go = true;
                    t.notifyAll();
                }
        }
    }

    /** A thread has ended: what it remembered goes. */
    static void forget(T t) {
        t.firstThing = t.secondThing = null;
        t.calls = new Calls.Cache(1);
        t.uses = new boolean[1];
    }
}
