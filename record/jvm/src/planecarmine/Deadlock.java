package planecarmine;

import java.util.ArrayList;
import java.util.HashSet;
import java.util.List;
import java.util.Set;

/** A run that hangs in a deadlock: each thread waits, and some wait in a circle, each for a lock that the next one has.
 * The recorder ends such a run, as ../../../runtime/deadlocks.c does. */
final class Deadlock {
    private Deadlock() { }

    /** Looks without progress until the threads are looked at: 200 ms. */
    private static final int STILL = 40;
    /** The status of a program that was ended: that of one that called abort(). */
    static final int STATUS = 134;
    private static long seen = -1;
    private static int still;

    /** Whether each thread waits for another one, and none for a time of less than a day, so that nothing goes on. */
    static boolean isStuck() {
        synchronized (Turns.LOCK) {
            if (Turns.holder != null || Turns.parked.isEmpty()) return false;
            for (Turns.T t : Turns.threads.values()) if (!t.ended && !waitsForever(t)) return false;
            return true;
        }
    }

    private static boolean waitsForever(Turns.T t) {
        if (t.inLine) return !Turns.canGo(t);
        if (t.parkedAt != null) return !t.isTimed || t.parkedAt == t.needs;
        Thread.State state = t.thread.getState();
        if (t.waitsLong && state == Thread.State.TIMED_WAITING) return true;
        return state == Thread.State.WAITING || state == Thread.State.BLOCKED || state == Thread.State.TERMINATED;
    }

    /** A look of the watcher. */
    static void look() {
        if (Turns.progress != seen) still = 0;
        seen = Turns.progress;
        if (++still < STILL || still % STILL != 0 || !isStuck()) return;
        List<Turns.T> circle;
        synchronized (Turns.LOCK) {
            if (!isStuck()) return;
            circle = circle();
        }
        if (circle.isEmpty()) return;
        for (int k = 0; k < circle.size(); k++) {
            Turns.T t = circle.get(k), holder = circle.get((k + 1) % circle.size());
            Store.name(Kinds.DEADLOCK, t.number, wantedBy(t).number, t.wantedAt, Integer.toString(holder.number));
        }
        Agent.end(STATUS);
    }

    /** The lock that a thread waits for; null if it waits for something else. */
    private static Things.Thing wantedBy(Turns.T t) {
        if (t.wanted != null) return t.wanted;
        return t.needs != null && (t.inLine || t.parkedAt == t.needs) ? t.needs : null;
    }

    /** The threads of a circle from its least one on, each before the one that has its lock. */
    private static List<Turns.T> circle() {
        Set<Turns.T> stuck = new HashSet<>();
        for (Turns.T t : Turns.threads.values()) if (!t.ended && wantedBy(t) != null) stuck.add(t);
        while (stuck.removeIf(t -> next(t, stuck) == null));
        List<Turns.T> circle = new ArrayList<>();
        if (stuck.isEmpty()) return circle;
        Turns.T first = least(stuck);
        for (int k = stuck.size(); k > 0; k--) first = next(first, stuck);
        Set<Turns.T> all = new HashSet<>();
        for (Turns.T t = first; all.add(t);) t = next(t, stuck);
        first = least(all);
        for (Turns.T t = first; circle.size() < all.size(); t = next(t, stuck)) circle.add(t);
        return circle;
    }

    private static Turns.T least(Set<Turns.T> threads) {
        Turns.T least = null;
        for (Turns.T t : threads) if (least == null || t.number < least.number) least = t;
        return least;
    }

    /** The first stuck thread that has what this one waits for, or null. A reader waits for no reader. */
    private static Turns.T next(Turns.T t, Set<Turns.T> stuck) {
        Things.Thing m = wantedBy(t);
        if (m.owner != null && m.owner != t) return stuck.contains(m.owner) ? m.owner : null;
        Turns.T found = null;
        if (t.wantsRead || m.readers == null) return null;
        for (Turns.T other : stuck)
            if (other != t && m.readers.containsKey(other.number) && (found == null || other.number < found.number))
                found = other;
        return found;
    }
}
