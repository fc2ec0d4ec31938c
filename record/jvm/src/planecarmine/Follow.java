package planecarmine;

import java.io.IOException;
import java.nio.file.Files;
import java.nio.file.Path;
import java.util.ArrayList;
import java.util.HashMap;
import java.util.List;
import java.util.Map;

/** A followed run: threads take the turn in the order of a plan. A thread that is not next waits at its next hook. A
 * caller has the turn, or the lock of the turns. */
final class Follow {
    private Follow() { }

    /** The kinds of ../../../runtime/format.h, by those of the records. */
    private static final int[] FORMAT = new int[Kinds.JOIN + 1];
    private static final int F_READ = 1, F_WRITE = 2, F_ACQUIRE = 3, F_RELEASE = 4, F_FORK = 5, F_JOIN = 6;
    private static final int F_ATOMIC_READ = 10, F_ATOMIC_WRITE = 11, F_ATOMIC_UPDATE = 12, F_PASS = 13, F_WRITER = 14;
    private static final int F_TRIED = 17, F_READER_IN = 18, F_READER_OUT = 19;

    static {
        int[][] pairs = {{Kinds.READ, F_READ}, {Kinds.WRITE, F_WRITE}, {Kinds.ATOMIC_READ, F_ATOMIC_READ},
            {Kinds.ATOMIC_WRITE, F_ATOMIC_WRITE}, {Kinds.ATOMIC_UPDATE, F_ATOMIC_UPDATE}, {Kinds.ACQUIRE, F_ACQUIRE},
            {Kinds.RELEASE, F_RELEASE}, {Kinds.READER_IN, F_READER_IN}, {Kinds.READER_OUT, F_READER_OUT},
            {Kinds.WRITER_IN, F_WRITER}, {Kinds.WRITER_OUT, F_RELEASE}, {Kinds.TRIED, F_TRIED}, {Kinds.PASS, F_PASS},
            {Kinds.TAKE, F_PASS}, {Kinds.FORK, F_FORK}, {Kinds.JOIN, F_JOIN}};
        for (int[] pair : pairs) FORMAT[pair[0]] = pair[1];
    }

    /** The status of a run that departs. */
    private static final int GONE = 125;
    /** The most choices without a record that pass over the thread that is held back. */
    private static final int MOST_IDLE = 400;
    /** The most looks at which all threads wait for ever, before the run is ended: two seconds. */
    private static final int MOST_STUCK = 400;

    static volatile boolean on;
    private static Plan plan;
    private static Turns.T[] numbered;
    private static final Standing[] standing = new Standing[2];
    private static final List<Request> requests = new ArrayList<>();
    private static int atStep, stood, heldBack = -1, idle, stuck;
    private static long lastRecords, changed, seenRecords;
    /** The next thread while nothing is recorded, since when, and the processor time that it had before. */
    private static Turns.T worker;
    private static long workerChanged, workerTime;
    /** Whether others may run on, since the thread of the next step waits. */
    private static boolean open;
    private static Map<String, String> classes = Map.of();

    static int format(int kind) { return FORMAT[kind]; }

    static void begin(Options given) throws IOException {
        if (given.follow == null) return;
        plan = new Plan(given.follow);
        numbered = new Turns.T[plan.threads];
        if (given.classes != null) {
            classes = new HashMap<>();
            for (String line : Files.readAllLines(Path.of(given.classes))) {
                int at = line.lastIndexOf(' ');
                classes.put(line.substring(0, at), line.substring(at + 1));
            }
        }
        changed = System.nanoTime();
        on = plan.steps > 0;
    }

    /** How many threads the recording has. */
    static int threads() { return plan == null ? 0 : plan.threads; }

    /** Whether a class is the one of the recording, or has no other there. */
    static boolean isRecorded(String name, String digest) {
        String recorded = classes.get(name);
        return recorded == null || recorded.equals(digest);
    }

    /** The number of a thread that `parent` starts by its next record, or -1 if the recording has none. */
    static int childOf(Turns.T parent) { return on ? plan.child(parent.number, parent.ticks + 1) : -1; }

    static void isThere(Turns.T t) {
        if (plan != null && t.number < plan.threads) numbered[t.number] = t;
    }

    // ---- the next step

    private static Turns.T due() { return on && atStep < plan.steps ? numbered[plan.thread(atStep)] : null; }

    private static boolean isLast() { return plan.type(atStep) == Plan.LAST; }

    private static void done(int step) {
        if (step != atStep) plan.count(Plan.EARLY);
        plan.setDone(step);
        while (atStep < plan.steps && plan.isDone(atStep)) atStep++;
        plan.set(Plan.AT_STEP, atStep);
    }

    /** The thread with the last access comes to a hook, or gives its turn away: the plan is at its end. */
    static void lookForEnd(Turns.T t) {
        if (due() != t || !isLast()) return;
        done(atStep);
        end(t);
    }

    private static void end(Turns.T t) {
        on = false;
        for (int side = 0; side < 2; side++) if (standing[side] != null) standing[side].tell(side, true);
        plan.set(Plan.STATE, Plan.DONE);
        if (plan.alone > 0) t.left = plan.alone + 1L;
        if (plan.heldBack > 0 && standing[plan.heldBack - 1] != null) heldBack = standing[plan.heldBack - 1].thread;
    }

    // ---- a thread at a hook

    /** A thread with the turn has come to a hook: it waits until the plan lets it go on. */
    static void arrive(Turns.T t) {
        while (on && Turns.on) {
            lookForEnd(t);
            if (!on || due() == t || t.mayPass == t.ticks + 1) return;
            Turns.waitInLine(t);
        }
    }

    /** The same for a thread that ends. */
    static void arriveAtEnd(Turns.T t) {
        t.atEnd = true;
        while (on && Turns.on) {
            lookForEnd(t);
            if (!on || t.mayPass == t.ticks + 1) return;
            if (due() == t) depart(Plan.THREAD_ENDED, t, 0, 0);
            Turns.waitInLine(t);
        }
    }

    /** Before a record. */
    static void before(Turns.T t, int kind, int thing, int part, int site) {
        while (on && Turns.on) {
            arrive(t);
            if (!on || due() != t) return;
            if (t.ticks + 1 > plan.tick(atStep)) depart(Plan.MISSED, t, FORMAT[kind], site);
            if (isAt(t, Plan.WAIT)) didNotWait(t, FORMAT[kind], site);
            if (!isAt(t, Plan.STAND)) return;
            stand(t, FORMAT[kind], thing, part, site);
        }
    }

    /** Whether the next step is of this type, and this thread has come to it. */
    private static boolean isAt(Turns.T t, int type) {
        return on && due() == t && plan.type(atStep) == type && t.ticks + 1 == plan.tick(atStep);
    }

    /** Before an atomic operation of the library, which says afterwards what it was. */
    static void beforeAtomic(Turns.T t, int thing, int part, int site) {
        arrive(t);
        if (!isAt(t, Plan.STAND)) return;
        stand(t, (int) plan.expected(t.number, t.ticks + 1) & 127, thing, part, site);
        arrive(t);
    }

    /** After a record. */
    static void passed(Turns.T t, int kind, int site) {
        if (!on || t.number >= plan.threads) return;
        plan.count(Plan.PASSED);
        plan.set(Plan.LAST_PC, Classes.place(site));
        long expected = plan.expected(t.number, t.ticks);
        if (!fits(expected, FORMAT[kind], site)) departWithRecord(t, FORMAT[kind], site);
        int step = plan.next(t.number);
        if (step >= plan.steps || plan.type(step) != Plan.STEP || plan.tick(step) != t.ticks) return;
        if (step != atStep && !plan.hasNeeds(step)) depart(Plan.WOULD_WAIT, t, FORMAT[kind], site);
        done(step);
        if (atStep == plan.steps) end(t);
    }

    private static boolean fits(long expected, int kind, int site) {
        return expected == 0 || (expected & 127) == kind && expected >>> 16 == Classes.place(site);
    }

    /** Whether the next record of a thread is of this kind in the recording; false if it is not known. */
    static boolean isNext(Turns.T t, int kind) { return (plan.expected(t.number, t.ticks + 1) & 127) == FORMAT[kind]; }

    /** Whether the recording has an interrupt that ends this thread's wait there: its next record takes that. */
    static boolean endsByInterrupt(Turns.T t, int site) {
        long next = on ? plan.expected(t.number, t.ticks + 1) : 0;
        return next != 0 && fits(next, F_PASS, site);
    }

    /** Whether the recording has a wait of this thread that ended since its time was over. */
    static boolean isLate(Turns.T t) { return plan.answer(t.number, t.ticks + 1) != 0; }

    // ---- both threads before their accesses

    private static void stand(Turns.T t, int kind, int thing, int part, int site) {
        lookWhatComes(t, kind, site);
        int side = stood++;
        standing[side] = new Standing(t, thing, part);
        Standing.tellCalls(side, t.thread);
        long what = (long) thing << 32 | part & 0xffffffffL;
        plan.setStanding(side, t.number, t.ticks + 1 << 16, what, 1, kind, Classes.place(site));
        done(atStep);
        if (stood < 2) return;
        for (int k = 0; k < 2; k++) standing[k].tell(k, false);
        plan.set(Plan.STATE, Plan.STANDS);
        if (atStep == plan.steps) Runtime.getRuntime().halt(0);
    }

    /** Departs if the thread comes to another record than that of the recording. */
    private static void lookWhatComes(Turns.T t, int kind, int site) {
        t.ticks++;
        if (!fits(plan.expected(t.number, t.ticks), kind, site)) departWithRecord(t, kind, site);
        t.ticks--;
    }

    // ---- all threads of a deadlock before their locks

    /** A thread waits for a lock that another one has. If the plan has this request as its next step, that is done. */
    static void waits(Turns.T t, Things.Thing lock, boolean asReader, int site) {
        if (!isAt(t, Plan.WAIT)) return;
        boolean asWriter = (plan.expected(t.number, t.ticks + 1) & 127) == F_WRITER;
        int kind = asReader ? F_READER_IN : asWriter ? F_WRITER : F_ACQUIRE, number = requests.size();
        lookWhatComes(t, kind, site);
        Standing.tellCalls(number, t.thread);
        plan.setRequest(number, t.number, t.ticks + 1 << 16, (long) lock.number << 32, 1, kind, Classes.place(site));
        requests.add(new Request(t, lock, asReader, site));
        if (requests.size() == plan.requests) allWait();
        else done(atStep);
    }

    /** The last thread waits. If none of the others has a lock, its waiter may go on: that is no deadlock. */
    private static void allWait() {
        for (int k = 0; k < requests.size(); k++) {
            Request one = requests.get(k);
            int holder = one.holder(requests);
            if (holder < 0) depart(Plan.NOT_HELD, one.thread, F_ACQUIRE, one.site);
            plan.setHolder(k, holder);
        }
        done(atStep);
        plan.set(Plan.STATE, Plan.STANDS);
        if (!plan.hangs) Runtime.getRuntime().halt(0);
        on = false;
    }

    /** A thread comes to a record where the plan wants it to wait for a lock: it has the lock, or does something else. */
    private static void didNotWait(Turns.T t, int kind, int site) {
        long expected = plan.expected(t.number, t.ticks + 1);
        plan.set(Plan.EXPECTED, expected);
        depart(fits(expected, kind, site) ? Plan.NO_WAIT : Plan.OTHER_CODE, t, kind, site);
    }

    // ---- who goes on

    /** The thread of the next step if it is in line, or else one that may run on while that waits. Null if none can. */
    static Turns.T choose(List<Turns.T> waiting) {
        Turns.T next = due();
        if (next == null) return null;
        if (!next.inLine && next.waits && wakes(next)) Turns.wake(next);
        if (next.inLine && Turns.canGo(next)) return next;
        if (next.inLine && isAt(next, Plan.WAIT)) {
            // It comes back from a `wait`, and another thread of the deadlock has the lock.
            waits(next, next.needs, false, next.wantedAt);
            return choose(waiting);
        }
        if (next.inLine) return null;
        if (!open && next.parkedAt == null) return null;
        for (Turns.T t : waiting)
            if (mayRunOn(t) && Turns.canGo(t)) {
                t.mayPass = t.ticks + 1;
                return t;
            }
        return null;
    }

    /** Whether a thread in a `wait` wakes now, without a notify: the schedule wants it, and no time has to pass. */
    private static boolean wakes(Turns.T t) {
        if (plan.tick(atStep) != t.ticks + 1 || isLate(t)) return false;
        plan.count(Plan.SPURIOUS);
        return true;
    }

    /** Whether a thread may go on before its turn: it ends, or its next record is no event, or all that this needs is
     * done. One that is right before its access of the race waits for the other. */
    private static boolean mayRunOn(Turns.T t) {
        if (t.number >= plan.threads || stands(t)) return false;
        if (t.atEnd) return true;
        if (t.ticks >= plan.records(t.number)) return false;
        if (!Plan.isEvent(plan.expected(t.number, t.ticks + 1))) return true;
        int step = plan.next(t.number);
        if (step >= plan.steps || plan.type(step) != Plan.STEP || plan.tick(step) != t.ticks + 1) return false;
        return plan.hasNeeds(step);
    }

    private static boolean stands(Turns.T t) {
        for (Standing one : standing) if (one != null && one.thread == t.number) return true;
        return false;
    }

    /** Which of the threads in a `wait` a notify is for: the first one that the schedule wants. */
    static int firstOf(List<Turns.T> waiters) {
        int found = 0;
        for (int k = 1; k < waiters.size(); k++)
            if (nextOf(waiters.get(k)) < nextOf(waiters.get(found))) found = k;
        return found;
    }

    private static int nextOf(Turns.T t) { return t.number < plan.threads ? plan.next(t.number) : Integer.MAX_VALUE; }

    /** Lets one choice be open to others than the thread of the next step. */
    static void openFor(Runnable choice) {
        open = true;
        choice.run();
        open = false;
    }

    /** Whether a thread is held back after the race. */
    static boolean holdsBack(Turns.T t) { return t.number == heldBack; }

    /** After the race: the thread that was held back comes again if no other can go on, or if they do nothing. */
    static void lookAtHeldBack(int others) {
        if (heldBack < 0) return;
        idle = Store.written() == lastRecords ? idle + 1 : 0;
        lastRecords = Store.written();
        if (others == 0 || idle > MOST_IDLE) heldBack = -1;
    }

    // ---- the end of a run that is not that of the plan

    /** A look of the watcher: whether nothing was recorded for too long, or, after the race, whether all threads wait
     * for ever. */
    static void look() {
        if (plan == null) Deadlock.look();
        else if (!on) lookForDeadlock();
        if (!on) return;
        if (plan.count() != seenRecords) {
            seenRecords = plan.count();
            changed = System.nanoTime();
        }
        if (System.nanoTime() - changed < plan.patience * 1_000_000) return;
        synchronized (Turns.LOCK) {
            Turns.T next = due();
            if (!on || isAtWork(next)) return;
            plan.set(Plan.THREAD, plan.thread(atStep));
            boolean waits = next != null && next.parkedAt != null;
            finish(waits ? Plan.WOULD_WAIT : Plan.HANGS, next == null ? 0 : Classes.place(next.lastSite));
        }
    }

    /** Whether the next thread can run, and had less processor time than the patience: on a busy machine the program may
     * take long to begin. */
    private static boolean isAtWork(Turns.T next) {
        if (next == null || next.parkedAt != null || Watcher.waits(next.thread)) return false;
        long time = Watcher.timeOf(next.thread);
        if (worker != next || workerChanged != changed) {
            worker = next;
            workerChanged = changed;
            workerTime = time;
        }
        return time - workerTime < plan.patience * 1_000_000;
    }

    private static void lookForDeadlock() {
        stuck = Deadlock.isStuck() ? stuck + 1 : 0;
        if (stuck < MOST_STUCK) return;
        Store.name(Kinds.FACT, 0, 0, 0, "deadlock");
        Runtime.getRuntime().halt(GONE);
    }

    /** The thread's last record is another one than that of the recording. */
    private static void departWithRecord(Turns.T t, int kind, int site) {
        long expected = plan.expected(t.number, t.ticks);
        int was = (int) expected & 127;
        boolean isSwap = kind + was == F_ATOMIC_READ + F_ATOMIC_UPDATE && kind != was;
        t.ticks--;
        plan.set(Plan.EXPECTED, expected);
        depart(isSwap ? Plan.OTHER_OUTCOME : Plan.OTHER_CODE, t, kind, site);
    }

    private static void depart(int why, Turns.T t, int kind, int site) {
        plan.set(Plan.THREAD, t.number);
        plan.set(Plan.POS, t.ticks + 1 << 16);
        plan.set(Plan.KIND, kind);
        if (site > 0) Store.name(Kinds.PLACE, 0, 0, 0, Classes.textOf(site));
        finish(why, Classes.place(site));
    }

    private static void finish(int why, long place) {
        plan.set(Plan.WHY, why);
        plan.set(Plan.PC, place);
        for (Turns.T t : numbered) if (t != null) plan.setTold(t.number, t.ticks);
        plan.set(Plan.STATE, Plan.DEPARTED);
        Runtime.getRuntime().halt(GONE);
    }
}
