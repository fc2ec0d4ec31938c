package planecarmine;

/** Takes the turn from a thread that waits in code without hooks. */
final class Watcher extends Thread {
    /** Milliseconds between two looks. */
    private static final int LOOK = 5;
    /** Looks without progress until a thread that waits loses its turn; one that computes loses it after COMPUTES
     * nanoseconds of processor time. */
    private static final int WAITS = 4;
    private static final long COMPUTES = 1_000_000_000;

    private static final boolean DEBUG = System.getProperty("planecarmine.debug") != null;

    private long seen = -1;
    private int same;
    /** The processor time that the holder had when it began to make no progress. */
    private long time;

    Watcher() {
        super("planecarmine watcher");
        setDaemon(true);
    }

    @Override
    public void run() {
        while (Turns.on) {
            try {
                Thread.sleep(LOOK);
            } catch (InterruptedException e) {
                continue;
            }
            look();
        }
    }

    private void look() {
        Follow.look();
        Turns.T h = Turns.holder;
        if (h != null && Turns.progress != seen) {
            seen = Turns.progress;
            same = 0;
            return;
        }
        if (++same % WAITS == 0) {
            Turns.lookAtParked();
            if (h == null) Turns.lookForOthers();
        }
        if (h == null || h.waitsShort || same < WAITS) return;
        if (!waits(h.thread) && !computes(h.thread) || isInside(h.thread)) return;
        if (DEBUG) tell(h.thread);
        Turns.force(h, seen);
        same = 0;
    }

    private static void tell(Thread thread) {
        System.err.println("planecarmine: " + thread + " loses its turn, " + thread.getState());
        for (StackTraceElement at : thread.getStackTrace()) System.err.println("  at " + at);
    }

    /** Whether a thread has nothing to do before something comes. */
    static boolean waits(Thread thread) {
        Thread.State state = thread.getState();
        if (state != Thread.State.RUNNABLE && state != Thread.State.NEW) return true;
        if (state == Thread.State.NEW) return false;
        StackTraceElement[] stack = thread.getStackTrace();
        return stack.length > 0 && stack[0].isNativeMethod() && isInput(stack[0].getClassName());
    }

    /** The processor time of a thread, in nanoseconds. */
    static long timeOf(Thread thread) {
        return java.lang.management.ManagementFactory.getThreadMXBean().getThreadCpuTime(thread.getId());
    }

    private boolean computes(Thread thread) {
        long now = timeOf(thread);
        if (same == WAITS) time = now;
        return now - time > COMPUTES;
    }

    /** Whether a native method of this class waits for what comes from outside. */
    private static boolean isInput(String name) {
        return name.startsWith("java.net.") || name.startsWith("sun.nio.") || name.startsWith("java.io.");
    }

    /** Whether a thread is in a hook: it goes on soon. */
    private static boolean isInside(Thread thread) {
        for (StackTraceElement at : thread.getStackTrace()) {
            if (at.getClassName().startsWith("planecarmine.")) return true;
            if (!Classes.isLibrary(at.getClassName().replace('.', '/'))) return false;
        }
        return false;
    }
}
