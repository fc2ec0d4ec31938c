package planecarmine;

import java.io.IOException;
import java.io.RandomAccessFile;
import java.nio.ByteOrder;
import java.nio.MappedByteBuffer;
import java.nio.channels.FileChannel;

/** The file of a plan, which record/plans.py writes, and what comes back in it. ../../../runtime/plan.h has the same
 * structures. Steps and ticks are in the order of the file; the clock of a thread is the number of its records. */
final class Plan {
    /** Types of steps. */
    static final int STEP = 0, STAND = 1, LAST = 2, WAIT = 3;
    /** States of the run. */
    static final int FOLLOWING = 1, STANDS = 2, DEPARTED = 3, DONE = 4;
    /** Why a run departs. */
    static final int OTHER_CODE = 1, MISSED = 2, WOULD_WAIT = 3, HANGS = 4, OTHER_OUTCOME = 6, THREAD_ENDED = 8;
    static final int NO_WAIT = 9, NOT_HELD = 10;
    /** Places of the numbers at the head that come back. */
    static final int STATE = 17, AT_STEP = 18, WHY = 19, THREAD = 20, POS = 21, KIND = 22, PC = 23, EXPECTED = 24;
    static final int SPURIOUS = 25, PASSED = 26, LAST_PC = 27, EARLY = 28;

    private static final long MAGIC = 0x3357464252524352L;
    private static final int HEAD_SIZE = 31 * 8, STANDING_SIZE = (14 + 2 * 64) * 8, STEP_SIZE = 64, TICK_SIZE = 24;
    private static final int TOLD_AT = HEAD_SIZE + 2 * STANDING_SIZE, MOST_TOLD = 64;
    /** After the ticks are 16 uses of freed blocks, which a Java program has not, and then the requests of a deadlock. */
    private static final int REQUESTS_AT = TOLD_AT + MOST_TOLD * 8 + 16 * 6 * 8, REQUEST_AT = REQUESTS_AT + 2 * 8;
    private static final int MOST_REQUESTS = 8, HOLDERS_AT = REQUEST_AT + MOST_REQUESTS * STANDING_SIZE;
    /** Places of numbers in a step, in bytes. */
    private static final int TYPE = 4, CLOCK = 8, NEXT = 24, NEEDS = 32, NEEDS_COUNT = 40, IS_DONE = 48;

    private final MappedByteBuffer file;
    final int threads, steps, heldBack, alone, requests;
    /** Whether the program goes on when all threads of its deadlock wait. */
    final boolean hangs;
    final long patience;
    private final int forks, threadsAt, forksAt, stepsAt, ticksAt, needsAt, firstAt;

    Plan(String path) throws IOException {
        try (RandomAccessFile opened = new RandomAccessFile(path, "rw")) {
            file = opened.getChannel().map(FileChannel.MapMode.READ_WRITE, 0, opened.length());
        }
        file.order(ByteOrder.LITTLE_ENDIAN);
        if (file.limit() < HOLDERS_AT || file.getLong(0) != MAGIC) throw new IOException(path + " is no plan");
        threads = head(1);
        steps = head(2);
        forks = head(3);
        heldBack = head(6);
        alone = head(7);
        patience = head(8);
        threadsAt = head(9);
        forksAt = head(10);
        stepsAt = head(11);
        ticksAt = head(12);
        needsAt = head(13);
        firstAt = head(14);
        requests = (int) file.getLong(REQUESTS_AT);
        hangs = file.getLong(REQUESTS_AT + 8) != 0;
        set(STATE, FOLLOWING);
    }

    private int head(int place) { return (int) file.getLong(8 * place); }

    void set(int place, long value) { file.putLong(8 * place, value); }
    void count(int place) { set(place, file.getLong(8 * place) + 1); }
    long count() { return file.getLong(8 * PASSED); }

    private int at(int step) { return stepsAt + step * STEP_SIZE; }
    int thread(int step) { return file.getInt(at(step)); }
    int type(int step) { return file.getInt(at(step) + TYPE); }
    /** The clock of a step, as a number of records. */
    long tick(int step) { return file.getLong(at(step) + CLOCK) >>> 16; }
    boolean isDone(int step) { return file.getLong(at(step) + IS_DONE) != 0; }

    boolean hasNeeds(int step) {
        long from = file.getLong(at(step) + NEEDS), count = file.getLong(at(step) + NEEDS_COUNT);
        for (long k = from; k < from + count; k++) if (!isDone((int) file.getLong(needsAt + 8 * (int) k))) return false;
        return true;
    }

    /** The next step of a thread. */
    int next(int thread) { return (int) file.getLong(firstAt + 8 * thread); }

    void setDone(int step) {
        file.putLong(at(step) + IS_DONE, 1);
        file.putLong(firstAt + 8 * thread(step), file.getLong(at(step) + NEXT));
    }

    /** How many records the recording has of a thread. */
    long records(int thread) { return file.getLong(threadsAt + 16 * thread + 8); }

    private int entry(int thread, long tick) {
        return ticksAt + (int) (file.getLong(threadsAt + 16 * thread) + tick - 1) * TICK_SIZE;
    }

    private boolean hasEntry(int thread, long tick) { return thread < threads && tick > 0 && tick <= records(thread); }

    /** What the recording has at a clock: the place, whether an event is of it, and the kind; 0 if it has nothing. */
    long expected(int thread, long tick) { return hasEntry(thread, tick) ? file.getLong(entry(thread, tick)) : 0; }

    static boolean isEvent(long expected) { return (expected & 128) != 0; }

    /** What the record says that the recording has at a clock. */
    long answer(int thread, long tick) { return hasEntry(thread, tick) ? file.getLong(entry(thread, tick) + 16) : 0; }

    /** The number that the recording gave to the thread which another one starts by its next record; -1 if none. */
    int child(int parent, long tick) {
        for (int k = 0; k < forks; k++) {
            int at = forksAt + 24 * k;
            if (file.getLong(at) == parent && file.getLong(at + 8) >>> 16 == tick) return (int) file.getLong(at + 16);
        }
        return -1;
    }

    /** A thread right before its access: its number and clock, what it accesses and how much, the kind and the place. */
    void setStanding(int side, long... numbers) { setAt(HEAD_SIZE + side * STANDING_SIZE, numbers); }

    /** The same of a thread that waits for a lock. */
    void setRequest(int number, long... numbers) { setAt(REQUEST_AT + number * STANDING_SIZE, numbers); }

    /** A thread of the deadlock that has the lock of a request. */
    void setHolder(int number, int thread) { setAt(HOLDERS_AT + 8 * number, thread); }

    private void setAt(int at, long... numbers) {
        for (int k = 0; k < numbers.length; k++) file.putLong(at + 8 * k, numbers[k]);
    }

    void setTold(int thread, long tick) {
        if (thread < MOST_TOLD && thread < threads) file.putLong(TOLD_AT + 8 * thread, tick);
    }
}
