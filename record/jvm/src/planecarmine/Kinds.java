package planecarmine;

/** What a record says. The decoder and the hooks share these numbers. */
final class Kinds {
    private Kinds() { }

    static final int VOID = 0, READ = 1, WRITE = 2, ATOMIC_READ = 3, ATOMIC_WRITE = 4, ATOMIC_UPDATE = 5;
    static final int ACQUIRE = 6, RELEASE = 7, READER_IN = 8, READER_OUT = 9, WRITER_IN = 10, WRITER_OUT = 11;
    /** A try of a lock that failed. */
    static final int TRIED = 12;
    /** A thread passes an order on (four lines), or only takes it (three lines). */
    static final int PASS = 13, TAKE = 14;
    static final int FORK = 15, JOIN = 16;
    /** An object is new, with the place that made it, or without. */
    static final int ALLOCATED = 17, MET = 18;
    /** From here on the thread runs in this node of the calls. */
    static final int NODE = 19;
    /** A thread waits for a lock that another one has: so the lock is one of both. */
    static final int WANTED = 20;

    /** Parts of an object that are no field and no element. A lock that a thread has again is LATE if the time of its
     * wait was over. A TRY took it without a wait, or would have waited for a time only. */
    static final int WHOLE = -1, LOCK = -2, ORDER = -3, LATE = -4, TRY = -5;

    /** Whether a record is a tick of its thread's clock. The others depend on what other threads did. */
    static boolean isTick(int kind) { return kind <= JOIN; }

    /** Entries of the names. */
    static final int FIELD = 1, CLASS = 2, METHOD = 3, SITE = 4, CALL = 5, FACT = 6, NO_HOOKS = 7, UNKNOWN_THREAD = 8;
    /** A class that has hooks, with a digest of its file. */
    static final int LOADED = 9;
    /** Of a followed run: a call of a thread right before its access, what it accesses, the value there, and the place
     * where the run departs. */
    static final int FRAME = 10, ACCESSED = 11, VALUE = 12, PLACE = 13;
    /** A thread of a deadlock, the lock that it waits for, and the site; the text is the thread that has the lock. */
    static final int DEADLOCK = 14;

    /** The two sorts of chunks of the raw file, and how each begins. */
    static final int MAGIC = 0x4a434c50, RECORDS = 1, NAMES = 2;
    static final int CHUNK = 1 << 20, HEAD = 32, RECORD = 16;
    /** Where the first chunk keeps how many turns there were, and how many were taken by force. */
    static final int TURNS_AT = 8, FORCED_AT = 16;
}
