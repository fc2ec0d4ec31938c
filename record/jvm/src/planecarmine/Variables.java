package planecarmine;

import java.io.IOException;
import java.util.Arrays;
import java.util.BitSet;
import java.util.HashMap;
import java.util.function.IntPredicate;

/** The variables, locks and orders of a run: who uses each, and which of them are printed. */
final class Variables {
    /** The sorts of keys. */
    static final int VARIABLE = 0, LOCK = 1, ORDER = 2;
    private static final int WHOLE_PART = 0x7fffffff;

    private final Raw raw;
    private final IntPredicate isChosenSite;
    /** Of each object: its class, and the site and the thread that made it. */
    int[] type = new int[1024], site = new int[1024], maker = new int[1024];
    int things;
    private int[] user = new int[1024];
    private final BitSet sharedThings = new BitSet();
    private long[] keys = new long[1 << 12];
    private int[] values = new int[1 << 12];
    /** Of each key that two threads may use, by its number: the key, its first thread. */
    long[] keyOf = new long[1024];
    private int[] first = new int[1024];
    int count;
    final BitSet shared = new BitSet(), written = new BitSet(), tried = new BitSet(), chosen = new BitSet();
    final HashMap<Integer, BitSet> readers = new HashMap<>();
    final boolean chooses;

    Variables(Raw raw, IntPredicate isChosenSite, boolean chooses) throws IOException {
        this.raw = raw;
        this.isChosenSite = isChosenSite;
        this.chooses = chooses;
        raw.go(this::seeThing);
        raw.go(this::see);
    }

    static boolean isAccess(int kind) { return kind >= Kinds.READ && kind <= Kinds.ATOMIC_UPDATE; }
    static boolean isLock(int kind) { return kind >= Kinds.ACQUIRE && kind <= Kinds.WRITER_OUT; }
    static boolean isThread(int kind) { return kind == Kinds.FORK || kind == Kinds.JOIN; }
    private static boolean isNew(int kind) { return kind == Kinds.ALLOCATED || kind == Kinds.MET; }

    private void room(int thing) {
        if (thing < type.length) return;
        int size = Math.max(2 * type.length, thing + 1);
        type = Arrays.copyOf(type, size);
        site = Arrays.copyOf(site, size);
        maker = Arrays.copyOf(maker, size);
        user = Arrays.copyOf(user, size);
    }

    private boolean seeThing(Raw.Record r) {
        if (isThread(r.kind) || r.thing <= 0) return true;
        room(r.thing);
        things = Math.max(things, r.thing);
        if (isNew(r.kind)) {
            type[r.thing] = r.part;
            if (r.kind == Kinds.ALLOCATED) {
                site[r.thing] = r.site;
                maker[r.thing] = r.thread;
            }
        } else if (user[r.thing] == 0) user[r.thing] = r.thread + 1;
        else if (user[r.thing] != r.thread + 1) sharedThings.set(r.thing);
        return true;
    }

    private static long keyOf(Raw.Record r) {
        int sort = isAccess(r.kind) ? VARIABLE : r.kind == Kinds.PASS || r.kind == Kinds.TAKE ? ORDER : LOCK;
        long part = r.part < 0 || sort == LOCK ? WHOLE_PART : r.part;
        return (long) sort << 62 | (long) r.thing << 31 | part;
    }

    static int sort(long key) { return (int) (key >>> 62); }
    static int thing(long key) { return (int) (key >>> 31) & 0x7fffffff; }
    /** The part, or -1 for the whole. */
    static int part(long key) { return (key & 0x7fffffff) == WHOLE_PART ? -1 : (int) (key & 0x7fffffff); }

    /** The number of what a record is about, or -1 if only one thread uses the object. */
    int number(Raw.Record r) {
        if (isThread(r.kind) || isNew(r.kind) || r.thing > 0 && !sharedThings.get(r.thing)) return -1;
        long key = keyOf(r);
        int k = slot(key);
        return values[k] - 1;
    }

    private int slot(long key) {
        int k = (int) (key * 0x9e3779b97f4a7c15L >>> 33) & keys.length - 1;
        while (values[k] != 0 && keys[k] != key) k = k + 1 & keys.length - 1;
        return k;
    }

    private int added(Raw.Record r) {
        long key = keyOf(r);
        int k = slot(key);
        if (values[k] != 0) return values[k] - 1;
        keys[k] = key;
        values[k] = ++count;
        if (count >= keyOf.length) {
            keyOf = Arrays.copyOf(keyOf, 2 * keyOf.length);
            first = Arrays.copyOf(first, 2 * first.length);
        }
        keyOf[count - 1] = key;
        if (2 * count > keys.length) grow();
        return count - 1;
    }

    private void grow() {
        keys = new long[2 * keys.length];
        values = new int[keys.length];
        for (int v = 0; v < count; v++) {
            int k = slot(keyOf[v]);
            keys[k] = keyOf[v];
            values[k] = v + 1;
        }
    }

    private boolean see(Raw.Record r) {
        if (isThread(r.kind) || isNew(r.kind) || r.thing > 0 && !sharedThings.get(r.thing)) return true;
        int v = added(r);
        if (first[v] == 0) first[v] = r.thread + 1;
        else if (first[v] != r.thread + 1) shared.set(v);
        if (r.kind == Kinds.WRITE || r.kind == Kinds.ATOMIC_WRITE || r.kind == Kinds.ATOMIC_UPDATE || r.kind == Kinds.PASS)
            written.set(v);
        if (r.kind == Kinds.READER_IN) readers.computeIfAbsent(v, k -> new BitSet()).set(r.thread);
        if (r.kind == Kinds.TRIED) tried.set(v);
        if (chooses && sort(keyOf[v]) == VARIABLE && isChosenSite.test(r.site)) chosen.set(v);
        return true;
    }

    /** Whether two threads use it, one of which changes it, and whether it was chosen. */
    boolean isPrinted(int v) {
        if (v < 0 || !shared.get(v)) return false;
        if (sort(keyOf[v]) == LOCK) return true;
        return written.get(v) && (sort(keyOf[v]) == ORDER || !chooses || chosen.get(v));
    }

    /** How many variables the choice leaves out. */
    int notChosen() {
        int left = 0;
        for (int v = 0; v < count; v++)
            if (chooses && sort(keyOf[v]) == VARIABLE && shared.get(v) && written.get(v) && !chosen.get(v)) left++;
        return left;
    }
}
