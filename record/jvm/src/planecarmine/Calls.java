package planecarmine;

import java.util.ArrayList;

/** The nodes of the calls: each is a method, the place that called it, and the node of its caller. A method that calls
 * itself again from the same place is the node that it was. */
final class Calls {
    private Calls() { }

    /** The most nodes; calls beyond are those of their callers. */
    private static final int MOST = 1 << 22;
    private static long[] keys = new long[1 << 12];
    private static int[] methodOf = new int[1 << 12], values = new int[1 << 12];
    private static int used;
    private static final ArrayList<int[]> nodes = new ArrayList<>();

    static {
        nodes.add(new int[] {0, 0, 0});
    }

    /** What a thread remembers of the nodes that it came to. */
    static final class Cache {
        private static final int SIZE = 256;
        private final long[] keys;
        private final int[] methods, values;

        Cache() { this(SIZE); }

        Cache(int size) {
            keys = new long[size];
            methods = new int[size];
            values = new int[size];
        }

        int child(int parent, int site, int method) {
            long key = (long) parent << 32 | site;
            int k = (int) ((key * 31 + method) * 0x9e3779b97f4a7c15L >>> 40) & keys.length - 1;
            if (keys[k] == key && methods[k] == method && values[k] != 0) return values[k];
            int made = Calls.child(parent, parent == 0 ? 0 : site, method);
            keys[k] = key;
            methods[k] = method;
            values[k] = made;
            return made;
        }
    }

    private static synchronized int child(int parent, int site, int method) {
        long key = (long) parent << 32 | site;
        int k = slot(key, method);
        if (values[k] != 0) return values[k];
        int found = sameAbove(parent, site, method);
        if (found == 0) {
            if (nodes.size() >= MOST) return parent;
            found = nodes.size();
            nodes.add(new int[] {parent, site, method});
            Store.name(Kinds.CALL, parent, site, method, "");
        }
        keys[k] = key;
        methodOf[k] = method;
        values[k] = found;
        if (2 * ++used > keys.length) grow();
        return found;
    }

    private static int slot(long key, int method) {
        int mask = keys.length - 1, k = (int) ((key * 31 + method) * 0x9e3779b97f4a7c15L >>> 32) & mask;
        while (values[k] != 0 && (keys[k] != key || methodOf[k] != method)) k = k + 1 & mask;
        return k;
    }

    private static void grow() {
        long[] oldKeys = keys;
        int[] oldMethods = methodOf, oldValues = values;
        keys = new long[2 * oldKeys.length];
        methodOf = new int[keys.length];
        values = new int[keys.length];
        for (int i = 0; i < oldKeys.length; i++)
            if (oldValues[i] != 0) {
                int k = slot(oldKeys[i], oldMethods[i]);
                keys[k] = oldKeys[i];
                methodOf[k] = oldMethods[i];
                values[k] = oldValues[i];
            }
    }

    private static int sameAbove(int parent, int site, int method) {
        for (int at = parent; at != 0; at = nodes.get(at)[0]) {
            int[] node = nodes.get(at);
            if (node[1] == site && node[2] == method) return at;
        }
        return 0;
    }
}
