package planecarmine;

import java.nio.charset.StandardCharsets;

/** A place of code as a number that is the same in each run: of its file and line. Numbers of sites are not, since they
 * follow the order in which classes are loaded. */
final class Places {
    private Places() { }

    private static final long MASK = (1L << 48) - 1;

    static long of(String file, int line) {
        long hash = digest((file + ":" + line).getBytes(StandardCharsets.UTF_8));
        long folded = (hash ^ hash >>> 48) & MASK;
        return folded == 0 ? 1 : folded;
    }

    /** A number that other bytes hardly have (FNV-1a). */
    static long digest(byte[] bytes) {
        long hash = 0xcbf29ce484222325L;
        for (byte one : bytes) hash = (hash ^ one & 0xff) * 0x100000001b3L;
        return hash;
    }
}
