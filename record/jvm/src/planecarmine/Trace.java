package planecarmine;

import java.io.IOException;
import java.io.OutputStream;
import java.nio.charset.StandardCharsets;
import java.util.BitSet;
import java.util.LinkedHashMap;
import java.util.Map;

/** Writes the trace of a run. */
final class Trace {
    private final Variables variables;
    private final Naming naming;
    private final OutputStream out;
    private final long most, from;
    private final int mostThreads;
    private final String[] names;
    private final BitSet threads = new BitSet();
    /** The locks that are held before the first event that is written: the line of each. */
    private final Map<String, String> held = new LinkedHashMap<>();
    long events, written, before, leftOut, bytes;
    int threadCount;
    boolean tooManyThreads, hasThreads;
    /** What is written for a clock; null without a clock. */
    Clock clock;
    private boolean begun;
    private IOException failed;

    Trace(Variables variables, Naming naming, OutputStream out, Decode.Given given) {
        this.variables = variables;
        this.naming = naming;
        this.out = out;
        this.most = given.most;
        this.from = given.from;
        this.mostThreads = given.mostThreads;
        this.names = new String[variables.count];
    }

    void write(Raw raw) throws IOException {
        raw.go(this::take);
        if (failed != null) throw failed;
    }

    private boolean take(Raw.Record r) {
        try {
            if (clock != null) clock.take(r);
            print(r);
        } catch (IOException e) {
            failed = e;
        }
        return failed == null;
    }

    private void print(Raw.Record r) throws IOException {
        if (Variables.isThread(r.kind)) {
            hasThreads = true;
            begin(r);
            line(r, r.kind == Kinds.FORK ? "fork" : "join", "T" + r.thing);
            return;
        }
        int v = variables.number(r);
        if (!variables.isPrinted(v) || r.kind == Kinds.WANTED) return;
        if (names[v] == null) names[v] = naming.name(variables.keyOf[v]);
        begin(r);
        String name = names[v];
        if (Variables.isAccess(r.kind)) access(r, name);
        else if (r.kind == Kinds.PASS || r.kind == Kinds.TAKE) order(r, name);
        else lock(r, v, name);
    }

    private void access(Raw.Record r, String name) throws IOException {
        boolean isAtomic = r.kind >= Kinds.ATOMIC_READ;
        if (isAtomic) line(r, "acq", "atomic:" + name);
        if (r.kind == Kinds.READ || r.kind == Kinds.ATOMIC_READ || r.kind == Kinds.ATOMIC_UPDATE) line(r, "r", name);
        if (r.kind == Kinds.WRITE || r.kind == Kinds.ATOMIC_WRITE || r.kind == Kinds.ATOMIC_UPDATE) line(r, "w", name);
        if (isAtomic) line(r, "rel", "atomic:" + name);
    }

    private void order(Raw.Record r, String name) throws IOException {
        line(r, "acq", "order:" + name);
        line(r, "r", "sync:" + name);
        if (r.kind == Kinds.PASS) line(r, "w", "sync:" + name);
        line(r, "rel", "order:" + name);
    }

    private void held(Raw.Record r, String word, String name) throws IOException {
        line(r, "acq", "atomic:held:" + name);
        line(r, word, "held:" + name);
        line(r, "rel", "atomic:held:" + name);
    }

    private void lock(Raw.Record r, int v, String name) throws IOException {
        BitSet readers = variables.readers.getOrDefault(v, new BitSet());
        if (r.kind == Kinds.TRIED) {
            held(r, "r", name);
            if (r.part == 0) for (int t = next(readers, r, 0); t >= 0; t = next(readers, r, t + 1)) held(r, "r", name + ":T" + t);
            return;
        }
        boolean isReader = r.kind == Kinds.READER_IN || r.kind == Kinds.READER_OUT;
        boolean comes = r.kind == Kinds.ACQUIRE || r.kind == Kinds.READER_IN || r.kind == Kinds.WRITER_IN;
        boolean wasTried = variables.tried.get(v);
        String own = isReader ? name + ":T" + r.thread : name, word = comes ? "acq" : "rel";
        if (!comes && wasTried) held(r, "w", own);
        line(r, word, own);
        boolean isWriter = r.kind == Kinds.WRITER_IN || r.kind == Kinds.WRITER_OUT;
        if (isWriter) for (int t = next(readers, r, 0); t >= 0; t = next(readers, r, t + 1)) line(r, word, name + ":T" + t);
        if (comes && wasTried) held(r, "w", own);
    }

    /** The next reader that is another thread than that of a record. */
    private static int next(BitSet readers, Raw.Record r, int from) {
        int t = readers.nextSetBit(from);
        return t == r.thread ? readers.nextSetBit(t + 1) : t;
    }

    /** The lines of one record are written all, or none is. */
    private void begin(Raw.Record r) throws IOException {
        begun = events >= from;
        if (!begun || held.isEmpty()) return;
        for (String text : held.values()) write(text);
        held.clear();
    }

    private boolean isThreadTooMany(Raw.Record r, String word) {
        if (tooManyThreads) return true;
        see(r.thread);
        if (word.equals("fork") || word.equals("join")) see(r.thing);
        tooManyThreads = threadCount > mostThreads;
        return tooManyThreads;
    }

    private void see(int thread) {
        if (threads.get(thread)) return;
        threads.set(thread);
        threadCount++;
    }

    private void line(Raw.Record r, String word, String name) throws IOException {
        events++;
        String location = naming.location(r.site, r.node);
        if (r.part == Kinds.TRY && Variables.isLock(r.kind)) location = byTry(location);
        String text = "T" + r.thread + "|" + word + "(" + name + ")|" + location + "\n";
        if (begun) {
            if (written >= most || isThreadTooMany(r, word)) leftOut++;
            else {
                if (clock != null) clock.event();
                write(text);
            }
            return;
        }
        before++;
        String key = r.thread + " " + name;
        if (word.equals("acq")) held.put(key, text);
        else if (word.equals("rel")) held.remove(key);
    }

    /** A location with the mark of a try, or of a call that waits for a time. */
    private static String byTry(String location) {
        return location.contains(" < ") ? location.replaceFirst(" < ", " < try in ") : location + " < try";
    }

    private void write(String text) throws IOException {
        written++;
        mark(text);
    }

    /** Writes a line that is no event. */
    void mark(String text) throws IOException {
        byte[] line = text.getBytes(StandardCharsets.UTF_8);
        bytes += line.length;
        out.write(line);
    }
}
