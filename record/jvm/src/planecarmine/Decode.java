package planecarmine;

import java.io.BufferedOutputStream;
import java.io.FileDescriptor;
import java.io.FileOutputStream;
import java.io.IOException;
import java.io.OutputStream;
import java.util.ArrayList;
import java.util.List;

/** From the raw file of a run to its trace: the trace goes to standard output or to --out FILE, and what there is to
 * say of it to standard error, as lines `fact NAME NUMBER`, `loss CAUSE NUMBER`, `lost CAUSE NAME` and
 * `deadlock THREAD|PLACE|LOCK|HOLDER|SINCE`. */
public final class Decode {
    private Decode() { }

    /** The arguments of the command. */
    static final class Given {
        String out = "-", raw;
        /** For a clock: the files for the records, for the events and for the names. */
        String records, events, names;
        boolean isKilled;
        long most = Long.MAX_VALUE, from;
        int frames = 8, mostThreads = Integer.MAX_VALUE;
        final List<String> only = new ArrayList<>();

        Given(String[] words) {
            for (int k = 0; k < words.length; k++)
                switch (words[k]) {
                    case "--out": out = words[++k]; break;
                    case "--max": most = Long.parseLong(words[++k]); break;
                    case "--from": from = Long.parseLong(words[++k]); break;
                    case "--frames": frames = Integer.parseInt(words[++k]); break;
                    case "--threads": mostThreads = Integer.parseInt(words[++k]); break;
                    case "--killed": isKilled = true; break;
                    case "--only": only.add(words[++k]); break;
                    case "--records": records = words[++k]; break;
                    case "--events": events = words[++k]; break;
                    case "--names": names = words[++k]; break;
                    default: raw = words[k];
                }
        }
    }

    public static void main(String[] words) { System.exit(decode(words)); }

    static int decode(String[] words) {
        Given given = new Given(words);
        try (Raw raw = new Raw(given.raw)) {
            decode(given, raw);
            return 0;
        } catch (IOException e) {
            System.err.println("planecarmine: the trace was not written: " + e.getMessage());
        } catch (OutOfMemoryError e) {
            System.err.println("planecarmine: out of memory for the names of the trace: give the JVM more, as by -Xmx4g");
        }
        return 1;
    }

    private static OutputStream opened(String path) throws IOException {
        OutputStream to = path.equals("-") ? new FileOutputStream(FileDescriptor.out) : new FileOutputStream(path);
        return new BufferedOutputStream(to, 1 << 16);
    }

    private static void decode(Given given, Raw raw) throws IOException {
        Variables variables = new Variables(raw, site -> Naming.isIn(raw, site, given.only), !given.only.isEmpty());
        Naming naming = new Naming(raw, variables, given.frames);
        Trace trace;
        Losses losses;
        try (OutputStream out = opened(given.out)) {
            trace = new Trace(variables, naming, out, given);
            trace.mark(Losses.BEGIN);
            write(given, raw, trace, naming);
            losses = losses(given, raw, variables, trace);
            trace.mark(losses.end());
        }
        List<String> waits = waits(raw, variables, naming);
        if (given.out.equals("-")) tell(raw, trace, losses, waits);
        else tellInShort(raw, trace, losses, waits);
    }

    /** Writes the events, and the parts of a clock if they are wanted. */
    private static void write(Given given, Raw raw, Trace trace, Naming naming) throws IOException {
        if (given.records == null) {
            trace.write(raw);
            return;
        }
        try (OutputStream records = opened(given.records); OutputStream events = opened(given.events);
                OutputStream names = opened(given.names)) {
            trace.clock = new Clock(raw, records, events);
            trace.write(raw);
            trace.clock.writeNames(naming, names);
        }
        if (trace.clock.hasTooMany) fact("no_clock", 1);
    }

    private static Losses losses(Given given, Raw raw, Variables variables, Trace trace) {
        Losses losses = new Losses();
        losses.add("FROM", trace.before, 0);
        losses.add("ONLY", variables.notChosen(), 0);
        losses.add("PARTS", raw.cut, 0);
        losses.add("HOOKS", raw.noHooks);
        losses.add("THREADS", raw.unknownThreads);
        losses.add(trace.tooManyThreads ? "THREADS" : "MAX", trace.leftOut, trace.written);
        if (!raw.stopped.isEmpty()) losses.addUncounted(raw.stopped, trace.written);
        if (!raw.deadlock.isEmpty()) losses.addUncounted("DEADLOCK", trace.written);
        if (given.isKilled) losses.addUncounted("KILLED", trace.written);
        if (!trace.hasThreads) losses.addUncounted("ONE THREAD", trace.written);
        return losses;
    }

    /** The threads of a deadlock: `THREAD|PLACE|LOCK|HOLDER|SINCE` each. */
    private static List<String> waits(Raw raw, Variables variables, Naming naming) throws IOException {
        List<String> waits = new ArrayList<>();
        for (int[] wait : raw.deadlock) {
            int[] held = {-1, 0};
            raw.go(r -> {
                boolean comes = r.kind == Kinds.ACQUIRE || r.kind == Kinds.WRITER_IN || r.kind == Kinds.READER_IN;
                if (!comes || r.thing != wait[1] || r.thread != wait[3]) return true;
                held[0] = variables.number(r);
                held[1] = r.site;
                return true;
            });
            String lock = held[0] < 0 ? "a lock" : naming.name(variables.keyOf[held[0]]);
            String since = naming.place(held[1]);
            waits.add(wait[0] + "|" + naming.place(wait[2]) + "|" + lock + "|" + wait[3] + "|" + since);
        }
        return waits;
    }

    private static void fact(String name, long value) { System.err.println("fact " + name + " " + value); }

    private static void tell(Raw raw, Trace trace, Losses losses, List<String> waits) {
        fact("written", trace.written);
        fact("before", trace.before);
        fact("left_out", trace.leftOut);
        fact("too_many_threads", trace.tooManyThreads ? 1 : 0);
        fact("threads", trace.threadCount);
        fact("bytes", trace.bytes);
        fact("records", raw.records);
        fact("turns", raw.turns);
        fact("forced", raw.forced);
        for (String line : losses.lines()) System.err.println(line);
        for (String wait : waits) System.err.println("deadlock " + wait);
    }

    private static void tellInShort(Raw raw, Trace trace, Losses losses, List<String> waits) {
        List<String> texts = new ArrayList<>();
        for (String wait : waits) {
            String[] one = wait.split("\\|");
            texts.add("T" + one[0] + " waits at " + one[1] + " for " + one[2] + ", which T" + one[3] + " holds since " + one[4]);
        }
        if (!texts.isEmpty())
            System.err.println("planecarmine: the program is in a deadlock: " + String.join("; ", texts));
        for (String line : losses.lines()) System.err.println("planecarmine: " + line);
        System.err.println("planecarmine: recorded " + trace.written + " events, " + raw.turns + " turns, " + raw.forced
                + " taken by force");
    }
}
