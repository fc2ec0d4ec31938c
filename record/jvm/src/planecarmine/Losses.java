package planecarmine;

import java.util.ArrayList;
import java.util.List;

/** What a recording left out, and the last line of a trace, which says so. */
final class Losses {
    /** A cause, how many of its kind were left out, and from which event on. */
    private static final class Loss {
        final String cause;
        final long count, from;

        Loss(String cause, long count, long from) {
            this.cause = cause;
            this.count = count;
            this.from = from;
        }
    }

    static final String BEGIN = "recording|begin(RECORDED)|\n";
    private final List<Loss> all = new ArrayList<>();
    private final List<String> names = new ArrayList<>();

    /** Nothing is added if the count is 0. */
    void add(String cause, long count, long from) {
        if (count > 0) all.add(new Loss(cause, count, from));
    }

    void add(String cause, List<String> lost) {
        add(cause, lost.size(), 0);
        for (String one : lost) names.add("lost " + cause + " " + one.replace('\n', ' '));
    }

    /** A cause that left out what can't be counted. */
    void addUncounted(String cause, long from) { all.add(new Loss(cause, 0, from)); }

    /** The last line of the trace: that it is whole, or how much was left out, from which event on, and why. */
    String end() {
        if (all.isEmpty()) return "recording|end(WHOLE)|\n";
        long count = 0, from = Long.MAX_VALUE;
        StringBuilder causes = new StringBuilder();
        for (Loss loss : all) {
            count += loss.count;
            from = Math.min(from, loss.from);
            causes.append(causes.length() == 0 ? "" : ", ").append(loss.cause);
        }
        return "recording|end(LEFT OUT " + count + " FROM " + from + ": " + causes + ")|\n";
    }

    /** The lines `loss CAUSE COUNT` and `lost CAUSE NAME`. */
    List<String> lines() {
        List<String> lines = new ArrayList<>();
        for (Loss loss : all) lines.add("loss " + loss.cause + " " + loss.count);
        lines.addAll(names);
        return lines;
    }
}
