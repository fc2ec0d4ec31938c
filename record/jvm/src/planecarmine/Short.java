package planecarmine;

import java.util.Collection;
import java.util.HashMap;
import java.util.HashSet;
import java.util.Map;
import java.util.Set;

/** Names with as much of the package as makes them differ: `Config`, or `net.Config` and `disk.Config`. */
final class Short {
    private final char between;
    private final Map<String, Set<String>> ends = new HashMap<>();
    private final Map<String, String> made = new HashMap<>();

    Short(Collection<String> all, char between) {
        this.between = between;
        for (String one : all)
            for (int at = one.length(); (at = one.lastIndexOf(between, at - 1)) >= -1;) {
                ends.computeIfAbsent(one.substring(at + 1), k -> new HashSet<>()).add(one);
                if (at <= 0) break;
            }
    }

    String of(String whole) { return made.computeIfAbsent(whole, this::find); }

    private String find(String whole) {
        for (int at = whole.lastIndexOf(between); at >= 0; at = at == 0 ? -1 : whole.lastIndexOf(between, at - 1)) {
            String end = whole.substring(at + 1);
            if (ends.getOrDefault(end, Set.of()).size() <= 1) return end;
        }
        return whole;
    }
}
