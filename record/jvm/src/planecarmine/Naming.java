package planecarmine;

import java.nio.charset.StandardCharsets;
import java.util.ArrayList;
import java.util.HashMap;
import java.util.HashSet;
import java.util.List;
import java.util.Map;
import java.util.Set;
import java.util.zip.CRC32;

/** The names of variables and locks, and the locations. */
final class Naming {
    private static final int MOST_BYTES = 255, MOST_LOCATION = 2000;
    private final Raw raw;
    private final Variables variables;
    private final int frames;
    private final Short types, files;
    private final String[] objects;
    private final Map<String, Long> taken = new HashMap<>();
    private final Map<Long, String> locations = new HashMap<>();

    Naming(Raw raw, Variables variables, int frames) {
        this.raw = raw;
        this.variables = variables;
        this.frames = frames;
        Set<String> classes = new HashSet<>(), paths = new HashSet<>();
        for (String c : raw.classes) if (c != null) classes.add(element(c));
        for (String f : raw.fields) if (f != null) classes.add(f.substring(0, f.lastIndexOf('.')));
        for (String m : raw.methods) if (m != null) classes.add(m.substring(0, m.lastIndexOf('.')));
        for (String f : raw.files) if (f != null) paths.add(f);
        types = new Short(classes, '.');
        files = new Short(paths, '/');
        objects = new String[variables.things + 1];
        nameObjects();
    }

    private static String element(String type) {
        int at = type.indexOf('[');
        return at < 0 ? type : type.substring(0, at);
    }

    private String type(int number) {
        String whole = raw.classes.get(Math.abs(number)), element = element(whole);
        if (whole.startsWith("planecarmine.Work$Job")) return "task";
        return types.of(element) + whole.substring(element.length());
    }

    private static String at(String file, int line) { return line > 0 ? file + ":" + line : file; }

    String place(int site) {
        return site <= 0 || site >= raw.files.size() || raw.files.get(site) == null ? "?"
                : at(files.of(raw.files.get(site)), raw.lines.get(site));
    }

    /** Whether a place is in a file of the list, which has ends of paths. */
    static boolean isIn(Raw raw, int site, List<String> only) {
        String path = site <= 0 || site >= raw.files.size() ? null : raw.files.get(site);
        for (String file : only) if (path != null && (path.equals(file) || path.endsWith("/" + file))) return true;
        return false;
    }

    // ---- objects

    /** Objects of one class that one line made are numbered by the thread that made them; only those that are printed,
     * and only if there are several. */
    private void nameObjects() {
        Map<String, List<Integer>> groups = new HashMap<>();
        boolean[] printed = new boolean[variables.things + 1];
        for (int v = 0; v < variables.count; v++)
            if (variables.isPrinted(v)) printed[Variables.thing(variables.keyOf[v])] = true;
        for (int thing = 1; thing < printed.length; thing++)
            if (printed[thing]) groups.computeIfAbsent(stem(thing), k -> new ArrayList<>()).add(thing);
        groups.forEach(this::number);
    }

    /** The name of an object without its number; for an array without its last brackets. */
    private String stem(int thing) {
        String type = variables.type[thing] == 0 ? "object" : type(variables.type[thing]);
        if (variables.type[thing] < 0) return type + ".class";
        if (type.endsWith("[]")) type = type.substring(0, type.length() - 2);
        return variables.site[thing] == 0 ? type : "heap:" + place(variables.site[thing]) + " " + type;
    }

    private void number(String stem, List<Integer> group) {
        if (group.size() == 1) {
            objects[group.get(0)] = stem;
            return;
        }
        Map<Integer, List<Integer>> byThread = new HashMap<>();
        boolean isMade = stem.startsWith("heap:");
        for (int thing : group) {
            int maker = isMade ? variables.maker[thing] : -1;
            byThread.computeIfAbsent(maker, k -> new ArrayList<>()).add(thing);
        }
        byThread.forEach((maker, own) -> {
            for (int k = 0; k < own.size(); k++) {
                String order = own.size() > 1 ? "." + (k + 1) : "";
                objects[own.get(k)] = stem + "#" + (isMade ? "T" + maker + order : Integer.toString(k + 1));
            }
        });
    }

    private boolean isArray(int thing) {
        int type = variables.type[thing];
        return type > 0 && raw.classes.get(type).endsWith("[]");
    }

    // ---- variables and locks

    /** The name of a key, which no other key of the sort has. */
    String name(long key) {
        String name = plain(Variables.thing(key) == 0 ? ofClass(key) : ofObject(key));
        String sort = Variables.sort(key) == Variables.VARIABLE ? "" : Variables.sort(key) == Variables.LOCK ? "l" : "o";
        for (int k = 0;; k++) {
            String tried = k == 0 ? fitting(name) : fitting(name + "~" + k);
            Long other = taken.putIfAbsent(sort + tried, key);
            if (other == null || other == key) return tried;
        }
    }

    private String ofClass(long key) {
        String field = raw.fields.get(Variables.part(key));
        String in = field.substring(0, field.lastIndexOf('.')), own = field.substring(field.lastIndexOf('.') + 1);
        return own.isEmpty() ? "init:" + types.of(in) : types.of(in) + "." + own;
    }

    private String ofObject(long key) {
        int thing = Variables.thing(key), part = Variables.part(key);
        String of = objects[thing];
        if (Variables.sort(key) == Variables.ORDER) return part < 0 ? of : of + "#" + part;
        if (isArray(thing)) return of + (part < 0 ? "[]" : "[" + part + "]");
        if (part < 0 || part >= raw.fields.size() || raw.fields.get(part) == null) return of;
        String field = raw.fields.get(part);
        return of + field.substring(field.lastIndexOf('.'));
    }

    static String plain(String name) {
        StringBuilder made = new StringBuilder(name);
        for (int k = 0; k < made.length(); k++) {
            char c = made.charAt(k);
            if (c < 32 || c == 127 || c == '(' || c == ')') made.setCharAt(k, '?');
            else if (c == '|') made.setCharAt(k, '!');
        }
        return made.toString();
    }

    /** A name that is too long is cut, with a number of the whole name after it. */
    static String fitting(String name) {
        byte[] bytes = name.getBytes(StandardCharsets.UTF_8);
        if (bytes.length <= MOST_BYTES - 20) return name;
        int end = MOST_BYTES - 29;
        while (end > 0 && (bytes[end] & 0xc0) == 0x80) end--;
        CRC32 sum = new CRC32();
        sum.update(bytes);
        return new String(bytes, 0, end, StandardCharsets.UTF_8) + String.format("~%08x", sum.getValue());
    }

    // ---- locations

    String location(int site, int node) {
        if (frames == 0) return place(site);
        return locations.computeIfAbsent((long) site << 32 | node, k -> found(site, node));
    }

    private String found(int site, int node) {
        StringBuilder text = new StringBuilder(place(site));
        int at = node;
        for (int k = 0; k < frames && at != 0 && at < raw.calls.size(); k++) {
            int[] call = raw.calls.get(at);
            String method = method(call[2]);
            if (text.length() + method.length() > MOST_LOCATION) break;
            text.append(" < ").append(method);
            if (k > 0) text.append(' ').append(place(site));
            at = call[0];
            site = call[1];
        }
        return text.toString().replace('|', '!').replace('\n', '?').replace('\r', '?');
    }

    /** `Counter.main(lambda)` for the body of a lambda in `main`. */
    private String method(int number) {
        String whole = raw.methods.get(number), in = whole.substring(0, whole.lastIndexOf('.'));
        String own = whole.substring(in.length() + 1);
        if (own.startsWith("lambda$") && own.indexOf('$', 7) > 0)
            own = own.substring(7, own.lastIndexOf('$')).replace("new", "<init>").replace("static", "<clinit>") + "(lambda)";
        return types.of(in) + "." + own;
    }
}
