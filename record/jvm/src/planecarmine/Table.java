package planecarmine;

import java.io.BufferedReader;
import java.io.IOException;
import java.io.InputStream;
import java.io.InputStreamReader;
import java.nio.charset.StandardCharsets;
import java.util.ArrayList;
import java.util.List;

/** The classes of the library that the recorder knows, by the file library.txt. */
final class Table {
    private Table() { }

    /** A line of the file: which names it fits, and what that means. */
    private static final class Line {
        final String name;
        final boolean isBeginning, isNot;
        final Class<?> type;
        final Row row;

        Line(String word, Row row) throws IOException {
            isNot = word.startsWith("-");
            String name = isNot ? word.substring(1) : word;
            isBeginning = name.endsWith("*");
            this.row = row;
            type = name.startsWith("is:") ? typeOf(name.substring(3)) : null;
            this.name = isBeginning ? name.substring(0, name.length() - 1) : name;
        }

        private static Class<?> typeOf(String name) throws IOException {
            try {
                return Class.forName(name, false, null);
            } catch (ClassNotFoundException e) {
                throw new IOException("library.txt: there is no class " + name);
            }
        }

        boolean fits(String other) { return isBeginning ? other.startsWith(name) : other.equals(name); }
        boolean fits(Class<?> c) { return type != null ? type.isAssignableFrom(c) : fits(c.getName()); }
    }

    private static final List<Line> calls = new ArrayList<>(), rows = new ArrayList<>();
    private static final List<String> readers = new ArrayList<>(), views = new ArrayList<>(), writers = new ArrayList<>();

    static void load() throws IOException {
        try (InputStream in = Table.class.getResourceAsStream("/planecarmine/library.txt")) {
            if (in == null) throw new IOException("the jar has no library.txt");
            BufferedReader lines = new BufferedReader(new InputStreamReader(in, StandardCharsets.UTF_8));
            for (String line = lines.readLine(); line != null; line = lines.readLine()) take(line.strip());
        }
    }

    private static void take(String line) throws IOException {
        if (line.isEmpty() || line.startsWith("#")) return;
        String[] words = line.split("\\s+");
        for (int k = words[0].equals("row") ? 2 : 1; k < words.length; k++)
            switch (words[0]) {
                case "call": calls.add(new Line(words[k], null)); break;
                case "row": rows.add(new Line(words[k], row(words[1]))); break;
                case "reader": readers.add(words[k]); break;
                case "view": views.add(words[k]); break;
                case "writer": writers.add(words[k]); break;
                default: throw new IOException("library.txt: no line begins with " + words[0]);
            }
    }

    private static Row row(String name) throws IOException {
        Row row = Rows.BY_NAME.get(name);
        if (row == null) throw new IOException("library.txt: there is no row " + name);
        return row;
    }

    /** Whether calls on a type of the library go by a bridge: the last line that fits counts. */
    static boolean isBridged(String owner) {
        String name = owner.replace('/', '.');
        for (int k = calls.size() - 1; k >= 0; k--) if (calls.get(k).fits(name)) return !calls.get(k).isNot;
        return false;
    }

    private static final ClassValue<Row> ROWS = new ClassValue<>() {
        @Override
        protected Row computeValue(Class<?> c) { return find(c); }
    };

    /** The first line that fits the first class of the library that an object comes from. */
    private static Row find(Class<?> c) {
        while (c != null && (c.getClassLoader() != null || c.isHidden())) c = c.getSuperclass();
        if (c == null) return Rows.NONE;
        for (Line line : rows) if (line.fits(c)) return line.row;
        return Rows.NONE;
    }

    static Row of(Object on) { return ROWS.get(on instanceof Class ? (Class<?>) on : on.getClass()); }

    /** Whether a method only looks, by the beginning of its name. */
    static boolean isReader(String method) { return begins(readers, method); }

    /** Whether a method may answer with a part of the collection. */
    static boolean givesView(String method) { return begins(views, method); }

    static boolean isHelperThatWrites(String method) { return begins(writers, method); }

    private static boolean begins(List<String> all, String method) {
        for (String one : all) if (method.startsWith(one)) return true;
        return false;
    }
}
