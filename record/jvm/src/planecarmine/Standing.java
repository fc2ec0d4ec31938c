package planecarmine;

import java.lang.reflect.Array;
import java.lang.reflect.Field;
import java.util.Set;

/** A thread right before its access: its calls, and the value there. */
final class Standing {
    /** The most calls that are written, and the most characters of a text. */
    private static final int MOST_CALLS = 64, MOST_TEXT = 40;
    /** Classes whose methods a thread in a hook may be in. */
    private static final Set<String> WAITS = Set.of("java.lang.Thread", "java.lang.Object");
    final int thread;
    private final Thread of;
    private final Things.Thing thing;
    private final int part;

    Standing(Turns.T t, int thing, int part) {
        this.thread = t.number;
        this.of = t.thread;
        this.thing = thing == 0 ? null : Things.numbered(thing);
        this.part = part;
    }

    /** Writes the calls of a thread that is in a hook. A synchronized method is two: one takes the lock. */
    static void tellCalls(int side, Thread of) {
        int count = 0;
        String held = "";
        for (StackTraceElement at : of.getStackTrace()) {
            String type = at.getClassName(), method = at.getMethodName(), name = type + "." + method.replace("$held", "");
            boolean isOwn = type.startsWith("planecarmine.") || method.startsWith("rec$");
            if (isOwn || count == 0 && WAITS.contains(type) || name.equals(held)) {
                held = "";
                continue;
            }
            if (++count > MOST_CALLS) return;
            held = method.endsWith("$held") ? name : "";
            Store.name(Kinds.FRAME, side, 0, 0, name + " " + place(at));
        }
    }

    private static String place(StackTraceElement at) {
        String file = at.getFileName() == null ? "?" : at.getFileName();
        return at.getLineNumber() > 0 ? file + ":" + at.getLineNumber() : file;
    }

    /** Writes the value there, before both accesses or after both. */
    void tell(int side, boolean isAfter) {
        if (!isAfter) Store.name(Kinds.ACCESSED, side, 0, 0, name());
        Object[] found = new Object[1];
        if (look(found)) Store.name(Kinds.VALUE, side, isAfter ? 1 : 0, 0, text(found[0]));
    }

    private String type() {
        Object o = thing.get();
        return o == null ? thing.type.getSimpleName() : o.getClass().getSimpleName();
    }

    private String name() {
        String field = part > 0 ? Classes.fieldName(part) : null;
        if (thing == null) return field == null ? "a variable" : field;
        if (thing.type.isArray()) return type().replaceFirst("\\[]$", "") + "[" + part + "]";
        return field == null ? type() : field;
    }

    /** Whether the value can be read; the object that holds it may be of a module that lets nobody look. */
    private boolean look(Object[] found) {
        Object o = thing == null ? null : thing.get();
        try {
            if (o != null && o.getClass().isArray()) {
                found[0] = Array.get(o, part);
                return true;
            }
            String name = part > 0 ? Classes.fieldName(part) : null;
            if (name == null || thing != null && o == null) return false;
            int at = name.lastIndexOf('.');
            ClassLoader loader = o != null ? o.getClass().getClassLoader() : of.getContextClassLoader();
            Field field = Class.forName(name.substring(0, at), false, loader).getDeclaredField(name.substring(at + 1));
            field.setAccessible(true);
            found[0] = field.get(o);
            return true;
        } catch (ReflectiveOperationException | RuntimeException | LinkageError e) {
            return false;
        }
    }

    /** A value in a text; no code of the program runs for it. */
    private static String text(Object value) {
        if (value == null || value instanceof Number && value.getClass().getName().startsWith("java.lang."))
            return String.valueOf(value);
        if (value instanceof Boolean) return value.toString();
        if (value instanceof Character) return "'" + value + "'";
        if (value instanceof String) {
            String text = (String) value;
            return '"' + (text.length() > MOST_TEXT ? text.substring(0, MOST_TEXT) + ".." : text) + '"';
        }
        if (value.getClass().isArray())
            return value.getClass().getSimpleName().replaceFirst("\\[]", "[" + Array.getLength(value) + "]");
        return "a " + value.getClass().getSimpleName();
    }
}
