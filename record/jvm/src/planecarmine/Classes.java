package planecarmine;

import java.io.InputStream;
import java.util.ArrayDeque;
import java.util.HashMap;
import java.util.HashSet;
import java.util.Map;
import java.util.Set;
import org.objectweb.asm.ClassReader;
import org.objectweb.asm.ClassVisitor;
import org.objectweb.asm.FieldVisitor;
import org.objectweb.asm.Label;
import org.objectweb.asm.MethodVisitor;
import org.objectweb.asm.Opcodes;

/** What is known of classes before they are loaded, and the numbers of what names them in the records. */
final class Classes {
    private Classes() { }

    /** A class: its super class, interfaces, fields and methods. */
    static final class Info {
        String name, superName;
        String[] interfaces;
        boolean isInterface, hasMaking;
        final Map<String, Integer> fields = new HashMap<>();
        final Map<String, Body> methods = new HashMap<>();
    }

    /** A method: its first line, how many local variables it has, whether it does something that has a hook. */
    static final class Body {
        int firstLine, locals;
        boolean acts;
    }

    private static final Map<String, Integer> sites = new HashMap<>(), fields = new HashMap<>(), classes = new HashMap<>(),
            methods = new HashMap<>();
    private static volatile long[] places = new long[1 << 10];
    private static final Map<Object, Map<String, Info>> infos = new java.util.WeakHashMap<>();
    private static final Info NONE = new Info();

    /** The number of a name, from 1 on. A new one is written into the file. */
    private static int number(Map<String, Integer> known, int kind, int line, String name) {
        synchronized (known) {
            String key = line + name;
            Integer k = known.get(key);
            if (k == null) {
                known.put(key, k = known.size() + 1);
                Store.name(kind, k, line, 0, name);
            }
            return k;
        }
    }

    /** A line of a file; the file has the folders of its package. */
    static int site(String file, int line) {
        int site = number(sites, Kinds.SITE, line, file);
        synchronized (sites) {
            if (site >= places.length) places = java.util.Arrays.copyOf(places, 2 * site);
            places[site] = Places.of(file, line);
        }
        return site;
    }

    /** The place of a site, which is the same in each run; 0 without one. */
    static long place(int site) { return site > 0 && site < places.length ? places[site] : 0; }

    static String textOf(int site) {
        synchronized (sites) {
            for (Map.Entry<String, Integer> one : sites.entrySet()) if (one.getValue() == site) return nameOf(one.getKey());
        }
        return "?";
    }

    /** `File.java:LINE` of the key of a site, which begins with the line. */
    private static String nameOf(String key) {
        int end = 0;
        while (end < key.length() && Character.isDigit(key.charAt(end))) end++;
        String line = key.substring(0, end), file = key.substring(Math.max(end, key.lastIndexOf('/') + 1));
        return line.equals("0") ? file : file + ":" + line;
    }

    static String fieldName(int field) {
        synchronized (fields) {
            for (Map.Entry<String, Integer> one : fields.entrySet())
                if (one.getValue() == field) return one.getKey().substring(1);
        }
        return null;
    }

    static int method(String name) { return number(methods, Kinds.METHOD, 0, name); }

    /** A field, `package.Class.field`. */
    static int field(String inClass, String name) {
        return number(fields, Kinds.FIELD, 0, inClass.replace('/', '.') + "." + name);
    }

    /** The making of a class, as a field that has no name. */
    static int making(String inClass) { return field(inClass, ""); }

    static boolean isLibrary(String name) {
        return name.startsWith("java/") || name.startsWith("javax/") || name.startsWith("jdk/") || name.startsWith("sun/")
                || name.startsWith("com/sun/") || name.startsWith("planecarmine/") || name.startsWith("[");
    }

    static Info info(ClassLoader loader, String name) {
        Object key = loader == null ? Classes.class : loader;
        synchronized (infos) {
            Info known = infos.computeIfAbsent(key, k -> new HashMap<>()).get(name);
            if (known != null) return known == NONE ? null : known;
        }
        Info made = NONE;
        String file = name + ".class";
        try (InputStream in = loader == null ? ClassLoader.getSystemResourceAsStream(file) : loader.getResourceAsStream(file)) {
            if (in != null) made = infoOf(new ClassReader(in));
        } catch (Exception e) {
            made = NONE;
        }
        keep(loader, name, made);
        return made == NONE ? null : made;
    }

    static void keep(ClassLoader loader, String name, Info info) {
        synchronized (infos) {
            infos.computeIfAbsent(loader == null ? Classes.class : loader, k -> new HashMap<>()).put(name, info);
        }
    }

    static Info infoOf(ClassReader reader) {
        Info info = new Info();
        info.name = reader.getClassName();
        info.superName = reader.getSuperName();
        info.interfaces = reader.getInterfaces();
        info.isInterface = (reader.getAccess() & Opcodes.ACC_INTERFACE) != 0;
        reader.accept(new ClassVisitor(Opcodes.ASM9) {
            @Override public FieldVisitor visitField(int access, String n, String d, String s, Object v) {
                info.fields.put(n, access);
                return null;
            }
            @Override public MethodVisitor visitMethod(int access, String n, String d, String s, String[] e) {
                Body body = new Body();
                info.methods.put(n + d, body);
                if (n.equals("<clinit>")) info.hasMaking = true;
                return new Scan(body);
            }
        }, ClassReader.SKIP_FRAMES);
        return info;
    }

    /** Looks through a method. */
    private static final class Scan extends MethodVisitor {
        private final Body body;

        Scan(Body body) {
            super(Opcodes.ASM9);
            this.body = body;
        }

        @Override public void visitLineNumber(int line, Label start) {
            if (body.firstLine == 0) body.firstLine = line;
        }
        @Override public void visitFieldInsn(int opcode, String owner, String n, String d) { body.acts = true; }
        @Override public void visitMethodInsn(int o, String owner, String n, String d, boolean i) { body.acts = true; }
        @Override public void visitTypeInsn(int opcode, String type) { body.acts |= opcode == Opcodes.NEW; }
        @Override public void visitIntInsn(int opcode, int operand) { body.acts |= opcode == Opcodes.NEWARRAY; }
        @Override public void visitMultiANewArrayInsn(String d, int n) { body.acts = true; }
        @Override public void visitInvokeDynamicInsn(String n, String d, org.objectweb.asm.Handle h, Object... a) {
            body.acts = true;
        }
        @Override public void visitInsn(int opcode) {
            body.acts |= opcode >= Opcodes.IALOAD && opcode <= Opcodes.SALOAD
                    || opcode >= Opcodes.IASTORE && opcode <= Opcodes.SASTORE
                    || opcode == Opcodes.MONITORENTER || opcode == Opcodes.MONITOREXIT;
        }
        @Override public void visitMaxs(int stack, int locals) { body.locals = locals; }
    }

    /** The class that declares a field, which is looked for as the JVM does; null if it is of the library or unknown. */
    static Info declaring(ClassLoader loader, String owner, String field) {
        ArrayDeque<String> left = new ArrayDeque<>();
        Set<String> seen = new HashSet<>();
        left.add(owner);
        while (!left.isEmpty()) {
            String at = left.poll();
            if (isLibrary(at) || !seen.add(at)) continue;
            Info info = info(loader, at);
            if (info == null) continue;
            if (info.fields.containsKey(field)) return info;
            for (String one : info.interfaces) left.add(one);
            if (info.superName != null) left.add(info.superName);
        }
        return null;
    }

    /** The class of the library that has the method which a call on `owner` reaches; null if the program has it. */
    static String libraryOwner(ClassLoader loader, String owner, String method) {
        String inInterface = null;
        for (String at = owner; at != null;) {
            if (isLibrary(at)) return at.equals("java/lang/Object") && inInterface != null ? inInterface : at;
            Info i = info(loader, at);
            if (i == null || i.methods.containsKey(method)) return null;
            for (String one : i.interfaces) if (isLibrary(one)) inInterface = one;
            at = i.superName;
        }
        return inInterface;
    }

    /** Whether a class is, or comes from, a class of the library. */
    static boolean comesFrom(ClassLoader loader, String name, String ancestor) {
        for (String at = name; at != null;) {
            if (at.equals(ancestor)) return true;
            if (isLibrary(at)) return at.equals("java/util/concurrent/RecursiveTask") && ancestor.endsWith("/ForkJoinTask")
                    || at.equals("java/util/concurrent/RecursiveAction") && ancestor.endsWith("/ForkJoinTask")
                    || at.equals("java/util/concurrent/CountedCompleter") && ancestor.endsWith("/ForkJoinTask");
            Info i = info(loader, at);
            at = i == null ? null : i.superName;
        }
        return false;
    }
}
