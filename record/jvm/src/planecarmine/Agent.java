package planecarmine;

import java.io.File;
import java.io.IOException;
import java.lang.instrument.ClassFileTransformer;
import java.lang.instrument.Instrumentation;
import java.lang.reflect.Field;
import java.nio.file.Files;
import java.security.ProtectionDomain;
import java.util.ArrayList;
import java.util.HashSet;
import java.util.List;
import java.util.Map;
import java.util.Set;
import org.objectweb.asm.ClassReader;
import org.objectweb.asm.ClassWriter;
import org.objectweb.asm.MethodTooLargeException;

/** -javaagent:planecarmine.jar=out=FILE,seed=N,yield=N,..: puts the hooks in as classes are loaded. */
public final class Agent implements ClassFileTransformer {
    /** The version of Java that this was made for. */
    private static final int JAVA = 17;
    private static Field target;
    private static final Set<Thread> unknown = new HashSet<>();
    private static double seconds;
    /** What makes the trace as the program ends; null if record/java does. */
    private static AtEnd atEnd;

    public static void premain(String options, Instrumentation by) {
        try {
            int version = Runtime.version().feature();
            if (version != JAVA) throw new Refused("Java " + JAVA + " is needed, and this is Java " + version);
            begin(options == null ? "" : options, by);
        } catch (Refused | IOException | ReflectiveOperationException e) {
            System.err.println("planecarmine: " + (e.getMessage() == null ? e.toString() : e.getMessage()));
            Runtime.getRuntime().halt(2);
        } catch (java.lang.instrument.UnmodifiableClassException e) {
            System.err.println("planecarmine: this JVM does not let java.lang.Thread have hooks");
            Runtime.getRuntime().halt(2);
        }
    }

    /** An option that is wrong. */
    static final class Refused extends Exception {
        private static final long serialVersionUID = 1;

        Refused(String why) { super(why); }
    }

    private static void begin(String options, Instrumentation by) throws Refused, IOException, ReflectiveOperationException,
            java.lang.instrument.UnmodifiableClassException {
        Options given = new Options(options);
        Store.open(given.raw, given.room);
        Turns.chance = given.seed * 0x9e3779b97f4a7c15L ^ 0x5851f42d4c957f2dL;
        if (Turns.chance == 0) Turns.chance = 1;
        Turns.oneIn = given.oneIn;
        seconds = given.seconds;
        Module base = Thread.class.getModule(), own = Agent.class.getModule();
        by.redefineModule(base, Set.of(), Map.of(), Map.of("java.lang", Set.of(own)), Set.of(), Map.of());
        target = Thread.class.getDeclaredField("target");
        target.setAccessible(true);
        Table.load();
        loadOwn();
        by.addTransformer(new Agent(), true);
        by.retransformClasses(LibraryHooks.classes());
        if (given.out != null) Runtime.getRuntime().addShutdownHook(atEnd = new AtEnd(given));
        Follow.begin(given);
        Turns.T main = Turns.register(Thread.currentThread(), Follow.on ? 0 : -1);
        Turns.holder = main;
        main.go = true;
        Turns.on = true;
        new Watcher().start();
    }

    /** What the hooks call is loaded before a hook calls it. */
    private static void loadOwn() throws ClassNotFoundException {
        for (String name : new String[] {"Rec", "Things", "Things$Thing", "Calls", "Calls$Cache", "Store", "Turns",
            "Turns$T", "Bridge", "Bridge$Call", "Work", "Work$Job",
            "Work$JobOfOne", "Work$JobOfTwo", "Locking", "Row", "Rows", "Follow", "Plan", "Places", "Standing", "Deadlock",
            "Agent$Timer"})
            Class.forName("planecarmine." + name).getDeclaredMethods();
    }

    /** The program starts a thread. With `--for`, records are kept so long from the first such start on. */
    static void started() {
        if (seconds <= 0) return;
        new Timer(seconds).start();
        seconds = 0;
    }

    /** Ends the recording after some seconds. */
    static final class Timer extends Thread {
        private final double seconds;

        Timer(double seconds) {
            super("planecarmine timer");
            this.seconds = seconds;
            setDaemon(true);
        }

        @Override
        public void run() {
            try {
                Thread.sleep((long) (1000 * seconds));
            } catch (InterruptedException e) {
                return;
            }
            Store.stop("FOR");
        }
    }

    /** Without record/java the trace is made as the program ends. */
    static final class AtEnd extends Thread {
        private final Options given;

        AtEnd(Options given) {
            super("planecarmine end");
            this.given = given;
        }

        @Override
        public void run() {
            Turns.stop();
            make();
        }

        private void make() {
            List<String> words = new ArrayList<>(List.of("--out", given.out, given.raw));
            int status = Decode.decode(words.toArray(new String[0]));
            if (status == 0 && !new File(given.raw).delete()) System.err.println("planecarmine: " + given.raw + " stays");
        }
    }

    /** Ends the program, in which nothing goes on. */
    static void end(int status) {
        if (atEnd != null) atEnd.make();
        Runtime.getRuntime().halt(status);
    }

    /** A thread came to a hook that the program did not start. */
    static void isUnknown(Thread thread) {
        synchronized (unknown) {
            if (unknown.add(thread)) Store.name(Kinds.UNKNOWN_THREAD, 0, 0, 0, thread.getName());
        }
    }

    /** Whether what a thread runs has hooks. */
    static boolean runsProgram(Thread child) {
        try {
            Object work = target.get(child);
            Class<?> c = work == null ? child.getClass() : work.getClass();
            return c.getClassLoader() != null;
        } catch (IllegalAccessException e) {
            return false;
        }
    }

    @Override
    public byte[] transform(ClassLoader loader, String name, Class<?> redefined, ProtectionDomain domain, byte[] code) {
        if (name == null || name.startsWith("planecarmine/")) return null;
        try {
            if (LibraryHooks.has(name)) return LibraryHooks.hooked(name, code);
            if (loader == null || Classes.isLibrary(name) || redefined != null) return null;
            if (loader == ClassLoader.getPlatformClassLoader()) return null;
            note(loader, name, domain, code);
            byte[] made = hooked(loader, name, code);
            String keep = System.getProperty("planecarmine.keep");
            if (keep != null) Files.write(java.nio.file.Path.of(keep, name.replace('/', '.') + ".class"), made);
            return made;
        } catch (Throwable e) {
            Store.name(Kinds.NO_HOOKS, 0, 0, 0, name.replace('/', '.') + ": " + e);
            if (System.getProperty("planecarmine.debug") != null) e.printStackTrace();
            return null;
        }
    }

    /** Notes which file a class is of. A followed run ends if the recording had another one. */
    private static void note(ClassLoader loader, String name, ProtectionDomain domain, byte[] code) {
        if (domain == null || domain.getCodeSource() == null || domain.getCodeSource().getLocation() == null) return;
        String digest = Long.toHexString(Places.digest(code));
        Store.name(Kinds.LOADED, 0, 0, 0, name + " " + digest);
        if (Follow.isRecorded(name, digest) || loader.getResource(name + ".class") == null) return;
        Store.name(Kinds.FACT, 0, 0, 0, "other " + name.replace('/', '.'));
        Runtime.getRuntime().halt(1);
    }

    /** The class with the hooks. A method that gets too large has none. */
    private static byte[] hooked(ClassLoader loader, String name, byte[] code) {
        ClassReader reader = new ClassReader(code);
        Classes.Info info = Classes.infoOf(reader);
        Classes.keep(loader, name, info);
        Set<String> large = new HashSet<>();
        while (true) {
            ClassWriter writer = new ClassWriter(ClassWriter.COMPUTE_MAXS);
            try {
                reader.accept(new Hooking(writer, loader, info, large), ClassReader.EXPAND_FRAMES);
                return writer.toByteArray();
            } catch (MethodTooLargeException e) {
                String method = e.getMethodName().replace("$held", "") + e.getDescriptor();
                if (!large.add(method)) throw e;
                Store.name(Kinds.NO_HOOKS, 0, 0, 0, name.replace('/', '.') + "." + e.getMethodName() + ": too large");
            }
        }
    }
}
