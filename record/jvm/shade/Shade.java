import java.io.IOException;
import java.io.InputStream;
import java.io.OutputStream;
import java.nio.file.Files;
import java.nio.file.Path;
import java.util.TreeMap;
import java.util.jar.Attributes;
import java.util.jar.JarEntry;
import java.util.jar.JarFile;
import java.util.jar.JarOutputStream;
import java.util.jar.Manifest;
import java.util.stream.Stream;
import org.objectweb.asm.ClassReader;
import org.objectweb.asm.ClassWriter;
import org.objectweb.asm.commons.ClassRemapper;
import org.objectweb.asm.commons.Remapper;

/** Shade OUT.jar CLASSES ASM.jar TABLE NAMES: makes the jar of the agent, which may have any of the NAMES.
 *
 * ASM gets names of the agent in it, so a program that has an ASM itself keeps that. */
public final class Shade {
    private static final String ASM = "org/objectweb/asm/", OWN = "planecarmine/asm/";
    private static final long TIME = 946684800000L;

    private static final Remapper NAMES = new Remapper() {
        @Override
        public String map(String name) { return name.startsWith(ASM) ? OWN + name.substring(ASM.length()) : name; }
    };

    private static byte[] renamed(byte[] code) {
        ClassWriter writer = new ClassWriter(0);
        new ClassReader(code).accept(new ClassRemapper(writer, NAMES), 0);
        return writer.toByteArray();
    }

    private static TreeMap<String, byte[]> entries(Path classes, String asm, Path table) throws IOException {
        TreeMap<String, byte[]> all = new TreeMap<>();
        try (Stream<Path> files = Files.walk(classes)) {
            for (Path file : (Iterable<Path>) files.filter(f -> f.toString().endsWith(".class"))::iterator)
                all.put(classes.relativize(file).toString(), renamed(Files.readAllBytes(file)));
        }
        try (JarFile jar = new JarFile(asm)) {
            for (JarEntry entry : (Iterable<JarEntry>) jar.stream()::iterator) {
                String name = entry.getName();
                if (!name.startsWith(ASM) || !name.endsWith(".class") || name.indexOf('/', ASM.length()) >= 0
                        && !name.startsWith(ASM + "signature/")) continue;
                try (InputStream in = jar.getInputStream(entry)) {
                    all.put(NAMES.map(name), renamed(in.readAllBytes()));
                }
            }
        }
        all.put("planecarmine/library.txt", Files.readAllBytes(table));
        return all;
    }

    public static void main(String[] words) throws IOException {
        Manifest manifest = new Manifest();
        Attributes main = manifest.getMainAttributes();
        main.put(Attributes.Name.MANIFEST_VERSION, "1.0");
        main.putValue("Premain-Class", "planecarmine.Premain");
        main.putValue("Boot-Class-Path", words[4]);
        main.putValue("Can-Retransform-Classes", "true");
        main.putValue("Can-Redefine-Classes", "true");
        try (OutputStream file = Files.newOutputStream(Path.of(words[0])); JarOutputStream jar = new JarOutputStream(file)) {
            put(jar, JarFile.MANIFEST_NAME, null, manifest);
            for (var one : entries(Path.of(words[1]), words[2], Path.of(words[3])).entrySet())
                put(jar, one.getKey(), one.getValue(), null);
        }
    }

    private static void put(JarOutputStream jar, String name, byte[] bytes, Manifest manifest) throws IOException {
        JarEntry entry = new JarEntry(name);
        entry.setTime(TIME);
        jar.putNextEntry(entry);
        if (manifest != null) manifest.write(jar);
        else jar.write(bytes);
        jar.closeEntry();
    }
}
