package planecarmine;

import java.io.File;
import java.io.IOException;
import java.lang.instrument.Instrumentation;
import java.net.URISyntaxException;
import java.util.jar.JarFile;

/** Where the JVM begins the agent. All its classes come by the JVM's own loader, since the library calls them too. The
 * jar names itself for that, and if it has another name, it is added here. */
public final class Premain {
    private Premain() { }

    public static void premain(String options, Instrumentation by) throws IOException, URISyntaxException {
        if (Premain.class.getClassLoader() != null) {
            File jar = new File(Premain.class.getProtectionDomain().getCodeSource().getLocation().toURI());
            by.appendToBootstrapClassLoaderSearch(new JarFile(jar));
        }
        Agent.premain(options, by);
    }
}
