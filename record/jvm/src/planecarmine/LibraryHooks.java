package planecarmine;

import java.util.Map;
import org.objectweb.asm.ClassReader;
import org.objectweb.asm.ClassVisitor;
import org.objectweb.asm.ClassWriter;
import org.objectweb.asm.MethodVisitor;
import org.objectweb.asm.Opcodes;

/** The hooks in classes of the library itself: each thread begins by `start` and ends by `exit`, also those of pools. */
final class LibraryHooks {
    private LibraryHooks() { }

    /** The methods without arguments or result, and the hook at the beginning of each. */
    private static final Map<String, String> HOOKS = Map.of("start", "starts", "exit", "exits", "interrupt", "interrupts");

    static Class<?>[] classes() { return new Class<?>[] {Thread.class}; }

    static boolean has(String name) { return name.equals("java/lang/Thread"); }

    static byte[] hooked(String name, byte[] code) {
        ClassReader reader = new ClassReader(code);
        ClassWriter writer = new ClassWriter(ClassWriter.COMPUTE_MAXS);
        reader.accept(new ClassVisitor(Opcodes.ASM9, writer) {
            @Override
            public MethodVisitor visitMethod(int access, String n, String d, String s, String[] e) {
                MethodVisitor to = super.visitMethod(access, n, d, s, e);
                String hook = d.equals("()V") ? HOOKS.get(n) : null;
                return hook == null ? to : new Beginning(to, hook);
            }
        }, 0);
        return writer.toByteArray();
    }

    private static final class Beginning extends MethodVisitor {
        private final String hook;

        Beginning(MethodVisitor to, String hook) {
            super(Opcodes.ASM9, to);
            this.hook = hook;
        }

        @Override
        public void visitCode() {
            super.visitCode();
            super.visitVarInsn(Opcodes.ALOAD, 0);
            super.visitMethodInsn(Opcodes.INVOKESTATIC, "planecarmine/Rec", hook, "(Ljava/lang/Thread;)V", false);
        }
    }
}
