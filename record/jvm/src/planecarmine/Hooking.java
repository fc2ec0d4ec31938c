package planecarmine;

import static org.objectweb.asm.Opcodes.*;

import java.util.LinkedHashMap;
import java.util.Map;
import java.util.Set;
import org.objectweb.asm.ClassVisitor;
import org.objectweb.asm.Label;
import org.objectweb.asm.MethodVisitor;
import org.objectweb.asm.Type;

/** A class with the hooks: before each access, around each monitor, and by a bridge around calls of the library. */
final class Hooking extends ClassVisitor {
    static final String REC = "planecarmine/Rec";
    final ClassLoader loader;
    final String name, shown;
    final Classes.Info info;
    int version;
    boolean isInterface;
    private final Set<String> large;
    private String source;
    private final Map<String, BridgeMethod> bridges = new LinkedHashMap<>();
    private final Map<String, Runnable> references = new LinkedHashMap<>();

    Hooking(ClassVisitor to, ClassLoader loader, Classes.Info info, Set<String> large) {
        super(ASM9, to);
        this.loader = loader;
        this.info = info;
        this.large = large;
        this.name = info.name;
        this.shown = name.substring(name.lastIndexOf('/') + 1);
        this.source = folder() + shown + ".class";
    }

    private String folder() { return name.substring(0, name.lastIndexOf('/') + 1); }

    /** The number of a line of this class, and of a method. */
    int site(int line) { return Classes.site(source, line); }
    int method(String n) { return Classes.method(name.replace('/', '.') + "." + n); }

    @Override
    public void visit(int v, int access, String n, String s, String superName, String[] interfaces) {
        version = v & 0xffff;
        isInterface = (access & ACC_INTERFACE) != 0;
        super.visit(v, access, n, s, superName, interfaces);
    }

    @Override
    public void visitSource(String file, String debug) {
        if (file != null) source = folder() + file;
        super.visitSource(file, debug);
    }

    @Override
    public MethodVisitor visitMethod(int access, String n, String d, String s, String[] e) {
        MethodVisitor to;
        if ((access & (ACC_ABSTRACT | ACC_NATIVE)) != 0 || large.contains(n + d)) return super.visitMethod(access, n, d, s, e);
        Classes.Body about = info.methods.get(n + d);
        boolean isHeld = (access & ACC_SYNCHRONIZED) != 0 && !((access & ACC_STATIC) != 0 && version < 49);
        if (!isHeld) {
            to = super.visitMethod(access, n, d, s, e);
            return new MethodBody(this, to, access, n, d, about.acts ? about.locals : -1);
        }
        heldMethod(access & ~ACC_SYNCHRONIZED, n, d, s, e);
        int inner = access & ~(ACC_SYNCHRONIZED | ACC_PUBLIC | ACC_PROTECTED | ACC_BRIDGE | ACC_FINAL) | ACC_PRIVATE | synthetic();
        to = super.visitMethod(inner, n + "$held", d, s, e);
        return new MethodBody(this, to, inner, n, d, -1);
    }

    int synthetic() { return version >= 49 ? ACC_SYNTHETIC : 0; }

    /** A synchronized method becomes one that takes the monitor and calls the rest. */
    private void heldMethod(int access, String n, String d, String s, String[] e) {
        boolean isStatic = (access & ACC_STATIC) != 0;
        int size = (Type.getArgumentsAndReturnSizes(d) >> 2) - (isStatic ? 1 : 0), line = info.methods.get(n + d).firstLine;
        MethodBody m = new MethodBody(this, super.visitMethod(access, n, d, s, e), access, n, d, size);
        Label first = new Label(), begin = new Label(), end = new Label(), thrown = new Label();
        m.visitCode();
        m.visitLabel(first);
        if (line > 0) m.visitLineNumber(line, first);
        m.visitTryCatchBlock(begin, end, thrown, null);
        monitor(m, isStatic, MONITORENTER);
        m.visitLabel(begin);
        arguments(m, isStatic ? null : name, d);
        m.call(isStatic ? INVOKESTATIC : INVOKESPECIAL, name, n + "$held", d, isInterface);
        m.visitLabel(end);
        monitor(m, isStatic, MONITOREXIT);
        m.visitInsn(Type.getReturnType(d).getOpcode(IRETURN));
        m.visitLabel(thrown);
        Object[] locals = locals(isStatic ? null : name, d);
        if (version >= 50) m.visitFrame(F_NEW, locals.length, locals, 1, new Object[] {"java/lang/Throwable"});
        monitor(m, isStatic, MONITOREXIT);
        m.visitInsn(ATHROW);
        m.visitMaxs(0, 0);
        m.visitEnd();
    }

    private void monitor(MethodBody m, boolean isStatic, int does) {
        if (isStatic) m.visitLdcInsn(Type.getObjectType(name));
        else m.visitVarInsn(ALOAD, 0);
        m.visitInsn(does);
    }

    /** Puts the arguments of a method on the stack; the local variable after them. */
    static int arguments(MethodVisitor m, String receiver, String d) {
        int at = 0;
        if (receiver != null) m.visitVarInsn(ALOAD, at++);
        for (Type t : Type.getArgumentTypes(d)) {
            m.visitVarInsn(t.getOpcode(ILOAD), at);
            at += t.getSize();
        }
        return at;
    }

    /** The types of the local variables that a method begins with. */
    static Object[] locals(String receiver, String d) {
        Type[] types = Type.getArgumentTypes(d);
        Object[] locals = new Object[types.length + (receiver == null ? 0 : 1)];
        int at = 0;
        if (receiver != null) locals[at++] = receiver;
        for (Type t : types) locals[at++] = frameType(t);
        return locals;
    }

    private static Object frameType(Type t) {
        switch (t.getSort()) {
            case Type.LONG: return LONG;
            case Type.DOUBLE: return DOUBLE;
            case Type.FLOAT: return FLOAT;
            case Type.OBJECT: case Type.ARRAY: return t.getInternalName();
            default: return INTEGER;
        }
    }

    // ---- bridges, and methods that replace references

    /** The bridge for a method of the library. */
    BridgeMethod bridge(int opcode, String owner, String n, String d, boolean itf) {
        String key = opcode + " " + owner + "." + n + d;
        BridgeMethod known = bridges.get(key);
        if (known == null) {
            known = new BridgeMethod(this, bridges.size(), opcode, owner, n, d, itf);
            bridges.put(key, known);
        }
        return known;
    }

    /** The name of a method that makes the call of a reference such as `latch::countDown`. */
    String reference(int opcode, String owner, String n, String d, boolean itf, int line) {
        String made = "rec$reference$" + references.size();
        String whole = BridgeMethod.withReceiver(opcode, owner, d);
        references.put(made, () -> {
            int access = ACC_STATIC | (isInterface ? ACC_PUBLIC : ACC_PRIVATE) | synthetic();
            MethodBody m = new MethodBody(this, super.visitMethod(access, made, whole, null, null), access, n, whole, -1);
            m.visitCode();
            Label first = new Label();
            m.visitLabel(first);
            if (line > 0) m.visitLineNumber(line, first);
            arguments(m, null, whole);
            m.visitMethodInsn(opcode, owner, n, d, itf);
            m.visitInsn(Type.getReturnType(d).getOpcode(IRETURN));
            m.visitMaxs(0, 0);
            m.visitEnd();
        });
        return made;
    }

    MethodVisitor plainMethod(int access, String n, String d) { return super.visitMethod(access, n, d, null, null); }

    @Override
    public void visitEnd() {
        for (Runnable one : references.values()) one.run();
        for (BridgeMethod one : bridges.values()) one.make();
        super.visitEnd();
    }
}
