package planecarmine;

import static org.objectweb.asm.Opcodes.*;

import java.util.Set;
import org.objectweb.asm.Label;
import org.objectweb.asm.MethodVisitor;
import org.objectweb.asm.Type;

/** The method of a class that calls a method of the library with the hooks around it. Its last argument is the site. */
final class BridgeMethod {
    private static final String BRIDGE = "planecarmine/Bridge", CALL = "Lplanecarmine/Bridge$Call;";
    private static final Set<String> WORK = Set.of("Ljava/lang/Runnable;", "Ljava/util/concurrent/Callable;",
            "Ljava/util/function/Supplier;", "Ljava/util/function/Function;", "Ljava/util/function/Consumer;",
            "Ljava/util/function/BiFunction;", "Ljava/util/function/BiConsumer;");
    /** The methods of java.util.Arrays that go over the elements of their first argument. */
    private static final Set<String> OVER = Set.of("fill", "sort", "parallelSort", "copyOf", "copyOfRange", "equals",
            "hashCode", "toString", "stream", "binarySearch");
    private final Hooking in;
    private final int opcode;
    private final String owner, method, desc;
    private final boolean itf, isStatic;
    final String name, made;
    private final Type[] types;
    private final Type result;
    private int site, call;

    BridgeMethod(Hooking in, int number, int opcode, String owner, String n, String d, boolean itf) {
        this.in = in;
        this.opcode = opcode;
        this.owner = owner;
        this.method = n;
        this.desc = d;
        this.itf = itf;
        isStatic = opcode == INVOKESTATIC;
        name = "rec$" + number + "$" + n;
        String whole = withReceiver(opcode, opcode == INVOKESPECIAL ? in.name : owner, d);
        made = whole.replace(")", "I)");
        types = Type.getArgumentTypes(d);
        result = Type.getReturnType(d);
    }

    /** The descriptor of a static method that gets the receiver as its first argument. */
    static String withReceiver(int opcode, String owner, String d) {
        return opcode == INVOKESTATIC ? d : "(" + (owner.startsWith("[") ? owner : "L" + owner + ";") + d.substring(1);
    }

    void make() {
        int access = ACC_STATIC | (in.isInterface ? ACC_PUBLIC : ACC_PRIVATE) | in.synthetic();
        MethodVisitor m = in.plainMethod(access, name, made);
        site = isStatic ? 0 : 1;
        for (Type t : types) site += t.getSize();
        call = site + 1;
        Label begin = new Label(), end = new Label(), thrown = new Label();
        m.visitCode();
        m.visitTryCatchBlock(begin, end, thrown, null);
        before(m);
        m.visitLabel(begin);
        pushArguments(m);
        m.visitMethodInsn(opcode, owner, method, desc, itf);
        m.visitLabel(end);
        after(m);
        if (asksWhoWaits()) answer(m);
        m.visitInsn(result.getOpcode(IRETURN));
        m.visitLabel(thrown);
        threw(m);
        m.visitMaxs(0, 0);
        m.visitEnd();
    }

    private void before(MethodVisitor m) {
        if (owner.equals("java/util/Arrays") && OVER.contains(method)) elements(m);
        if (!isStatic) m.visitVarInsn(ALOAD, 0);
        else if (in.version >= 49) m.visitLdcInsn(Type.getObjectType(owner));
        else m.visitInsn(ACONST_NULL);
        boolean passes = passesArguments();
        if (passes) allArguments(m);
        m.visitLdcInsn(method + (isTimed() ? " for" : ""));
        m.visitVarInsn(ILOAD, site);
        String d = "(Ljava/lang/Object;" + (passes ? "[Ljava/lang/Object;" : "") + "Ljava/lang/String;I)" + CALL;
        m.visitMethodInsn(INVOKESTATIC, BRIDGE, "before", d, false);
        m.visitVarInsn(ASTORE, call);
    }

    private void elements(MethodVisitor m) {
        if (types.length == 0 || types[0].getSort() != Type.ARRAY) return;
        boolean hasRange = types.length > 2 && types[1] == Type.INT_TYPE && types[2] == Type.INT_TYPE;
        m.visitVarInsn(ALOAD, 0);
        if (hasRange) {
            m.visitVarInsn(ILOAD, 1);
            m.visitVarInsn(ILOAD, 2);
        } else {
            m.visitInsn(ICONST_0);
            m.visitLdcInsn(Integer.MAX_VALUE);
        }
        boolean writes = method.equals("fill") || method.endsWith("ort");
        m.visitInsn(writes ? ICONST_1 : ICONST_0);
        m.visitVarInsn(ILOAD, site);
        m.visitMethodInsn(INVOKESTATIC, Hooking.REC, "elements", "(Ljava/lang/Object;IIZI)V", false);
    }

    private boolean isTimed() { return desc.contains("Ljava/util/concurrent/TimeUnit;"); }

    private boolean asksWhoWaits() { return !isStatic && Bridge.ASK_WHO_WAITS.contains(method); }

    /** The answer is one of the recorder too. */
    private void answer(MethodVisitor m) {
        m.visitVarInsn(ALOAD, call);
        String d = result.getDescriptor();
        m.visitMethodInsn(INVOKESTATIC, BRIDGE, "answer", "(" + d + CALL + ")" + d, false);
    }

    /** Whether the recorder looks at the arguments of this call. */
    private boolean passesArguments() {
        boolean looks = isStatic || owner.startsWith("java/util/concurrent/") || owner.startsWith("java/lang/invoke/");
        if (!looks && !asksWhoWaits() || owner.contains("/Concurrent")) return false;
        for (Type t : types) if (t.getSort() >= Type.ARRAY) return true;
        return false;
    }

    private void allArguments(MethodVisitor m) {
        m.visitLdcInsn(types.length);
        m.visitTypeInsn(ANEWARRAY, "java/lang/Object");
        int at = isStatic ? 0 : 1;
        for (int k = 0; k < types.length; k++) {
            boolean isTime = types[k] == Type.LONG_TYPE && isTimed();
            if (types[k].getSort() >= Type.ARRAY || isTime) {
                m.visitInsn(DUP);
                m.visitLdcInsn(k);
                m.visitVarInsn(types[k].getOpcode(ILOAD), at);
                if (isTime) m.visitMethodInsn(INVOKESTATIC, "java/lang/Long", "valueOf", "(J)Ljava/lang/Long;", false);
                m.visitInsn(AASTORE);
            }
            at += types[k].getSize();
        }
    }

    private boolean givesWork() {
        return owner.startsWith("java/util/concurrent/") && !owner.contains("Concurrent") && !owner.contains("CopyOnWrite")
                && !owner.contains("atomic") && !method.equals("remove");
    }

    private void pushArguments(MethodVisitor m) {
        int at = 0;
        if (!isStatic) m.visitVarInsn(ALOAD, at++);
        for (Type t : types) {
            boolean isWork = givesWork() && WORK.contains(t.getDescriptor());
            if (isWork) m.visitVarInsn(ALOAD, call);
            m.visitVarInsn(t.getOpcode(ILOAD), at);
            if (isWork) {
                String wrap = t.getDescriptor().contains("/Bi") ? "wrapOfTwo" : "wrap";
                m.visitMethodInsn(INVOKESTATIC, BRIDGE, wrap, "(" + CALL + "Ljava/lang/Object;)Ljava/lang/Object;", false);
                m.visitTypeInsn(CHECKCAST, t.getInternalName());
            }
            at += t.getSize();
        }
    }

    /** Hands over the call, the result if it is an object, and whether it is true. */
    private void after(MethodVisitor m) {
        int sort = result.getSort();
        if (sort == Type.BOOLEAN) {
            m.visitInsn(DUP);
            m.visitVarInsn(ALOAD, call);
            m.visitInsn(SWAP);
            m.visitInsn(ACONST_NULL);
            m.visitInsn(SWAP);
        } else if (sort == Type.LONG) {
            m.visitInsn(DUP2);
            m.visitInsn(LCONST_0);
            m.visitInsn(LCMP);
            m.visitVarInsn(ALOAD, call);
            m.visitInsn(SWAP);
            m.visitInsn(ACONST_NULL);
            m.visitInsn(SWAP);
        } else if (sort == Type.OBJECT || sort == Type.ARRAY) {
            m.visitInsn(DUP);
            m.visitVarInsn(ALOAD, call);
            m.visitInsn(SWAP);
            m.visitInsn(ICONST_1);
        } else {
            m.visitVarInsn(ALOAD, call);
            m.visitInsn(ACONST_NULL);
            m.visitInsn(ICONST_1);
        }
        String d = "(" + CALL + "Ljava/lang/Object;" + (sort == Type.LONG ? "I" : "Z") + ")V";
        m.visitMethodInsn(INVOKESTATIC, BRIDGE, "after", d, false);
    }

    private void threw(MethodVisitor m) {
        if (in.version >= 50) {
            Object[] arguments = Hooking.locals(null, made), locals = java.util.Arrays.copyOf(arguments, arguments.length + 1);
            locals[arguments.length] = "planecarmine/Bridge$Call";
            m.visitFrame(F_NEW, locals.length, locals, 1, new Object[] {"java/lang/Throwable"});
        }
        m.visitInsn(DUP);
        m.visitVarInsn(ALOAD, call);
        m.visitInsn(SWAP);
        m.visitMethodInsn(INVOKESTATIC, BRIDGE, "threw", "(" + CALL + "Ljava/lang/Throwable;)V", false);
        m.visitInsn(ATHROW);
    }
}
