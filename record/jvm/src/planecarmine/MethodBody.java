package planecarmine;

import static org.objectweb.asm.Opcodes.*;

import java.util.Arrays;
import java.util.Map;
import org.objectweb.asm.Handle;
import org.objectweb.asm.Label;
import org.objectweb.asm.MethodVisitor;
import org.objectweb.asm.Type;

/** A method with the hooks. */
final class MethodBody extends MethodVisitor {
    private static final String OF_OBJECT = "(Ljava/lang/Object;I)V", OF_FIELD = "(Ljava/lang/Object;II)V";
    /** Calls of the library that a hook replaces: the owner, the methods, and the name of the hook if it is another. */
    private static final Map<String, String> REPLACED = Map.of(
            "java/lang/Thread", " join isAlive getState isInterrupted interrupted sleep yield onSpinWait ",
            "java/util/concurrent/locks/LockSupport", " park parkNanos parkUntil unpark ",
            "java/util/concurrent/locks/Condition", " await awaitNanos awaitUntil awaitUninterruptibly signal signalAll ",
            "java/lang/System", " arraycopy ");
    /** Types whose calls come into no code of the program. */
    private static final String QUIET = " java/lang/String java/lang/Math java/lang/Integer java/lang/Long java/lang/Boolean"
            + " java/lang/Character java/lang/Double java/lang/Byte java/lang/Short java/lang/Float java/lang/StringBuilder ";
    private final Hooking in;
    private final int access;
    private final String method;
    private final boolean isMaking, isTask;
    /** The local variable that keeps the node of the caller, or -1. */
    private final int saved;
    private final Label begin = new Label();
    private int line, pending;
    private boolean hasSuper, isNewOnStack, isDoubled;

    MethodBody(Hooking in, MethodVisitor to, int access, String n, String d, int saved) {
        super(ASM9, to);
        this.in = in;
        this.access = access;
        this.method = n;
        this.saved = saved;
        isMaking = n.equals("<clinit>");
        hasSuper = !n.equals("<init>");
        isTask = (n.equals("compute") || n.equals("exec")) && d.startsWith("()") && (access & ACC_STATIC) == 0
                && Classes.comesFrom(in.loader, in.name, "java/util/concurrent/ForkJoinTask");
    }

    private int site() { return in.site(line); }

    private void hook(String hook, String d) { super.visitMethodInsn(INVOKESTATIC, Hooking.REC, hook, d, false); }

    /** A call as it is. */
    void call(int opcode, String owner, String n, String d, boolean itf) { super.visitMethodInsn(opcode, owner, n, d, itf); }

    @Override
    public void visitLineNumber(int l, Label at) {
        line = l;
        super.visitLineNumber(l, at);
    }

    // ---- the beginning and the end

    @Override
    public void visitCode() {
        super.visitCode();
        if (saved >= 0) {
            super.visitLdcInsn(in.method(method));
            hook("call", "(I)I");
            super.visitVarInsn(ISTORE, saved);
            if (hasSuper) super.visitLabel(begin);
        }
        if (isMaking) hook("making", "()V");
        else if ((access & ACC_STATIC) != 0) usesOwn();
        if (isTask) ofTask("begins");
    }

    private void ofTask(String hook) {
        super.visitVarInsn(ALOAD, 0);
        super.visitLdcInsn(site());
        hook(hook, OF_OBJECT);
    }

    private void usesOwn() {
        if (in.info.hasMaking) uses(in.name);
    }

    private void uses(String owner) {
        super.visitLdcInsn(Classes.making(owner));
        super.visitLdcInsn(site());
        hook("uses", "(II)V");
    }

    private void leave() {
        if (isMaking) {
            super.visitLdcInsn(Classes.making(in.name));
            super.visitLdcInsn(site());
            hook("made", "(II)V");
        }
        if (isTask) ofTask("ends");
        if (saved < 0) return;
        super.visitVarInsn(ILOAD, saved);
        hook("leave", "(I)V");
    }

    /** If the method throws, it leaves too. */
    @Override
    public void visitMaxs(int stack, int locals) {
        if (saved >= 0 && hasSuper) {
            Label end = new Label();
            super.visitLabel(end);
            super.visitTryCatchBlock(begin, end, end, null);
            Object[] types = new Object[saved + 1];
            Arrays.fill(types, TOP);
            types[saved] = INTEGER;
            if (isTask) types[0] = in.name;
            if (in.version >= 50) super.visitFrame(F_NEW, types.length, types, 1, new Object[] {"java/lang/Throwable"});
            leave();
            super.visitInsn(ATHROW);
        }
        super.visitMaxs(stack, locals);
    }

    /** Each frame has the local variable with the caller. */
    @Override
    public void visitFrame(int type, int count, Object[] locals, int stackCount, Object[] stack) {
        if (saved < 0) {
            super.visitFrame(type, count, locals, stackCount, stack);
            return;
        }
        Object[] more = new Object[count + saved + 1];
        int slots = 0, at = 0;
        for (int k = 0; k < count; k++) {
            more[at++] = locals[k];
            slots += locals[k] == LONG || locals[k] == DOUBLE ? 2 : 1;
        }
        for (; slots < saved; slots++) more[at++] = TOP;
        more[at++] = INTEGER;
        super.visitFrame(type, at, more, stackCount, stack);
    }

    // ---- new objects

    @Override
    public void visitTypeInsn(int opcode, String type) {
        super.visitTypeInsn(opcode, type);
        if (opcode == NEW) pending++;
        else if (opcode == ANEWARRAY) allocated("allocated");
    }

    @Override
    public void visitIntInsn(int opcode, int operand) {
        super.visitIntInsn(opcode, operand);
        if (opcode == NEWARRAY) allocated("allocated");
    }

    @Override
    public void visitMultiANewArrayInsn(String d, int dimensions) {
        super.visitMultiANewArrayInsn(d, dimensions);
        allocated("allocatedAll");
    }

    private void allocated(String hook) {
        super.visitInsn(DUP);
        super.visitLdcInsn(site());
        hook(hook, OF_OBJECT);
    }

    private static boolean isNamed(String type) {
        return !Classes.isLibrary(type) || type.equals("java/lang/Object")
                || Table.isBridged(type) && !type.equals("java/lang/StringBuilder");
    }

    // ---- accesses

    @Override
    public void visitFieldInsn(int opcode, String owner, String f, String d) {
        boolean isStatic = opcode == GETSTATIC || opcode == PUTSTATIC;
        Classes.Info of = Classes.declaring(in.loader, owner, f);
        int flags = of == null ? 0 : of.fields.get(f);
        if (of == null || (flags & (ACC_FINAL | ACC_SYNTHETIC)) != 0 || !hasSuper && !isStatic) {
            super.visitFieldInsn(opcode, owner, f, d);
            if (isStatic && of != null && of.hasMaking && !(isMaking && of.name.equals(in.name))) uses(of.name);
            return;
        }
        boolean reads = opcode == GETFIELD || opcode == GETSTATIC;
        String hook = (reads ? "read" : "write") + (isStatic ? "Static" : "") + ((flags & ACC_VOLATILE) != 0 ? "Volatile" : "");
        int field = Classes.field(of.name, f);
        if (isStatic) {
            // A first look makes the class, before the hook.
            super.visitFieldInsn(GETSTATIC, owner, f, d);
            super.visitInsn(d.equals("J") || d.equals("D") ? POP2 : POP);
            super.visitLdcInsn(field);
            super.visitLdcInsn(of.hasMaking ? Classes.making(of.name) : 0);
            super.visitLdcInsn(site());
            hook(hook, "(III)V");
            super.visitFieldInsn(opcode, owner, f, d);
            return;
        }
        copyReceiver(opcode, d);
        super.visitLdcInsn(field);
        super.visitLdcInsn(site());
        hook(hook, OF_FIELD);
        super.visitFieldInsn(opcode, owner, f, d);
    }

    private void copyReceiver(int opcode, String d) {
        if (opcode == GETFIELD) super.visitInsn(DUP);
        else if (d.equals("J") || d.equals("D")) {
            super.visitInsn(DUP2_X1);
            super.visitInsn(POP2);
            super.visitInsn(DUP_X2);
        } else {
            super.visitInsn(DUP2);
            super.visitInsn(POP);
        }
    }

    @Override
    public void visitInsn(int opcode) {
        if (opcode >= IALOAD && opcode <= SALOAD) {
            super.visitInsn(DUP2);
            super.visitLdcInsn(site());
            hook("readElement", OF_FIELD);
        } else if (opcode >= IASTORE && opcode <= SASTORE) {
            boolean wide = opcode == LASTORE || opcode == DASTORE;
            super.visitInsn(wide ? DUP2_X2 : DUP_X2);
            super.visitInsn(wide ? POP2 : POP);
            super.visitInsn(wide ? DUP2_X2 : DUP2_X1);
            super.visitLdcInsn(site());
            hook("writeElement", OF_FIELD);
        } else if (opcode == MONITORENTER || opcode == MONITOREXIT) {
            super.visitInsn(DUP);
            super.visitLdcInsn(site());
            hook(opcode == MONITORENTER ? "enter" : "exit", OF_OBJECT);
        } else if (opcode >= IRETURN && opcode <= RETURN) {
            leave();
        }
        super.visitInsn(opcode);
    }

    // ---- calls

    @Override
    public void visitMethodInsn(int opcode, String owner, String n, String d, boolean itf) {
        if (opcode == INVOKESPECIAL && n.equals("<init>")) made(owner, d);
        else if (isReplaced(opcode, owner, n, d)) return;
        else if (!isBridged(opcode, owner, n, d, itf)) {
            if (!QUIET.contains(" " + owner + " ")) at();
            super.visitMethodInsn(opcode, owner, n, d, itf);
        }
    }

    private void at() {
        super.visitLdcInsn(site());
        hook("at", "(I)V");
    }

    /** A constructor: that of a new object, which javac has twice on the stack, or that of the super class. */
    private void made(String owner, String d) {
        at();
        super.visitMethodInsn(INVOKESPECIAL, owner, "<init>", d, false);
        if (pending > 0) {
            pending--;
            if (isNamed(owner)) allocated("allocated");
        } else if (!hasSuper) {
            hasSuper = true;
            if (saved >= 0) super.visitLabel(begin);
            usesOwn();
        }
    }

    private boolean isReplaced(int opcode, String owner, String n, String d) {
        boolean isVirtual = opcode == INVOKEVIRTUAL || opcode == INVOKEINTERFACE;
        boolean waits = n.equals("wait") && (d.equals("()V") || d.equals("(J)V") || d.equals("(JI)V"));
        if (isVirtual && (waits || (n.equals("notify") || n.equals("notifyAll")) && d.equals("()V"))) {
            super.visitLdcInsn(site());
            hook(waits ? "waitFor" : n, "(Ljava/lang/Object;" + d.substring(1, d.length() - 2) + "I)V");
            return true;
        }
        if (opcode == INVOKESPECIAL) return false;
        String of = isVirtual && Classes.comesFrom(in.loader, owner, "java/lang/Thread") ? "java/lang/Thread" : owner;
        String methods = REPLACED.get(of);
        if (methods == null || !methods.contains(" " + n + " ") || !hasHook(of, n, d)) return false;
        if (isVirtual && !of.equals(owner) && Classes.libraryOwner(in.loader, owner, n + d) == null) return false;
        String receiver = isVirtual ? "L" + of + ";" : "";
        super.visitLdcInsn(site());
        hook(n, "(" + receiver + d.substring(1).replace(")", "I)"));
        return true;
    }

    /** Whether Rec has a hook for this form of a method. */
    private static boolean hasHook(String owner, String n, String d) {
        if (!owner.equals("java/lang/Thread")) return true;
        if (n.equals("join")) return d.equals("()V") || d.equals("(J)V") || d.equals("(JI)V");
        if (n.equals("sleep")) return d.equals("(J)V") || d.equals("(JI)V");
        return true;
    }

    private boolean isBridged(int opcode, String owner, String n, String d, boolean itf) {
        if (n.startsWith("<") || n.equals("getClass") || in.isInterface && in.version < 52) return false;
        if (opcode == INVOKESPECIAL && !Classes.isLibrary(owner) || n.equals("clone")) return false;
        String library = opcode == INVOKESTATIC ? owner : Classes.libraryOwner(in.loader, owner, n + d);
        if (library == null || !Table.isBridged(library)) return false;
        BridgeMethod to = in.bridge(opcode, owner, n, d, itf);
        super.visitLdcInsn(site());
        super.visitMethodInsn(INVOKESTATIC, in.name, to.name, to.made, in.isInterface);
        return true;
    }

    /** A reference to a method of the library, such as `latch::countDown`, becomes one to a method with the hooks. */
    @Override
    public void visitInvokeDynamicInsn(String n, String d, Handle by, Object... arguments) {
        Object[] changed = arguments;
        boolean isLambda = by.getOwner().equals("java/lang/invoke/LambdaMetafactory");
        if (isLambda && arguments.length > 1 && arguments[1] instanceof Handle && in.version >= 52) {
            Handle to = (Handle) arguments[1];
            int opcode = opcodeOf(to.getTag());
            if (opcode != 0 && hasHooks(opcode, to)) {
                changed = arguments.clone();
                String made = in.reference(opcode, to.getOwner(), to.getName(), to.getDesc(), to.isInterface(), line);
                String whole = BridgeMethod.withReceiver(opcode, to.getOwner(), to.getDesc());
                changed[1] = new Handle(H_INVOKESTATIC, in.name, made, whole, in.isInterface);
            }
        }
        super.visitInvokeDynamicInsn(n, d, by, changed);
    }

    private static int opcodeOf(int tag) {
        switch (tag) {
            case H_INVOKEVIRTUAL: return INVOKEVIRTUAL;
            case H_INVOKEINTERFACE: return INVOKEINTERFACE;
            case H_INVOKESTATIC: return INVOKESTATIC;
            default: return 0;
        }
    }

    private boolean hasHooks(int opcode, Handle to) {
        String owner = to.getOwner(), n = to.getName();
        if (n.equals("wait") || n.startsWith("notify") || REPLACED.containsKey(owner)) return true;
        String library = opcode == INVOKESTATIC ? owner : Classes.libraryOwner(in.loader, owner, n + to.getDesc());
        return library != null && Table.isBridged(library) && !n.equals("getClass");
    }
}
