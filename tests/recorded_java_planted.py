"""Makes Java programs by chance whose races are known: some are planted, and some orders too.

A scenario has its own threads. Its first thread writes a datum, and the last one reads it. What passes from each
thread to the next orders the two, or the datum is also accessed before or after that. That is a race, and a label names
it. So each race of a recording must have a label, and some seed must show each label.

    recorded_java_planted.py SEED      prints the program of a seed
"""
from __future__ import annotations

import random
import re
import sys

# The seeds of the programs that are always tried, and how many scenarios each has.
FEW, SCENARIOS = (3, 7, 12), 6

HEAD = """import java.io.*;
import java.lang.invoke.*;
import java.util.*;
import java.util.concurrent.*;
import java.util.concurrent.atomic.*;
import java.util.concurrent.locks.*;
import java.util.function.*;
import java.util.stream.*;
public class Planted {
    interface Body { void run() throws Exception; }
    static final ThreadLocal<long[]> own = ThreadLocal.withInitial(() -> new long[1]);
    static void see(long x) { own.get()[0] += x; }
    static void runs(Body body) {
        try { body.run(); } catch (Exception e) { e.printStackTrace(); System.exit(3); }
    }
    static <T> Callable<T> called(Body body) { return () -> { body.run(); return null; }; }
    static class Box { int n; long wide; Object next; Box() { } Box(int n) { this.n = n; } }
    static class Task extends RecursiveAction {
        private final Body body;
        Task(Body body) { this.body = body; }
        @Override protected void compute() { runs(body); }
    }
    static final Thread[] threads = new Thread[100];
    static VarHandle handle(Class<?> c, String name, Class<?> type) {
        try { return MethodHandles.lookup().findStaticVarHandle(c, name, type); }
        catch (ReflectiveOperationException e) { throw new Error(e); }
    }
    static VarHandle ofBox() {
        try { return MethodHandles.lookup().findVarHandle(Box.class, "n", int.class); }
        catch (ReflectiveOperationException e) { throw new Error(e); }
    }
"""

# A datum: its declaration, what writes it, and what reads it.
DATA = [
    ("static int D;", "D = 1;", "see(D);"),
    ("static int D;", "D++;", "see(D);"),
    ("static long D;", "D |= 4;", "see(D);"),
    ("static boolean D;", "D = true;", "see(D ? 1 : 0);"),
    ("static Object D;", 'D = "a text";', "see(D == null ? 0 : 1);"),
    ("static final int[] D = new int[3];", "D[1] = 2;", "see(D[1]);"),
    ("static final double[] D = new double[3];", "D[2] += 2;", "see((long) D[2]);"),
    ("static final long[][] D = new long[2][3];", "D[1][2] = 5;", "see(D[1][2]);"),
    ("static final Box D = new Box();", "D.n = 4;", "see(D.n);"),
    ("static final Box D = new Box(3);", "D.wide++;", "see(D.wide);"),
    ("static final Box[] D = {new Box(), new Box()};", "D[1].n = 5;", "see(D[1].n);"),
    ("static final List<Integer> D = new ArrayList<>();", "D.add(3);", "see(D.size());"),
    ("static final List<Integer> D = new LinkedList<>();", "D.add(3);", "for (int x : D) see(x);"),
    ("static final Map<String, Integer> D = new HashMap<>();", 'D.put("k", 3);', 'see(D.containsKey("k") ? 1 : 0);'),
    (
        "static final Map<Integer, Integer> D = new TreeMap<>();",
        "D.merge(1, 3, Integer::sum);",
        "see(D.keySet().size());",
    ),
    ("static final Deque<Integer> D = new ArrayDeque<>();", "D.push(1);", "see(D.isEmpty() ? 0 : 1);"),
    ("static final StringBuilder D = new StringBuilder();", 'D.append("word");', "see(D.length());"),
    ("static final BitSet D = new BitSet();", "D.set(7);", "see(D.get(7) ? 1 : 0);"),
    ("static final char[] D = new char[5];", "Arrays.fill(D, 'x');", "see(D[4]);"),
    ("static final int[] D = new int[5];", "System.arraycopy(new int[] {1, 2}, 0, D, 1, 2);", "see(D[2]);"),
    ("static final List<Integer> D = new ArrayList<>(List.of(3, 1));", "Collections.sort(D);", "see(D.get(0));"),
    ("static final PriorityQueue<Integer> D = new PriorityQueue<>();", "D.add(3);", "see(D.size());"),
]

# What passes from a thread to the next: its declaration, what the first does, and what the second does.
LINKS = [
    ("static volatile boolean aL;", "aL = true;", "while (!aL) Thread.onSpinWait();"),
    ("static volatile int aL;", "aL++;", "while (aL == 0) Thread.yield();"),
    (
        "static final AtomicInteger aL = new AtomicInteger();",
        "aL.incrementAndGet();",
        "while (aL.get() == 0) Thread.yield();",
    ),
    (
        "static final AtomicBoolean aL = new AtomicBoolean();",
        "aL.set(true);",
        "while (!aL.compareAndSet(true, false)) Thread.yield();",
    ),
    (
        "static final AtomicReference<Box> aL = new AtomicReference<>();",
        "aL.set(new Box(1));",
        "while (aL.get() == null) Thread.yield();",
    ),
    (
        "static final AtomicLong aL = new AtomicLong();",
        "aL.lazySet(3);",
        "while (aL.getAcquire() != 3) Thread.yield();",
    ),
    (
        "static final AtomicIntegerArray aL = new AtomicIntegerArray(3);",
        "aL.set(1, 5);",
        "while (aL.get(1) != 5) Thread.yield();",
    ),
    (
        'static volatile int bL; static final VarHandle hL = handle(CLASS, "bL", int.class);',
        "hL.setRelease(1);",
        "while ((int) hL.getAcquire() == 0) Thread.yield();",
    ),
    (
        'static volatile int bL; static final VarHandle hL = handle(CLASS, "bL", int.class);',
        "hL.compareAndSet(0, 1);",
        "while (bL == 0) Thread.yield();",
    ),
    (
        "static class Node { volatile int n; } static final Node nL = new Node(); static final "
        'AtomicIntegerFieldUpdater<Node> uL = AtomicIntegerFieldUpdater.newUpdater(Node.class, "n");',
        "uL.compareAndSet(nL, 0, 1);",
        "while (nL.n == 0) Thread.yield();",
    ),
    ("static final CountDownLatch lL = new CountDownLatch(1);", "lL.countDown();", "lL.await();"),
    (
        "static final CountDownLatch lL = new CountDownLatch(1);",
        "((Runnable) lL::countDown).run();",
        "while (!lL.await(10, TimeUnit.MILLISECONDS)) { }",
    ),
    ("static final Semaphore sL = new Semaphore(0);", "sL.release();", "sL.acquire();"),
    ("static final Semaphore sL = new Semaphore(0);", "sL.release(2);", "while (!sL.tryAcquire()) Thread.yield();"),
    ("static final CyclicBarrier bL = new CyclicBarrier(2);", "bL.await();", "bL.await();"),
    ("static final Phaser bL = new Phaser(2);", "bL.arrive();", "bL.arriveAndAwaitAdvance();"),
    (
        "static final Exchanger<Box> eL = new Exchanger<>();",
        "eL.exchange(new Box(2));",
        "see(eL.exchange(new Box(3)).n);",
    ),
    ("static final BlockingQueue<Box> qL = new LinkedBlockingQueue<>();", "qL.put(new Box(4));", "see(qL.take().n);"),
    (
        "static final BlockingQueue<Box> qL = new ArrayBlockingQueue<>(1);",
        "qL.offer(new Box(4));",
        "see(qL.take().n);",
    ),
    ("static final BlockingQueue<Box> qL = new SynchronousQueue<>();", "qL.put(new Box(4));", "see(qL.take().n);"),
    (
        "static final BlockingQueue<Box> qL = new LinkedBlockingDeque<>();",
        "qL.add(new Box(4));",
        "for (Box b = null; b == null;) b = qL.poll(10, TimeUnit.MILLISECONDS);",
    ),
    (
        "static final TransferQueue<Box> qL = new LinkedTransferQueue<>();",
        "qL.transfer(new Box(4));",
        "see(qL.take().n);",
    ),
    ("static final BlockingQueue<Integer> qL = new ArrayBlockingQueue<>(1);", "qL.take();", "qL.put(1); qL.put(2);"),
    (
        "static final Queue<Box> qL = new ConcurrentLinkedQueue<>();",
        "qL.add(new Box(4));",
        "while (qL.poll() == null) Thread.yield();",
    ),
    (
        "static final Map<String, Box> mL = new ConcurrentHashMap<>();",
        'mL.put("k", new Box(4));',
        'while (mL.get("k") == null) Thread.yield();',
    ),
    (
        "static final ConcurrentMap<String, Box> mL = new ConcurrentSkipListMap<>();",
        'mL.putIfAbsent("k", new Box(4));',
        'while (!mL.containsKey("k")) Thread.yield();',
    ),
    (
        "static final ConcurrentHashMap<String, Box> mL = new ConcurrentHashMap<>();",
        'mL.computeIfAbsent("k", k -> new Box(4));',
        "while (mL.isEmpty()) Thread.yield();",
    ),
    (
        "static final ConcurrentHashMap<String, Box> mL = new ConcurrentHashMap<>();",
        'mL.put("k", new Box(4));',
        "for (int n = 0; n == 0;) for (Box b : mL.values()) n += b.n;",
    ),
    (
        "static final List<Box> mL = new CopyOnWriteArrayList<>();",
        "mL.add(new Box(4));",
        "for (int n = 0; n == 0;) for (Box b : mL) n += b.n;",
    ),
    (
        "static final CompletableFuture<Box> fL = new CompletableFuture<>();",
        "fL.complete(new Box(4));",
        "see(fL.get().n);",
    ),
    (
        "static final CompletableFuture<Box> fL = new CompletableFuture<>(); static final CompletableFuture<Box> gL = "
        "fL.thenApply(b -> new Box(b.n));",
        "fL.complete(new Box(4));",
        "see(gL.join().n);",
    ),
    (
        "static final CompletableFuture<Box> fL = new CompletableFuture<>(); static final CompletableFuture<?> gL = "
        "CompletableFuture.allOf(fL);",
        "fL.complete(new Box(4));",
        "gL.join();",
    ),
    (
        "static final CompletableFuture<Box> fL = new CompletableFuture<>();",
        "fL.completeExceptionally(new IllegalStateException());",
        "try { fL.get(); } catch (ExecutionException e) { see(1); }",
    ),
    ("static final FutureTask<Box> fL = new FutureTask<>(() -> new Box(4));", "fL.run();", "see(fL.get().n);"),
    (
        "static final Object oL = new Object(); static boolean wL;",
        "synchronized (oL) { wL = true; oL.notifyAll(); }",
        "synchronized (oL) { while (!wL) oL.wait(); }",
    ),
    (
        "static final Object oL = new Object(); static boolean wL;",
        "synchronized (oL) { wL = true; oL.notify(); }",
        "synchronized (oL) { while (!wL) oL.wait(5); }",
    ),
    (
        "static final Object oL = new Object(); static boolean wL;",
        "synchronized (oL) { wL = true; }",
        "for (boolean is = false; !is;) synchronized (oL) { is = wL; }",
    ),
    (
        "static final ReentrantLock kL = new ReentrantLock(); static final Condition cL = kL.newCondition(); static "
        "boolean wL;",
        "kL.lock(); wL = true; cL.signal(); kL.unlock();",
        "kL.lock(); while (!wL) cL.await(); kL.unlock();",
    ),
    (
        "static final Lock kL = new ReentrantLock(true); static final Condition cL = kL.newCondition(); static "
        "boolean wL;",
        "kL.lock(); wL = true; cL.signalAll(); kL.unlock();",
        "kL.lockInterruptibly(); while (!wL) cL.awaitNanos(1000000); kL.unlock();",
    ),
    (
        "static final ReadWriteLock kL = new ReentrantReadWriteLock(); static boolean wL;",
        "kL.writeLock().lock(); wL = true; kL.writeLock().unlock();",
        "for (boolean is = false; !is;) { kL.readLock().lock(); is = wL; kL.readLock().unlock(); Thread.yield(); }",
    ),
    (
        "static final StampedLock kL = new StampedLock(); static boolean wL;",
        "long s = kL.writeLock(); wL = true; kL.unlockWrite(s);",
        "for (boolean is = false; !is;) { long s = kL.readLock(); is = wL; kL.unlockRead(s); Thread.yield(); }",
    ),
    ("static final List<Box> vL = new Vector<>();", "vL.add(new Box(2));", "while (vL.isEmpty()) Thread.yield();"),
    (
        "static final Map<String, Box> vL = new Hashtable<>();",
        'vL.put("k", new Box(2));',
        'while (vL.get("k") == null) Thread.yield();',
    ),
    (
        "static final List<Box> vL = Collections.synchronizedList(new ArrayList<>());",
        "vL.add(new Box(2));",
        "while (vL.size() == 0) Thread.yield();",
    ),
    (
        "static final StringBuffer vL = new StringBuffer();",
        'vL.append("word");',
        "while (vL.length() == 0) Thread.yield();",
    ),
    (
        "",
        "threads[NEXT].interrupt();",
        "while (!Thread.currentThread().isInterrupted()) Thread.yield(); Thread.interrupted();",
    ),
    ("", "threads[NEXT].interrupt();", "try { Thread.sleep(60000); } catch (InterruptedException e) { see(1); }"),
    (
        "static final Object oL = new Object();",
        "threads[NEXT].interrupt();",
        "try { synchronized (oL) { oL.wait(); } } catch (InterruptedException e) { see(1); }",
    ),
    ("", "LockSupport.unpark(threads[NEXT]);", "LockSupport.park();"),
    (
        "static final PipedOutputStream oL = new PipedOutputStream(); static final PipedInputStream iL = piped(oL); "
        "static PipedInputStream piped(PipedOutputStream o) { try { return new PipedInputStream(o); } catch "
        "(IOException e) { throw new Error(e); } }",
        "oL.write(7); oL.flush();",
        "see(iL.read());",
    ),
]

# How a thread begins the next one and waits for its end.
STARTS = [
    ("Thread yN = new Thread(() -> runs(Planted::NEXT));", "yN.start();", "yN.join();"),
    ("Thread yN = new Thread(() -> runs(Planted::NEXT));", "yN.start();", "while (yN.isAlive()) Thread.yield();"),
    (
        "Thread yN = new Thread() { @Override public void run() { runs(Planted::NEXT); } };",
        "yN.start();",
        "synchronized (yN) { while (yN.isAlive()) yN.wait(); }",
    ),
    (
        "ExecutorService yN = Executors.newFixedThreadPool(2);",
        "Future<?> fN = yN.submit(called(Planted::NEXT));",
        "fN.get(); yN.shutdown();",
    ),
    (
        "ExecutorService yN = Executors.newCachedThreadPool();",
        "yN.execute(() -> runs(Planted::NEXT));",
        "yN.shutdown(); while (!yN.awaitTermination(1, TimeUnit.SECONDS)) { }",
    ),
    (
        "ScheduledExecutorService yN = Executors.newScheduledThreadPool(1);",
        "Future<?> fN = yN.schedule(() -> runs(Planted::NEXT), 1, TimeUnit.MILLISECONDS);",
        "fN.get(); yN.shutdown();",
    ),
    (
        "",
        "CompletableFuture<Void> fN = CompletableFuture.runAsync(() -> runs(Planted::NEXT), r -> new "
        "Thread(r).start());",
        "fN.join();",
    ),
    (
        "",
        "CompletableFuture<Void> fN = CompletableFuture.runAsync(() -> runs(Planted::NEXT), r -> new "
        "Thread(r).start()).thenRun(() -> see(1)).exceptionally(e -> null);",
        "fN.get();",
    ),
    ("FutureTask<Object> fN = new FutureTask<>(called(Planted::NEXT));", "new Thread(fN).start();", "fN.get();"),
    (
        "ForkJoinPool yN = new ForkJoinPool(2);",
        "ForkJoinTask<?> fN = yN.submit(new Task(Planted::NEXT));",
        "fN.get(); yN.shutdown();",
    ),
    (
        "ForkJoinPool yN = new ForkJoinPool(2);",
        "Task fN = new Task(Planted::NEXT); yN.execute(fN);",
        "fN.join(); yN.shutdown();",
    ),
    (
        "Timer yN = new Timer(true); CountDownLatch cN = new CountDownLatch(1);",
        "yN.schedule(new TimerTask() { @Override public void run() { runs(Planted::NEXT); cN.countDown(); } }, 1);",
        "cN.await();",
    ),
    (
        "ExecutorService yN = Executors.newFixedThreadPool(1); CompletionService<Object> sN = new "
        "ExecutorCompletionService<>(yN);",
        "sN.submit(called(Planted::NEXT));",
        "sN.take().get(); yN.shutdown();",
    ),
    (
        "ExecutorService yN = Executors.newSingleThreadExecutor();",
        "List<Future<Object>> fN = yN.invokeAll(List.of(called(Planted::NEXT)));",
        "fN.get(0).get(); yN.shutdown();",
    ),
]
# Those after which a body may go on while the other runs.
ENDS = STARTS[:-1]

# Locks: what they need, and how a thread has them.
LOCKS = [
    ("static final Object oL = new Object();", "synchronized (oL) {", "}"),
    ("", "synchronized (CLASS) {", "}"),
    ("static synchronized void inL(Body b) throws Exception { b.run(); }", "inL(() -> {", "});"),
    ("static final ReentrantLock kL = new ReentrantLock();", "kL.lock(); try {", "} finally { kL.unlock(); }"),
    (
        "static final ReentrantLock kL = new ReentrantLock();",
        "kL.lock(); kL.lock(); kL.unlock(); try {",
        "} finally { kL.unlock(); }",
    ),
    (
        "static final Lock kL = new ReentrantLock();",
        "while (!kL.tryLock()) Thread.yield(); try {",
        "} finally { kL.unlock(); }",
    ),
    (
        "static final Lock kL = new ReentrantLock();",
        "while (!kL.tryLock(5, TimeUnit.MILLISECONDS)) { } try {",
        "} finally { kL.unlock(); }",
    ),
    (
        "static final ReadWriteLock kL = new ReentrantReadWriteLock();",
        "kL.writeLock().lock(); try {",
        "} finally { kL.writeLock().unlock(); }",
    ),
    (
        "static final StampedLock kL = new StampedLock();",
        "{ long s = kL.writeLock(); try {",
        "} finally { kL.unlockWrite(s); } }",
    ),
    ("static final Lock kL = new StampedLock().asWriteLock();", "kL.lock(); try {", "} finally { kL.unlock(); }"),
    ("static final Semaphore sL = new Semaphore(1);", "sL.acquire(); try {", "} finally { sL.release(); }"),
    (
        "static final AtomicBoolean aL = new AtomicBoolean();",
        "while (!aL.compareAndSet(false, true)) Thread.yield(); try {",
        "} finally { aL.set(false); }",
    ),
    (
        "static final AtomicInteger aL = new AtomicInteger(), bL = new AtomicInteger();",
        "for (int n = aL.getAndIncrement(); bL.get() != n;) Thread.yield(); try {",
        "} finally { bL.incrementAndGet(); }",
    ),
    (
        "static final BlockingQueue<Integer> qL = new ArrayBlockingQueue<>(1); static { qL.add(1); }",
        "qL.take(); try {",
        "} finally { qL.put(1); }",
    ),
]
SHARED = {
    "static final ReadWriteLock kL = new ReentrantReadWriteLock();": (
        "kL.readLock().lock(); try {",
        "} finally { kL.readLock().unlock(); }",
    ),
    "static final StampedLock kL = new StampedLock();": (
        "{ long s = kL.readLock(); try {",
        "} finally { kL.unlockRead(s); } }",
    ),
}

# What is made once: what it needs, and how each thread comes to it; WRITES is what is done then.
ONCE = [
    ("static class Holder { static int made = make(); static int make() { FILL(); return 1; } }", "see(Holder.made);"),
    (
        "static volatile Box pL;",
        "if (pL == null) synchronized (CLASS) { if (pL == null) { FILL(); pL = new Box(1); } } see(pL.n);",
    ),
    (
        "static final Map<String, Box> mL = new ConcurrentHashMap<>();",
        'see(mL.computeIfAbsent("k", k -> { FILL(); return new Box(1); }).n);',
    ),
    (
        "static Box pL; static synchronized Box get() { if (pL == null) { FILL(); pL = new Box(1); } return pL; }",
        "see(get().n);",
    ),
    ("enum Only { ONE; int n; Only() { FILL(); n = 3; } }", "see(Only.ONE.ordinal());"),
]

# What a thread does for itself.
ASIDE = [
    "",
    "",
    "",
    'try { throw new IllegalStateException("aside"); } catch (IllegalStateException e) { '
    "see(e.getMessage().length()); }",
    '{ Map<Integer, String> all = new TreeMap<>(); for (int k = 0; k < 3; k++) all.put(k, "x" + k); see(all.size()); }',
    "see(IntStream.range(0, 5).map(x -> x * 2).sum());",
    "Thread.sleep(1);",
    "Thread.yield();",
    "{ Box b = new Box(3); b.next = new Box(4); see(((Box) b.next).n); }",
    "see(String.valueOf(own.get()[0]).length());",
]


class Scenario:
    """The declarations of a scenario, the bodies of its threads, and the threads that main starts."""

    def __init__(self, chance: random.Random, number: int) -> None:
        self.chance, self.number = chance, number
        self.declared: list[str] = []
        data, self.write, self.read = chance.choice(DATA)
        self.declare(data)
        self.bodies: list[list[str]] = []
        self.first: list[int] = []
        self.is_race = chance.random() < 0.5
        chance.choice([self.chain, self.chain, self.chain, self.guarded, self.once])()

    def named(self, code: str, link: int = 0) -> str:
        """The code with the names of this scenario, and of a link of it."""
        code = re.sub(r"\b([a-z]+)L\b", rf"\g<1>{self.number}_{link}", code)
        code = code.replace('"bL"', f'"b{self.number}_{link}"').replace("CLASS", "Planted.class")
        code = re.sub(r"\b(Node|Holder|Only)\b", rf"\g<1>{self.number}_{link}", code)
        code = re.sub(r"\b(get|make|piped)\(", rf"\g<1>{self.number}_{link}(", code) if "static" in code else code
        code = code.replace("FILL", f"fill{self.number}")
        return re.sub(r"\bD\b", f"d{self.number}", code)

    def declare(self, code: str, link: int = 0) -> None:
        self.declared += [self.named(code, link)] if code else []

    def access(self, write: bool, races: bool = False) -> str:
        return self.named(self.write if write else self.read) + (f" // RACE r{self.number}" if races else "")

    def aside(self) -> str:
        return self.chance.choice(ASIDE)

    def name(self, thread: int) -> str:
        return f"t{self.number}_{thread}"

    def index(self, thread: int) -> int:
        return 10 * self.number + thread

    def start(self, start: tuple[str, str, str], thread: int) -> list[str]:
        """The lines that begin a thread, and the one that waits for its end."""
        fitted = [
            re.sub(r"\b([a-z])N\b", rf"\g<1>{self.number}_{thread}", text.replace("NEXT", self.name(thread)))
            for text in start
        ]
        return [" ".join(filter(None, fitted[:2])), fitted[2]]

    def chain(self) -> None:
        """From thread to thread; the first one writes, and the last one reads, or writes too."""
        chance, count = self.chance, self.chance.randint(2, 3)
        where = chance.choice(["after", "before"]) if self.is_race else ""
        bodies = [[self.aside()] for _ in range(count)]
        last = chance.random() < 0.3
        self.first = list(range(count))
        if where == "before":
            bodies[-1].append(self.access(last, True))
        bodies[0].append(self.access(True, where == "before"))
        ends: list[list[str]] = [[] for _ in range(count)]
        for link in range(count - 1):
            makes = not (where == "before" and link == count - 2)
            self.link(link, bodies, ends, where == "after" and link == 0, makes)
        bodies[-1].append(self.access(last, where == "after"))
        self.bodies = [body + [self.aside()] + end for body, end in zip(bodies, ends)]

    def link(self, link: int, bodies: list[list[str]], ends: list[list[str]], races: bool, makes: bool) -> None:
        chance, kind = self.chance, self.chance.random()
        late = [self.access(True, True)] if races else []
        if kind < 0.15 and makes and link + 1 in self.first:
            begin, end = self.start(chance.choice(ENDS), link + 1)
            bodies[link] += [begin, *late]
            ends[link].append(end)
            self.first.remove(link + 1)
        elif kind < 0.3 and not races and link in self.first:
            begin, end = self.start(chance.choice(STARTS), link)
            bodies[link + 1].insert(0, begin)
            bodies[link + 1].append(end)
            self.first.remove(link)
        else:
            direct = [one for one in LINKS if "NEXT" not in one[1] or link + 1 in self.first]
            declared, sends, receives = chance.choice(direct)
            self.declare(declared, link)
            bodies[link] += [self.named(sends, link).replace("NEXT", str(self.index(link + 1))), *late]
            bodies[link + 1].append(self.named(receives, link))

    def guarded(self) -> None:
        """Threads that have a lock as they access; one of them may have none."""
        chance = self.chance
        declared, lock, unlock = chance.choice(LOCKS)
        self.declare(declared)
        count = chance.randint(2, 3)
        self.first = list(range(count))
        without = chance.randrange(count) if self.is_race else -1
        for thread in range(count):
            write = thread == 0 or chance.random() < 0.5
            taken = (lock, unlock) if write else SHARED.get(declared, (lock, unlock))
            inside = [self.access(write, self.is_race)]
            lines = inside if thread == without else [self.named(taken[0]), *inside, self.named(taken[1])]
            self.bodies.append([self.aside(), *lines, self.aside()])

    def once(self) -> None:
        """Threads that come to what is made once, and read what it wrote; one may read before, or write after."""
        declared, comes = self.chance.choice(ONCE)
        early = self.is_race and self.chance.random() < 0.5
        late = self.is_race and not early
        self.declare(declared)
        self.declared.append(f"static void fill{self.number}() {{\n    {self.access(True, early)}\n}}")
        body = self.named(comes).replace("see(get(", f"see(get{self.number}_0(")
        self.first = [0, 1]
        self.bodies.append([self.aside(), body, *([self.access(True, True)] if late else [])])
        self.bodies.append(
            [*([self.access(False, True)] if early else []), body, self.access(False, late), self.aside()]
        )

    def lines(self) -> list[str]:
        found = list(self.declared)
        for thread, body in enumerate(self.bodies):
            found += [f"static void {self.name(thread)}() throws Exception {{", *filter(None, body), "}"]
        return found


def program(chance: random.Random) -> str:
    """A program of some scenarios whose threads all run at once."""
    scenarios = [Scenario(chance, number) for number in range(SCENARIOS)]
    lines = ["    " + line.replace("\n", "\n    ") for scenario in scenarios for line in scenario.lines()]
    main = []
    for scenario in scenarios:
        for thread in scenario.first:
            at = f"threads[{scenario.index(thread)}]"
            main.append(f"        {at} = new Thread(() -> runs(Planted::{scenario.name(thread)}));")
    order = [scenario.index(thread) for scenario in scenarios for thread in scenario.first]
    main += [f"        threads[{at}].start();" for at in order] + [f"        threads[{at}].join();" for at in order]
    head = "    public static void main(String[] args) throws Exception {"
    return "\n".join([HEAD, *lines, head, *main, '        System.out.println("done");', "    }", "}", ""])


if __name__ == "__main__":
    print(program(random.Random(int(sys.argv[1]))), end="")
