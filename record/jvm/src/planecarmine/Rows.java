package planecarmine;

import java.util.Map;
import java.util.concurrent.BlockingQueue;
import java.util.concurrent.CountDownLatch;
import java.util.concurrent.CyclicBarrier;
import java.util.concurrent.Future;
import java.util.concurrent.Phaser;
import java.util.concurrent.Semaphore;
import java.util.stream.BaseStream;

/** The rows of the table, by the names that the file of the table has. */
final class Rows {
    private Rows() { }

    static final Row NONE = new None();
    static final Map<String, Row> BY_NAME = Map.ofEntries(
            Map.entry("none", NONE), Map.entry("lock", new Lock()), Map.entry("read-write", new ReadWrite()),
            Map.entry("read-lock", new ReadLock()), Map.entry("write-lock", new WriteLock()),
            Map.entry("stamped", new Stamped()), Map.entry("latch", new Latch()), Map.entry("semaphore", new Permits()),
            Map.entry("barrier", new Barrier()), Map.entry("meeting", new Meeting()), Map.entry("atomic", new Atomic()),
            Map.entry("updater", new Updater()), Map.entry("state", new State()), Map.entry("future", new Futures()),
            Map.entry("executor", new Executing()), Map.entry("container", new Container()), Map.entry("plain", new Plain()),
            Map.entry("synchronized", new Synchronized()), Map.entry("view", new View()), Map.entry("stream", new Stream()),
            Map.entry("channel", new Channel()),
            Map.entry("lookup", new Lookup()), Map.entry("helper", new Helper()));

    private static final class None extends Row {
        @Override boolean before(Bridge.Call c) { return false; }
    }

    // ---- locks

    /** Whether a call that took a lock was a try. */
    private static int partOf(Bridge.Call c) { return c.begins("try") ? Kinds.TRY : Kinds.LOCK; }

    private static class Lock extends Row {
        @Override
        boolean before(Bridge.Call c) {
            Things.Thing m = c.thing();
            if (c.is("lock")) Locking.untilFree(c.t, m, false);
            else if (c.is("lockInterruptibly")) Locking.untilFree(c.t, m, false);
            else if (c.is("unlock")) Locking.release(c.t, m, Kinds.RELEASE, c.site);
            else if (c.is("tryLock for") && m.owner != null && m.owner != c.t) Turns.give(c.t);
            return !c.is("unlock");
        }

        @Override
        void after(Bridge.Call c, Object result, boolean isTrue) {
            if (c.is("newCondition") && result != null) {
                Things.of(c.t, result).base = c.thing();
                return;
            }
            if (!c.begins("lock") && !c.begins("tryLock")) return;
            Things.Thing m = c.thing();
            if (!isTrue) {
                c.put(Kinds.TRIED, 0);
                return;
            }
            if (m.owner != c.t) m.owner = null;
            Locking.acquire(c.t, m, Kinds.ACQUIRE, partOf(c), c.site);
        }
    }

    private static final class ReadWrite extends Row {
        @Override
        boolean before(Bridge.Call c) {
            return c.is("readLock") || c.is("writeLock") || Bridge.ASK_WHO_WAITS.contains(c.method);
        }

        @Override
        void after(Bridge.Call c, Object result, boolean isTrue) {
            if (result == null || !c.method.endsWith("Lock")) return;
            c.thing().isReadWrite = true;
            if (Things.of(c.t, result) != c.thing()) Things.of(c.t, result).base = c.thing();
        }
    }

    private static final class ReadLock extends Row {
        @Override
        boolean before(Bridge.Call c) {
            c.thing().isReadWrite = true;
            if (c.is("unlock")) Locking.readerOut(c.t, c.thing(), c.site);
            else if (c.is("lock") || c.is("lockInterruptibly")) Locking.untilFree(c.t, c.thing(), true);
            else if (c.is("tryLock for") && c.thing().owner != null) Turns.give(c.t);
            return !c.is("unlock");
        }

        @Override
        void after(Bridge.Call c, Object result, boolean isTrue) {
            if (!c.begins("lock") && !c.begins("tryLock")) return;
            if (isTrue) Locking.readerIn(c.t, c.thing(), partOf(c), c.site);
            else c.put(Kinds.TRIED, 1);
        }
    }

    private static final class WriteLock extends Row {
        @Override
        boolean before(Bridge.Call c) {
            Things.Thing m = c.thing();
            m.isReadWrite = true;
            if (c.is("unlock")) Locking.release(c.t, m, Kinds.WRITER_OUT, c.site);
            else if (c.is("lock") || c.is("lockInterruptibly")) Locking.untilFree(c.t, m, false);
            else if (c.is("tryLock for")) Turns.give(c.t);
            return !c.is("unlock");
        }

        @Override
        void after(Bridge.Call c, Object result, boolean isTrue) {
            if (c.is("newCondition") && result != null) {
                Things.of(c.t, result).base = c.thing();
                return;
            }
            if (!c.begins("lock") && !c.begins("tryLock")) return;
            if (!isTrue) {
                c.put(Kinds.TRIED, 0);
                return;
            }
            if (c.thing().owner != c.t) c.thing().owner = null;
            Locking.acquire(c.t, c.thing(), Kinds.WRITER_IN, partOf(c), c.site);
        }
    }

    /** A StampedLock: any thread may give it back, and an optimistic read is no lock. */
    private static final class Stamped extends Row {
        @Override
        boolean before(Bridge.Call c) {
            c.thing().isReadWrite = true;
            if (c.is("unlockWrite")) Locking.release(c.t, c.thing(), Kinds.WRITER_OUT, c.site);
            else if (c.is("unlockRead")) Locking.readerOut(c.t, c.thing(), c.site);
            else if (c.is("unlock") || c.begins("tryUnlock")) out(c);
            else if (c.is("writeLock") || c.is("writeLockInterruptibly")) Locking.untilFree(c.t, c.thing(), false);
            else if (c.is("readLock") || c.is("readLockInterruptibly")) Locking.untilFree(c.t, c.thing(), true);
            else if (c.isTimed()) Turns.give(c.t);
            return true;
        }

        private static void out(Bridge.Call c) {
            if (c.thing().owner == c.t) Locking.release(c.t, c.thing(), Kinds.WRITER_OUT, c.site);
            else Locking.readerOut(c.t, c.thing(), c.site);
        }

        @Override
        void after(Bridge.Call c, Object result, boolean isTrue) {
            if (c.begins("writeLock") || c.begins("tryWriteLock")) comes(c, isTrue, Kinds.WRITER_IN);
            else if (c.begins("readLock") || c.begins("tryReadLock")) comes(c, isTrue, Kinds.READER_IN);
            else if (c.begins("tryConvertTo") && isTrue) {
                if (!c.is("tryConvertToWriteLock") || c.thing().owner != c.t) out(c);
                if (c.is("tryConvertToReadLock")) comes(c, true, Kinds.READER_IN);
                if (c.is("tryConvertToWriteLock") && c.thing().owner != c.t) comes(c, true, Kinds.WRITER_IN);
            } else if (c.begins("as") && result != null) Things.of(c.t, result).base = c.thing();
        }

        private static void comes(Bridge.Call c, boolean hasIt, int kind) {
            if (!hasIt) c.put(Kinds.TRIED, kind == Kinds.READER_IN ? 1 : 0);
            else if (kind == Kinds.READER_IN) Locking.readerIn(c.t, c.thing(), partOf(c), c.site);
            else {
                c.thing().owner = null;
                Locking.acquire(c.t, c.thing(), kind, partOf(c), c.site);
            }
        }
    }

    // ---- what threads wait for

    private static final class Latch extends Row {
        @Override
        boolean before(Bridge.Call c) {
            CountDownLatch latch = (CountDownLatch) c.on;
            if (c.is("countDown")) c.pass();
            else if (c.is("await")) Turns.parkUntil(c.t, c.thing(), () -> latch.getCount() == 0 || c.t.interrupted);
            else if (c.is("await for") && latch.getCount() > 0) Turns.give(c.t);
            return true;
        }

        @Override
        void after(Bridge.Call c, Object result, boolean isTrue) {
            if (c.is("countDown")) Turns.unpark(c.thing());
            else c.take();
        }
    }

    private static final class Permits extends Row {
        @Override
        boolean before(Bridge.Call c) {
            Semaphore s = (Semaphore) c.on;
            if (c.is("release")) c.pass();
            else if (c.is("acquire")) Turns.parkUntil(c.t, c.thing(), () -> s.availablePermits() > 0 || c.t.interrupted);
            else if (c.is("acquireUninterruptibly")) Turns.parkUntil(c.t, c.thing(), () -> s.availablePermits() > 0);
            else if (c.isTimed() && s.availablePermits() <= 0) Turns.give(c.t);
            return true;
        }

        @Override
        void after(Bridge.Call c, Object result, boolean isTrue) {
            if (c.is("release")) Turns.unpark(c.thing());
            else if (c.begins("acquire") || c.begins("tryAcquire") && isTrue || c.is("drainPermits")) c.pass();
            else c.take();
        }
    }

    /** Each meeting at a barrier is a separate order. */
    private static final class Barrier extends Row {
        @Override
        boolean before(Bridge.Call c) {
            if (!c.begins("await")) return c.is("reset");
            Things.Thing x = c.thing();
            c.meeting = x.meeting;
            c.put(Kinds.PASS, x.meeting);
            if (++x.came >= ((CyclicBarrier) c.on).getParties()) next(x);
            Turns.give(c.t);
            return true;
        }

        private static void next(Things.Thing x) {
            x.came = 0;
            x.meeting++;
        }

        @Override
        void after(Bridge.Call c, Object result, boolean isTrue) {
            if (c.is("reset")) next(c.thing());
            else c.put(Kinds.TAKE, c.meeting);
        }

        @Override
        void threw(Bridge.Call c) {
            c.put(Kinds.TAKE, c.meeting);
            if (c.thing().meeting == c.meeting) next(c.thing());
        }
    }

    /** A Phaser, an Exchanger: one order for all meetings. */
    private static final class Meeting extends Row {
        @Override
        boolean before(Bridge.Call c) {
            if (c.begins("get") || c.begins("is")) return true;
            c.pass();
            if (c.begins("await") || c.begins("arriveAndAwait") || c.begins("exchange")) Turns.give(c.t);
            return true;
        }

        @Override void after(Bridge.Call c, Object result, boolean isTrue) { c.take(); }
        @Override void threw(Bridge.Call c) { c.take(); }
    }

    // ---- atomic variables

    static void atomic(Bridge.Call c, int thing, int part, boolean isTrue) {
        String m = c.method;
        boolean writes = isTrue && !(m.startsWith("get") && !m.contains("And")) && !m.endsWith("Value")
                && !m.equals("sum") && !m.equals("toString") && !m.startsWith("length") && !m.startsWith("is");
        boolean reads = !m.startsWith("set") && !m.startsWith("lazySet") && !m.equals("reset");
        if (m.equals("intValue") || m.equals("longValue")) writes = false;
        int kind = !writes ? Kinds.ATOMIC_READ : reads ? Kinds.ATOMIC_UPDATE : Kinds.ATOMIC_WRITE;
        Store.put(c.t, kind, thing, part, c.site);
    }

    private static final class Atomic extends Row {
        @Override
        boolean before(Bridge.Call c) {
            if (Follow.on) Follow.beforeAtomic(c.t, c.thing().number, Kinds.WHOLE, c.site);
            return true;
        }

        @Override
        void after(Bridge.Call c, Object result, boolean isTrue) {
            int part = c.begins("compare") || c.begins("weakCompare") ? (isTrue ? 1 : 2) : 0;
            atomic(c, c.thing().number, Kinds.WHOLE, part == 0 || part == 1);
        }
    }

    /** An updater of a field, or a VarHandle: the field of the first argument, if it is known, else itself. */
    private static final class Updater extends Row {
        @Override
        boolean before(Bridge.Call c) {
            if (!Follow.on || c.on instanceof Class) return true;
            int field = c.thing().field;
            if (field > 0 && c.first != null) Follow.beforeAtomic(c.t, Things.of(c.t, c.first).number, field, c.site);
            else Follow.beforeAtomic(c.t, field < 0 ? 0 : c.thing().number, field < 0 ? -field : Kinds.WHOLE, c.site);
            return true;
        }

        @Override
        void after(Bridge.Call c, Object result, boolean isTrue) {
            if (c.is("newUpdater")) {
                note(c, result);
                return;
            }
            if (c.on instanceof Class) return;
            int field = c.thing().field;
            boolean isDone = isTrue || !(c.begins("compareAndSet") || c.begins("weakCompareAndSet"));
            if (field < 0) atomic(c, 0, -field, isDone);
            else if (field > 0 && c.first != null) atomic(c, Things.of(c.t, c.first).number, field, isDone);
            else atomic(c, c.thing().number, Kinds.WHOLE, isDone);
        }
    }

    /** What was made is of a field: the class and the name are among the arguments. */
    private static void note(Bridge.Call c, Object result) {
        Class<?> type = null;
        String name = null;
        for (Object one : c.arguments) {
            if (type == null && one instanceof Class) type = (Class<?>) one;
            if (one instanceof String) name = (String) one;
        }
        if (result == null || type == null || name == null) return;
        int field = Classes.field(type.getName(), name);
        Things.of(c.t, result).field = c.is("findStaticVarHandle") ? -field : field;
    }

    /** What makes a VarHandle. */
    private static final class Lookup extends Row {
        @Override boolean before(Bridge.Call c) { return c.begins("find"); }

        @Override
        void after(Bridge.Call c, Object result, boolean isTrue) {
            if (c.method.endsWith("VarHandle")) note(c, result);
        }
    }

    /** The state of an AbstractQueuedSynchronizer that the program made a lock of. */
    private static final class State extends Row {
        @Override
        boolean before(Bridge.Call c) {
            if (c.begins("acquire") || c.begins("tryAcquire") && c.isTimed()) Turns.give(c.t);
            return true;
        }

        @Override
        void after(Bridge.Call c, Object result, boolean isTrue) {
            if (c.is("getState")) c.put(Kinds.ATOMIC_READ, Kinds.WHOLE);
            else if (c.is("setState")) c.put(Kinds.ATOMIC_WRITE, Kinds.WHOLE);
            else if (c.is("compareAndSetState")) c.put(isTrue ? Kinds.ATOMIC_UPDATE : Kinds.ATOMIC_READ, Kinds.WHOLE);
        }
    }

    // ---- futures and executors

    private static final class Futures extends Row {
        @Override boolean givesWork() { return true; }

        @Override
        boolean before(Bridge.Call c) {
            for (Object one : c.arguments) addSources(c, one);
            if (c.on instanceof Class) {
                if (c.is("invokeAll") && c.sources != null) {
                    for (Object one : c.sources) Work.pass(c.t, Things.of(c.t, one), c.site);
                    Turns.give(c.t);
                }
                return true;
            }
            c.source(c.on);
            Things.Thing x = Things.of(c.t, c.on);
            if (c.begins("complete") || c.begins("cancel") || c.is("fork") || c.begins("obtrude") || c.is("set")) {
                x.hasPassed = true;
                Work.pass(c.t, x, c.site);
            }
            boolean waits = c.begins("get") || c.is("join") || c.is("invoke");
            if (waits && !c.is("getNow") && !((Future<?>) c.on).isDone()) Turns.give(c.t);
            return true;
        }

        private static void addSources(Bridge.Call c, Object argument) {
            if (argument instanceof Future) c.source(argument);
            if (argument instanceof Object[])
                for (Object one : (Object[]) argument) if (one instanceof Future) c.source(one);
            if (argument instanceof java.util.ArrayList)
                for (Object one : (java.util.ArrayList<?>) argument) if (one instanceof Future) c.source(one);
        }

        @Override
        void after(Bridge.Call c, Object result, boolean isTrue) {
            if (c.is("run") || c.is("invoke")) {
                Things.Thing x = Things.of(c.t, c.on);
                x.hasPassed = true;
                Work.pass(c.t, x, c.site);
            }
            if (c.on instanceof Class) {
                if (c.is("invokeAll") && c.sources != null)
                    for (Object one : c.sources) Work.takeResult(c.t, one, c.site);
            } else if (c.begins("get") || c.is("join") || c.begins("is") && isTrue || c.begins("invoke"))
                Work.takeResult(c.t, c.on, c.site);
            if (result != null && result != c.on && c.sources != null) Work.link(c.t, result, c.sources);
        }

        @Override
        void threw(Bridge.Call c) {
            if (!(c.on instanceof Class)) Work.takeResult(c.t, c.on, c.site);
        }
    }

    private static final class Executing extends Row {
        @Override boolean givesWork() { return true; }

        @Override
        boolean before(Bridge.Call c) {
            if (c.begins("schedule") || c.begins("invoke")) Work.give(c.t, c.site);
            if (c.begins("invoke") || c.begins("await") || c.is("take") || c.begins("shutdown") || c.is("poll for"))
                Turns.give(c.t);
            return true;
        }

        @Override
        void after(Bridge.Call c, Object result, boolean isTrue) {
            if (c.begins("await") || c.begins("invoke") || c.is("close") || c.is("isTerminated"))
                Work.takeDone(c.t, c.on, c.site);
            if (result != null && c.sources != null) Work.link(c.t, result, c.sources);
        }

        @Override void threw(Bridge.Call c) { Work.takeDone(c.t, c.on, c.site); }
    }

    /** A stream that runs in several threads. */
    private static final class Stream extends Row {
        @Override
        boolean before(Bridge.Call c) {
            boolean isParallel = c.on instanceof BaseStream ? ((BaseStream<?, ?>) c.on).isParallel() : c.begins("parallel");
            if (!isParallel) return false;
            Work.give(c.t, c.site);
            return true;
        }

        @Override void after(Bridge.Call c, Object result, boolean isTrue) { Work.gather(c.t, c.site); }
        @Override void threw(Bridge.Call c) { Work.gather(c.t, c.site); }
    }

    // ---- collections

    /** A concurrent collection: a change comes before what finds it. */
    private static final class Container extends Row {
        @Override
        boolean before(Bridge.Call c) {
            boolean reads = Table.isReader(c.method), takes = c.begins("take") || c.begins("poll");
            if (c.on instanceof BlockingQueue) untilPossible(c, (BlockingQueue<?>) c.on);
            if (runsOthers(c)) Work.give(c.t, c.site);
            if (!reads && (!takes || isBounded(c.on))) c.pass();
            if (c.isTimed() || c.begins("transfer")) Turns.give(c.t);
            return true;
        }

        private static void untilPossible(Bridge.Call c, BlockingQueue<?> queue) {
            boolean isHandOver = queue instanceof java.util.concurrent.SynchronousQueue;
            if (isHandOver && (c.begins("put") || c.begins("take"))) {
                c.pass();
                Turns.give(c.t);
            } else if (c.begins("take")) {
                Turns.parkUntil(c.t, c.thing(), () -> !queue.isEmpty() || c.t.interrupted);
            } else if (c.begins("put") && isBounded(queue)) {
                Turns.parkUntil(c.t, c.thing(), () -> queue.remainingCapacity() > 0 || c.t.interrupted);
            }
        }

        private static boolean isBounded(Object queue) {
            return queue instanceof BlockingQueue && ((BlockingQueue<?>) queue).remainingCapacity() != Integer.MAX_VALUE;
        }

        /** Whether a call of ConcurrentHashMap works in several threads. */
        private static boolean runsOthers(Bridge.Call c) {
            return c.on instanceof java.util.concurrent.ConcurrentHashMap
                    && (c.begins("forEach") || c.begins("reduce") || c.begins("search"));
        }

        @Override
        void after(Bridge.Call c, Object result, boolean isTrue) {
            if (c.begins("take") || c.begins("poll")) {
                if (result != null) c.pass();
                else c.take();
            } else if (c.begins("compute") || c.is("merge")) c.pass();
            else c.take();
            if (runsOthers(c)) Work.gather(c.t, c.site);
            if (!Table.isReader(c.method)) Turns.unpark(c.thing());
            View.link(c, result);
        }
    }

    /** A collection without synchronization is one variable. A change reads it too, so two changes keep their order
     * if one sees the other. */
    private static class Plain extends Row {
        static void touch(Bridge.Call c) {
            c.put(Kinds.READ, Kinds.WHOLE);
            if (!Table.isReader(c.method)) c.put(Kinds.WRITE, Kinds.WHOLE);
        }

        @Override
        boolean before(Bridge.Call c) {
            touch(c);
            return Table.givesView(c.method);
        }

        @Override void after(Bridge.Call c, Object result, boolean isTrue) { View.link(c, result); }
    }

    private static final class Synchronized extends Row {
        @Override
        boolean before(Bridge.Call c) {
            // Its monitor is the collection's own.
            Locking.acquire(c.t, c.thing(), Kinds.ACQUIRE, c.site);
            Plain.touch(c);
            return true;
        }

        @Override
        void after(Bridge.Call c, Object result, boolean isTrue) {
            Locking.release(c.t, c.thing(), Kinds.RELEASE, c.site);
            View.link(c, result);
        }

        @Override void threw(Bridge.Call c) { Locking.release(c.t, c.thing(), Kinds.RELEASE, c.site); }
    }

    /** An iterator or a part of a collection: an access of the collection that it came from. */
    private static final class View extends Row {
        @Override
        boolean before(Bridge.Call c) {
            Things.Thing own = Things.of(c.t, c.on);
            if (own.base == null) return Table.givesView(c.method);
            Row of = Table.of(c.thing().type);
            if (of instanceof Plain) Plain.touch(c);
            else if (of instanceof Container && !Table.isReader(c.method)) c.pass();
            else if (of instanceof Synchronized) {
                c.put(Kinds.READ, Kinds.WHOLE);
                if (!Table.isReader(c.method)) c.put(Kinds.WRITE, Kinds.WHOLE);
            }
            return Table.givesView(c.method) || of instanceof Container;
        }

        @Override
        void after(Bridge.Call c, Object result, boolean isTrue) {
            if (Table.of(c.thing().type) instanceof Container) c.take();
            link(c, result);
        }

        private static boolean isPart(Object result) {
            Row row = Table.of(result);
            return row instanceof View || row instanceof Container && result.getClass().getName().contains("$");
        }

        static void link(Bridge.Call c, Object result) {
            if (result == null || !isPart(result)) return;
            Things.Thing of = c.thing(), view = Things.of(c.t, result);
            if (view.base == null && view != of) view.base = of;
        }
    }

    /** The methods of java.util.Collections: they go over the collection that they are given, or wrap it. */
    private static final class Helper extends Row {
        @Override
        boolean before(Bridge.Call c) {
            if (c.first == null || wraps(c)) return c.first != null;
            Things.Thing of = Work.base(c.t, c.first);
            if (!(Table.of(of.type) instanceof Plain)) return false;
            Store.put(c.t, Kinds.READ, of.number, Kinds.WHOLE, c.site);
            if (Table.isHelperThatWrites(c.method)) Store.put(c.t, Kinds.WRITE, of.number, Kinds.WHOLE, c.site);
            return false;
        }

        private static boolean wraps(Bridge.Call c) { return c.begins("unmodifiable") || c.begins("checked"); }

        @Override
        void after(Bridge.Call c, Object result, boolean isTrue) {
            Things.Thing of = Work.base(c.t, c.first);
            if (result != null && result != c.first && wraps(c)) Things.of(c.t, result).base = of;
        }
    }

    /** A way for data between threads of the program: who reads comes after who wrote. */
    private static final class Channel extends Row {
        @Override
        boolean before(Bridge.Call c) {
            boolean reads = c.begins("read") || c.begins("skip") || c.begins("available");
            if (!reads) Work.pass(c.t, Classes.field("channel", "pipes"), c.site);
            Turns.give(c.t);
            return reads;
        }

        @Override
        void after(Bridge.Call c, Object result, boolean isTrue) {
            Work.take(c.t, Classes.field("channel", "pipes"), c.site);
        }
    }
}
