package planecarmine;

import java.io.IOException;
import java.io.RandomAccessFile;
import java.nio.ByteOrder;
import java.nio.MappedByteBuffer;
import java.nio.channels.ClosedByInterruptException;
import java.nio.channels.FileChannel;
import java.nio.charset.StandardCharsets;

/** The raw file: chunks of records and chunks of names, written as the program runs.
 *
 * A chunk is written as zeros first, so a full disk is found here, and mapped then. So the file has all records up to
 * the end of the program, however it ends. */
final class Store {
    private Store() { }

    private static final Object FILE = new Object(), NAMES = new Object();
    /** How many chunks are written before the free space of the disk matters. */
    private static final int UNWATCHED = 64;
    private static String path;
    private static int chunks;
    private static MappedByteBuffer records, names, head;
    private static int at = Kinds.CHUNK, namesAt = Kinds.CHUNK;
    private static long written, most = Long.MAX_VALUE;

    static void open(String to, long mostRecords) throws IOException {
        path = to;
        most = mostRecords;
        head = chunk(Kinds.NAMES);
        if (head == null) throw new IOException("no room for the records in " + to);
        names = head;
        namesAt = Kinds.HEAD;
    }

    static void noteTurns(long turns, long forced) {
        head.putLong(Kinds.TURNS_AT, turns);
        head.putLong(Kinds.FORCED_AT, forced);
    }

    static boolean isEmpty() { return records == null; }

    /** Writes a record; the caller has the turn. After the recording no thread has it: they all go on freely. */
    static void put(Turns.T t, int kind, int thing, int part, int site) {
        if (!Turns.on) return;
        boolean isTick = Kinds.isTick(kind);
        t.lastSite = site;
        if (isTick && Follow.on) Follow.before(t, kind, thing, part, site);
        if (t.node != t.writtenNode) {
            t.writtenNode = t.node;
            write(Kinds.NODE, t.number, t.node, 0, 0);
        }
        write(kind, t.number, thing, part, site);
        if (!isTick) return;
        t.ticks++;
        if (Follow.on) Follow.passed(t, kind, site);
    }

    static long written() { return written; }

    private static void write(int kind, int thread, int thing, int part, int site) {
        if (at == Kinds.CHUNK && !nextRecords()) return;
        records.putLong(at + 8, (long) part << 32 | site & 0xffffffffL);
        records.putLong(at, (long) kind << 56 | (long) thread << 32 | thing & 0xffffffffL);
        at += Kinds.RECORD;
        written++;
    }

    private static boolean nextRecords() {
        if (!Turns.on) return false;
        if (written >= most) {
            stop("ROOM");
            return false;
        }
        MappedByteBuffer next = chunk(Kinds.RECORDS);
        if (next == null) return false;
        records = next;
        at = Kinds.HEAD;
        return true;
    }

    /** Records nothing more; the reason stays in the file, if there is room for it. */
    static void stop(String cause) {
        if (!Turns.on) return;
        name(Kinds.FACT, 0, 0, 0, "stopped " + cause);
        Turns.stop();
    }

    /** Writes an entry of the names; any thread may. */
    static void name(int kind, int a, int b, int c, String text) {
        byte[] bytes = text.getBytes(StandardCharsets.UTF_8);
        int length = Math.min(bytes.length, 1 << 14), size = length + 20;
        synchronized (NAMES) {
            if (namesAt + size + 4 > Kinds.CHUNK) {
                MappedByteBuffer next = chunk(Kinds.NAMES);
                if (next == null) return;
                names = next;
                namesAt = Kinds.HEAD;
            }
            names.putInt(namesAt + 4, kind);
            names.putInt(namesAt + 8, a);
            names.putInt(namesAt + 12, b);
            names.putInt(namesAt + 16, c);
            for (int k = 0; k < length; k++) names.put(namesAt + 20 + k, bytes[k]);
            names.putInt(namesAt, size);
            namesAt += size;
        }
    }

    /** The next chunk of the file; null if the disk is full, and then nothing more is recorded. */
    private static MappedByteBuffer chunk(int sort) {
        synchronized (FILE) {
            try {
                if (chunks >= UNWATCHED && isNearlyFull()) throw new IOException("the disk is nearly full");
                MappedByteBuffer made = mapped((long) chunks * Kinds.CHUNK);
                made.order(ByteOrder.LITTLE_ENDIAN);
                made.putInt(0, Kinds.MAGIC);
                made.putInt(4, sort);
                chunks++;
                return made;
            } catch (IOException | OutOfMemoryError | InternalError e) {
                if (sort == Kinds.RECORDS) stop("DISK");
                else Turns.stop();
                return null;
            }
        }
    }

    private static boolean isNearlyFull() {
        java.io.File file = new java.io.File(path);
        long total = file.getTotalSpace();
        return total > 0 && chunks % UNWATCHED == 0 && file.getUsableSpace() < total / 10;
    }

    /** An interrupt of this thread would close the channel: it is kept for later. */
    private static MappedByteBuffer mapped(long from) throws IOException {
        boolean interrupted = Thread.interrupted();
        try {
            while (true) {
                try (RandomAccessFile file = new RandomAccessFile(path, "rw")) {
                    file.seek(from);
                    file.write(new byte[Kinds.CHUNK]);
                    return file.getChannel().map(FileChannel.MapMode.READ_WRITE, from, Kinds.CHUNK);
                } catch (ClosedByInterruptException e) {
                    interrupted |= Thread.interrupted();
                }
            }
        } finally {
            if (interrupted) Turns.interruptAgain();
        }
    }
}
