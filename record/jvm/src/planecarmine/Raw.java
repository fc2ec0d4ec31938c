package planecarmine;

import java.io.IOException;
import java.io.RandomAccessFile;
import java.nio.ByteOrder;
import java.nio.MappedByteBuffer;
import java.nio.channels.FileChannel;
import java.nio.charset.StandardCharsets;
import java.util.ArrayList;
import java.util.Arrays;
import java.util.List;

/** The raw file of a run, for the decoder: its names, and its records in their order. */
final class Raw implements AutoCloseable {
    /** What a pass over the records does with each. */
    interface Pass {
        /** Whether the pass goes on. `node` is that of the calls which the thread is in. */
        boolean take(Record r);
    }

    static final class Record {
        int kind, thread, thing, part, site, node;
    }

    /** The names by their numbers. */
    final List<String> fields = new ArrayList<>(), classes = new ArrayList<>(), methods = new ArrayList<>();
    final List<String> files = new ArrayList<>(), noHooks = new ArrayList<>(), unknownThreads = new ArrayList<>();
    final List<String> loaded = new ArrayList<>();
    final List<Integer> lines = new ArrayList<>();
    final List<int[]> calls = new ArrayList<>();
    /** Of a deadlock: each thread, its lock, the site where it waits, and the thread that has the lock. */
    final List<int[]> deadlock = new ArrayList<>();
    String stopped = "";
    long cut, turns, forced, records;
    private final RandomAccessFile file;
    private final List<Long> chunks = new ArrayList<>();

    Raw(String path) throws IOException {
        file = new RandomAccessFile(path, "r");
        calls.add(new int[3]);
        long size = file.length();
        if (size < Kinds.CHUNK || mapped(0).getInt(0) != Kinds.MAGIC) throw new IOException("the file has no records");
        for (long at = 0; at + Kinds.CHUNK <= size; at += Kinds.CHUNK) {
            MappedByteBuffer chunk = mapped(at);
            if (chunk.getInt(0) != Kinds.MAGIC) break;
            if (at == 0) {
                turns = chunk.getLong(Kinds.TURNS_AT);
                forced = chunk.getLong(Kinds.FORCED_AT);
            }
            if (chunk.getInt(4) == Kinds.RECORDS) chunks.add(at);
            else readNames(chunk);
        }
    }

    @Override public void close() throws IOException { file.close(); }

    private MappedByteBuffer mapped(long at) throws IOException {
        MappedByteBuffer chunk = file.getChannel().map(FileChannel.MapMode.READ_ONLY, at, Kinds.CHUNK);
        chunk.order(ByteOrder.LITTLE_ENDIAN);
        return chunk;
    }

    private void readNames(MappedByteBuffer chunk) {
        for (int at = Kinds.HEAD; at + 20 < Kinds.CHUNK;) {
            int size = chunk.getInt(at);
            if (size < 20 || at + size > Kinds.CHUNK) return;
            byte[] text = new byte[size - 20];
            for (int k = 0; k < text.length; k++) text[k] = chunk.get(at + 20 + k);
            entry(chunk.getInt(at + 4), chunk.getInt(at + 8), chunk.getInt(at + 12), chunk.getInt(at + 16),
                    new String(text, StandardCharsets.UTF_8));
            at += size;
        }
    }

    private static <X> void set(List<X> list, int number, X value) {
        while (list.size() <= number) list.add(null);
        list.set(number, value);
    }

    private void entry(int kind, int a, int b, int c, String text) {
        switch (kind) {
            case Kinds.FIELD: set(fields, a, text); break;
            case Kinds.CLASS: set(classes, a, text); break;
            case Kinds.METHOD: set(methods, a, text); break;
            case Kinds.SITE:
                set(files, a, text);
                set(lines, a, b);
                break;
            case Kinds.CALL: calls.add(new int[] {a, b, c}); break;
            case Kinds.NO_HOOKS: noHooks.add(text); break;
            case Kinds.UNKNOWN_THREAD: unknownThreads.add(text); break;
            case Kinds.LOADED: loaded.add(text); break;
            case Kinds.DEADLOCK: deadlock.add(new int[] {a, b, c, Integer.parseInt(text)}); break;
            case Kinds.FACT:
                if (text.startsWith("stopped ")) stopped = text.substring(8);
                else cut += a;
                break;
            default:
        }
    }

    /** Goes over all records but those of the nodes. */
    void go(Pass pass) throws IOException {
        Record r = new Record();
        int[] nodes = new int[64];
        records = 0;
        for (long from : chunks) {
            MappedByteBuffer chunk = mapped(from);
            for (int at = Kinds.HEAD; at < Kinds.CHUNK; at += Kinds.RECORD) {
                long first = chunk.getLong(at), second = chunk.getLong(at + 8);
                r.kind = (int) (first >>> 56);
                if (r.kind == Kinds.VOID) break;
                records++;
                r.thread = (int) (first >>> 32) & 0xffffff;
                r.thing = (int) first;
                if (r.thread >= nodes.length) nodes = Arrays.copyOf(nodes, 2 * r.thread);
                if (r.kind == Kinds.NODE) {
                    nodes[r.thread] = r.thing;
                    continue;
                }
                r.part = (int) (second >>> 32);
                r.site = (int) second;
                r.node = nodes[r.thread];
                if (!pass.take(r)) return;
            }
        }
    }
}
