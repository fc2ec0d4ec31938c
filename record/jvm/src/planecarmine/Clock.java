package planecarmine;

import java.io.IOException;
import java.io.OutputStream;
import java.nio.ByteBuffer;
import java.nio.ByteOrder;
import java.nio.charset.StandardCharsets;

/** Writes the parts of a clock, which record/java_clock.py puts together: the records in the form of
 * ../../../runtime/format.h, for each event the number of its record, and the names. */
final class Clock {
    /** The word before a record that is whole, and the size of both. */
    private static final long LONG = 1;
    private static final int SIZE = 56;
    private static final int MOST_THREADS = 1 << 16;
    /** What a record of a lock has if its call waits for nobody, or not for ever. */
    private static final int BY_TRY = 2;

    private final OutputStream records, events;
    private final ByteBuffer record = ByteBuffer.allocate(SIZE).order(ByteOrder.LITTLE_ENDIAN);
    private final ByteBuffer word = ByteBuffer.allocate(8).order(ByteOrder.LITTLE_ENDIAN);
    private long[] ticks = new long[64];
    /** A record has the number of its first word. */
    private long last, words;
    private final Raw raw;
    private final long[] places;
    boolean hasTooMany;

    Clock(Raw raw, OutputStream records, OutputStream events) {
        this.raw = raw;
        this.records = records;
        this.events = events;
        places = new long[raw.files.size()];
        for (int site = 1; site < places.length; site++)
            if (raw.files.get(site) != null) places[site] = Places.of(raw.files.get(site), raw.lines.get(site));
    }

    private long place(int site) { return site > 0 && site < places.length ? places[site] : 0; }

    /** The records that are no ticks have no clock, so they are left out. */
    void take(Raw.Record r) throws IOException {
        if (!Kinds.isTick(r.kind)) return;
        if (r.thread >= MOST_THREADS) hasTooMany = true;
        if (r.thread >= ticks.length) ticks = java.util.Arrays.copyOf(ticks, 2 * r.thread);
        boolean isThread = Variables.isThread(r.kind), isLock = Variables.isLock(r.kind);
        last = words;
        words += SIZE / 8;
        record.clear();
        record.putLong(LONG);
        int part = isLock ? Kinds.LOCK : r.part;
        record.putLong(isThread ? r.thing : (long) r.thing << 32 | part & 0xffffffffL);
        record.putLong(place(r.site));
        record.putLong(++ticks[r.thread] << 16);
        record.putLong(isLock && r.part == Kinds.LATE ? 1 : 0);
        record.putInt(1);
        record.putInt(0);
        record.putShort((short) r.thread);
        record.put((byte) Follow.format(r.kind));
        record.put((byte) 1);
        record.put((byte) (isLock && r.part == Kinds.TRY ? BY_TRY : 0));
        record.put((byte) 0);
        record.putShort((short) 0);
        records.write(record.array());
    }

    /** The last record has one more line. */
    void event() throws IOException {
        word.clear();
        word.putLong(last);
        events.write(word.array());
    }

    /** Lines `place NUMBER TEXT` and `class NAME DIGEST`. */
    void writeNames(Naming naming, OutputStream names) throws IOException {
        for (int site = 1; site < places.length; site++)
            if (places[site] != 0) line(names, "place " + Long.toHexString(places[site]) + " " + naming.place(site));
        for (String text : raw.loaded) line(names, "class " + text);
    }

    private static void line(OutputStream names, String text) throws IOException {
        names.write((text.replace('\n', '?').replace('\r', '?') + "\n").getBytes(StandardCharsets.UTF_8));
    }
}
