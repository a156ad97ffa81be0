package virtualreceiptprinter;

import com.sun.jna.Memory;
import java.util.ArrayList;
import java.util.List;
import java.util.Objects;

/** A printer that is fed as bytes come, and gives each image once it is whole. Threads that use one take turns. Close it. */
public final class Printer implements AutoCloseable {
    private static final int STEP = 1 << 16;
    private final Cutter cutter;
    private final Memory printer = new Memory(VpLibrary.HANDLE);
    private final Memory done = new Memory(VpLibrary.PROGRESS);
    // (a byte more, so that what is left begins within it)
    private final Memory input = new Memory(STEP + 1);
    private final Memory output = new Memory(STEP);
    private long taken;
    private Fault fault;
    private boolean isOpen;

    Printer(int language, byte[] fontA, byte[] fontB, Cutter cutter) {
        this.cutter = cutter;
        int answer = VpLibrary.CALLS.vp_new(language, fontA, fontA.length, fontB, fontB.length, printer);
        if (answer == VpLibrary.NO_MEMORY) throw new OutOfMemoryError("vp: " + VpLibrary.answerText(answer));
        if (answer != VpLibrary.OK) {
            throw new VpException("vp: font " + (answer < 20 ? "A" : "B") + ": " + VpLibrary.answerText(answer));
        }
        isOpen = true;
    }

    /** The fault that stopped the printer, or that its stream ended in; null where there is none. */
    public synchronized Fault fault() {
        return fault;
    }

    /** Takes bytes, and gives the images that they complete. Behind a fault nothing is printed any more. */
    public synchronized List<Image> feed(byte[] data) {
        Objects.requireNonNull(data, "data");
        if (!isOpen) throw new IllegalStateException("the printer is closed");
        List<Image> images = new ArrayList<>();
        cutter.countAnew();
        try {
            for (int at = 0; at < data.length && fault == null; at += STEP) {
                int length = Math.min(STEP, data.length - at);
                input.write(0, data, at, length);
                feedInput(length, images);
            }
        } catch (RuntimeException | Error error) {
            close();
            throw error;
        }
        return images;
    }

    private void feedInput(int length, List<Image> images) {
        int at = 0;
        do {
            VpLibrary.CALLS.vp_step(printer, input.share(at), length - at, output, STEP, done);
            at += (int) done.getLong(VpLibrary.TAKEN);
            taken += done.getLong(VpLibrary.TAKEN);
            images.addAll(cutter.add(output.getByteArray(0, (int) done.getLong(VpLibrary.PUT))));
        } while (done.getInt(VpLibrary.STATE) == VpLibrary.ROOM);
        if (done.getInt(VpLibrary.STATE) == VpLibrary.STOPPED) {
            fault = VpLibrary.faultOf(done.share(VpLibrary.FAULT_AT), taken);
        }
    }

    /** Ends the stream: gives the fault that it ends in, or null, and closes the printer. */
    public synchronized Fault finish() {
        if (isOpen && fault == null) {
            Memory told = new Memory(VpLibrary.FAULT);
            if (VpLibrary.CALLS.vp_finish(printer, told) == VpLibrary.OK) fault = VpLibrary.faultOf(told, taken);
        }
        close();
        return fault;
    }

    /** Gives the printer's memory back. It prints no more. */
    @Override
    public synchronized void close() {
        if (isOpen) VpLibrary.CALLS.vp_free(printer);
        isOpen = false;
    }
}
