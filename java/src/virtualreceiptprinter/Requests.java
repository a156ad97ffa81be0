package virtualreceiptprinter;

import com.sun.jna.Memory;
import java.nio.charset.StandardCharsets;
import java.util.ArrayList;
import java.util.List;
import java.util.Objects;

/**
 * What a stream asks of its printer: its state, its name, its settings. It prints nothing: beside a printer it is fed the
 * same bytes, in any pieces, and gives each request as soon as it is known. The real-time requests of receipts (DLE) are
 * found in all bytes, also within pictures. Threads that use one take turns. Close it.
 */
public final class Requests implements AutoCloseable {
    private static final int STEP = 1 << 16;
    private final Memory requests = new Memory(VpLibrary.HANDLE);
    private final Memory taken = new Memory(8);
    private final Memory request = new Memory(VpLibrary.REQUEST);
    // (a byte more, so that what is left begins within it)
    private final Memory input = new Memory(STEP + 1);
    private boolean isOpen;

    private Requests(int language) {
        int answer = VpLibrary.CALLS.vp_new_requests(language, requests);
        if (answer != VpLibrary.OK) throw new OutOfMemoryError("vp: " + VpLibrary.answerText(answer));
        isOpen = true;
    }

    /** Those of a receipt, ESC/POS. */
    public static Requests ofReceipt() {
        return new Requests(VpLibrary.RECEIPT);
    }

    /** Those of a label, ZPL II. */
    public static Requests ofLabel() {
        return new Requests(VpLibrary.LABEL);
    }

    /** Takes bytes, and gives the requests that they make known. */
    public synchronized List<Request> feed(byte[] data) {
        Objects.requireNonNull(data, "data");
        if (!isOpen) throw new IllegalStateException("the requests are closed");
        List<Request> found = new ArrayList<>();
        for (int at = 0; at < data.length; at += STEP) {
            int length = Math.min(STEP, data.length - at);
            input.write(0, data, at, length);
            feedInput(length, found);
        }
        return found;
    }

    private void feedInput(int length, List<Request> found) {
        int at = 0;
        while (true) {
            VpLibrary.CALLS.vp_next_request(requests, input.share(at), length - at, taken, request);
            at += (int) taken.getLong(0);
            Request told = told();
            if (told == null) return;
            found.add(told);
        }
    }

    /** What the stream asks if it ends here, and closes this: a label's last request, whose arguments could go on; else null. */
    public synchronized Request finish() {
        if (!isOpen) return null;
        VpLibrary.CALLS.vp_last_request(requests, request);
        close();
        return told();
    }

    private Request told() {
        byte[] bytes = request.getByteArray(0, VpLibrary.REQUEST_START);
        String name = new String(bytes, StandardCharsets.US_ASCII).replace("\0", "");
        if (name.isEmpty()) return null;
        byte[] arguments = request.getByteArray(VpLibrary.REQUEST_ARGUMENTS, request.getInt(VpLibrary.REQUEST_COUNT));
        return new Request(name, arguments, request.getLong(VpLibrary.REQUEST_START), request.getLong(VpLibrary.REQUEST_END));
    }

    /** Gives its memory back. */
    @Override
    public synchronized void close() {
        if (isOpen) VpLibrary.CALLS.vp_free_requests(requests);
        isOpen = false;
    }
}
