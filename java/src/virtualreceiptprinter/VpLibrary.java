package virtualreceiptprinter;

import com.sun.jna.Library;
import com.sun.jna.Native;
import com.sun.jna.Pointer;
import java.nio.charset.StandardCharsets;

/** The library's calls, as include/vp.h has them. Lengths are size_t, which has 64 bits on each system of this package. */
interface VpLibrary extends Library {
    VpLibrary CALLS = Native.load("vp", VpLibrary.class);
    int RECEIPT = 0, RECEIPT_58 = 1, LABEL = 2, WHOLE_RECEIPT = 3, WHOLE_RECEIPT_58 = 4, WHOLE_LABEL = 5;
    int OK = 0, NO_MEMORY = 1;
    int MORE = 0, ROOM = 1, STOPPED = 2;
    /** How long a text of the library is at most, with its 0. */
    int LINE = 96;
    /** The bytes of a handle, of vp_progress and of vp_fault, and the places in vp_progress. */
    int HANDLE = 8, PROGRESS = 24, FAULT = 4, TAKEN = 0, PUT = 8, STATE = 16, FAULT_AT = 20;
    /** The bytes of vp_request, and the places in it behind its name. */
    int REQUEST = 1056, REQUEST_START = 8, REQUEST_END = 16, REQUEST_COUNT = 24, REQUEST_ARGUMENTS = 28;

    int vp_new(int language, byte[] fontA, long lengthA, byte[] fontB, long lengthB, Pointer made);

    int vp_step(Pointer printer, Pointer input, long length, Pointer output, long room, Pointer done);

    int vp_finish(Pointer printer, Pointer fault);

    void vp_free(Pointer printer);

    int vp_new_requests(int language, Pointer made);

    int vp_next_request(Pointer requests, Pointer input, long length, Pointer taken, Pointer request);

    int vp_last_request(Pointer requests, Pointer request);

    void vp_free_requests(Pointer requests);

    long vp_fault_line(Pointer fault, long after, byte[] line, long room);

    long vp_answer_text(int answer, byte[] text, long room);

    long vp_version(byte[] text, long room);

    /** The fault that the library tells of, after so many bytes; null where it tells of none. */
    static Fault faultOf(Pointer fault, long after) {
        int number = fault.getByte(0);
        if (number == 0) return null;
        byte[] line = new byte[LINE];
        int length = (int) CALLS.vp_fault_line(fault, after, line, LINE);
        String said = new String(line, 0, length, StandardCharsets.US_ASCII);
        return new Fault(number, said.split(": ", 3)[2], after);
    }

    /** What an answer of vp_new means. */
    static String answerText(int answer) {
        byte[] text = new byte[LINE];
        return new String(text, 0, (int) CALLS.vp_answer_text(answer, text, LINE), StandardCharsets.US_ASCII);
    }
}
