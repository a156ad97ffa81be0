package virtualreceiptprinter;

import java.io.ByteArrayOutputStream;
import java.io.IOException;
import java.io.InputStream;
import java.io.UncheckedIOException;
import java.nio.charset.StandardCharsets;
import java.util.List;

/** Printers of a language with sheets, each as it was when it was switched on. */
public abstract class Printers {
    /** What a stream, or what is fed at once, prints at most where no other bound is given: 125 metres of rows in 8 dots a
     * millimetre, and 64 MiB. */
    public static final long DEFAULT_ROWS = 1_000_000, DEFAULT_BYTES = 1 << 26;
    private final int language;
    private final byte[] fontA;
    private final byte[] fontB;
    private final long mostRows;
    private final long mostBytes;

    Printers(int language, byte[] fontA, byte[] fontB, long mostRows, long mostBytes) {
        this.language = language;
        this.fontA = fontA == null ? sheet("font-a.pbm") : fontA.clone();
        this.fontB = fontB == null ? sheet("font-b.pbm") : fontB.clone();
        this.mostRows = mostRows;
        this.mostBytes = mostBytes;
        start().close();
    }

    /** The version of the library that prints. */
    public static String version() {
        byte[] text = new byte[VpLibrary.LINE];
        return new String(text, 0, (int) VpLibrary.CALLS.vp_version(text, text.length), StandardCharsets.US_ASCII);
    }

    /** The paper of a whole stream, by a printer that was just switched on. */
    public Paper print(byte[] stream) {
        try (Printer printer = start()) {
            List<Image> images = printer.feed(stream);
            return new Paper(images, printer.finish());
        }
    }

    /** A printer that was just switched on, to be fed in pieces. */
    public Printer start() {
        return new Printer(language, fontA, fontB, new Cutter(mostRows, mostBytes));
    }

    private static byte[] sheet(String name) {
        try (InputStream from = Printers.class.getResourceAsStream(name)) {
            ByteArrayOutputStream to = new ByteArrayOutputStream();
            byte[] part = new byte[1 << 14];
            for (int count; (count = from.read(part)) > 0; ) to.write(part, 0, count);
            return to.toByteArray();
        } catch (IOException error) {
            throw new UncheckedIOException(error);
        }
    }
}
