package virtualreceiptprinter;

import java.util.Arrays;

/** A request: its name as its manual writes it ("DLE EOT", "GS r", "~HS"), the bytes behind the name, and its place. */
public final class Request {
    private final String name;
    private final byte[] arguments;
    private final long start;
    private final long end;

    Request(String name, byte[] arguments, long start, long end) {
        this.name = name;
        this.arguments = arguments;
        this.start = start;
        this.end = end;
    }

    /** Its name. */
    public String name() {
        return name;
    }

    /** The bytes behind its name. */
    public byte[] arguments() {
        return Arrays.copyOf(arguments, arguments.length);
    }

    /** How many bytes of the stream come before its first. */
    public long start() {
        return start;
    }

    /** How many bytes of the stream come before the one behind its last. */
    public long end() {
        return end;
    }

    @Override
    public String toString() {
        StringBuilder text = new StringBuilder(start + ".." + end + " " + name);
        for (byte it : arguments) text.append(String.format(" %02X", it));
        return text.toString();
    }
}
