package virtualreceiptprinter;

import java.util.Objects;

/** Where a stream is wrong. */
public final class Fault {
    private final int number;
    private final String text;
    private final long after;

    Fault(int number, String text, long after) {
        this.number = number;
        this.text = text;
        this.after = after;
    }

    /** 1 to 9, as the documents number faults. */
    public int number() {
        return number;
    }

    /** What the fault says, as "unknown command 1B 7F". */
    public String text() {
        return text;
    }

    /** How many bytes of the stream were read by then. */
    public long after() {
        return after;
    }

    /** The line that the program vp prints of it. */
    @Override
    public String toString() {
        return "vp: F" + number + " after " + after + " bytes: " + text;
    }

    @Override
    public boolean equals(Object other) {
        return other instanceof Fault && toString().equals(other.toString());
    }

    @Override
    public int hashCode() {
        return Objects.hash(number, text, after);
    }
}
