package virtualreceiptprinter;

import java.util.ArrayList;
import java.util.List;
import java.util.regex.Matcher;
import java.util.regex.Pattern;

/** Bytes that a printer puts out, as they come, cut into images within bounds. */
final class Cutter {
    /** How an image begins, and how long that is at most. */
    private static final Pattern HEAD = Pattern.compile("P4\n([1-9][0-9]{0,8}) ([1-9][0-9]{0,8})\n");
    private static final int MOST_HEAD = 23;
    private final long mostRows;
    private final long mostBytes;
    private final StringBuilder head = new StringBuilder();
    private long rows;
    private long bytes;
    private int width;
    private int height;
    private int filled;
    private byte[] data;

    Cutter(long mostRows, long mostBytes) {
        if (mostRows < 0 || mostBytes < 0) throw new IllegalArgumentException("a bound is 0 or more");
        this.mostRows = mostRows;
        this.mostBytes = mostBytes;
    }

    /** Whether no image has begun that isn't whole. */
    boolean isWhole() {
        return data == null && head.length() == 0;
    }

    /** Begins to count anew. */
    void countAnew() {
        rows = data == null ? 0 : height;
        bytes = 0;
    }

    /** Takes bytes, and gives the images that they complete. */
    List<Image> add(byte[] part) {
        List<Image> whole = new ArrayList<>();
        bytes += part.length;
        if (bytes > mostBytes) throw new VpException("vp: more than " + mostBytes + " bytes are printed");
        for (int at = 0; at < part.length; ) {
            if (data == null) {
                takeHead((char) (part[at++] & 255));
                continue;
            }
            int count = Math.min(part.length - at, data.length - filled);
            System.arraycopy(part, at, data, filled, count);
            at += count;
            filled += count;
            if (filled < data.length) continue;
            whole.add(new Image(width, height, data));
            data = null;
        }
        return whole;
    }

    private void takeHead(char it) {
        head.append(it);
        Matcher found = HEAD.matcher(head);
        if (!found.matches()) {
            if (head.length() > MOST_HEAD || !found.hitEnd()) throw new IllegalArgumentException("it is not what vp prints");
            return;
        }
        width = Integer.parseInt(found.group(1));
        height = Integer.parseInt(found.group(2));
        rows += height;
        if (rows > mostRows) throw new VpException("vp: more than " + mostRows + " rows are printed");
        head.setLength(0);
        data = new byte[Math.multiplyExact((width + 7) / 8, height)];
        filled = 0;
    }
}
