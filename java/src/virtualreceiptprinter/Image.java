package virtualreceiptprinter;

import java.awt.image.BufferedImage;
import java.awt.image.IndexColorModel;
import java.io.ByteArrayOutputStream;
import java.nio.charset.StandardCharsets;
import java.util.Arrays;

/** An image as it was printed: rows of dots, eight to a byte. */
public final class Image {
    private final int width;
    private final int height;
    private final byte[] data;

    Image(int width, int height, byte[] data) {
        this.width = width;
        this.height = height;
        this.data = data;
    }

    /** How many dots a row has. */
    public int width() {
        return width;
    }

    /** How many rows there are. */
    public int height() {
        return height;
    }

    private int rowBytes() {
        return (width + 7) / 8;
    }

    /** Whether the dot at a place is black. */
    public boolean isBlack(int x, int y) {
        if (x < 0 || x >= width || y < 0 || y >= height) {
            throw new IndexOutOfBoundsException(x + ", " + y + " is outside of " + width + " by " + height + " dots");
        }
        return (data[rowBytes() * y + x / 8] >> (7 - x % 8) & 1) == 1;
    }

    /** All rows, each of whole bytes, the leftmost dot highest, ones black. */
    public byte[] toBytes() {
        return data.clone();
    }

    /** The image as a raw PBM, as the program vp prints it. */
    public byte[] toPbm() {
        byte[] head = ("P4\n" + width + " " + height + "\n").getBytes(StandardCharsets.US_ASCII);
        ByteArrayOutputStream made = new ByteArrayOutputStream();
        made.write(head, 0, head.length);
        made.write(data, 0, data.length);
        return made.toByteArray();
    }

    /** The image as Java's own, of one bit a dot: ImageIO writes it as PNG. */
    public BufferedImage toBufferedImage() {
        byte[] greys = {(byte) 255, 0};
        BufferedImage made = new BufferedImage(
            width, height, BufferedImage.TYPE_BYTE_BINARY, new IndexColorModel(1, 2, greys, greys, greys));
        made.getRaster().setDataElements(0, 0, width, height, dots());
        return made;
    }

    private byte[] dots() {
        byte[] dots = new byte[width * height];
        for (int y = 0; y < height; y++) {
            for (int x = 0; x < width; x++) dots[width * y + x] = (byte) (isBlack(x, y) ? 1 : 0);
        }
        return dots;
    }

    /** How this image differs from the one that is wanted, in a line; null where it doesn't. */
    public String differenceFrom(Image wanted) {
        if (width != wanted.width || height != wanted.height) {
            return width + " by " + height + " dots in place of " + wanted.width + " by " + wanted.height;
        }
        int count = 0, left = width, top = height, right = -1, bottom = -1;
        for (int y = 0; y < height; y++) {
            for (int x = 0; x < width; x++) {
                if (isBlack(x, y) == wanted.isBlack(x, y)) continue;
                count++;
                left = Math.min(left, x);
                right = Math.max(right, x);
                top = Math.min(top, y);
                bottom = y;
            }
        }
        if (count == 0) return null;
        String dots = count == 1 ? "1 dot differs" : count + " dots differ";
        return dots + ", within (" + left + ", " + top + ") to (" + right + ", " + bottom + ")";
    }

    @Override
    public boolean equals(Object other) {
        return other instanceof Image && width == ((Image) other).width && height == ((Image) other).height
            && Arrays.equals(data, ((Image) other).data);
    }

    @Override
    public int hashCode() {
        return 31 * width + height;
    }

    @Override
    public String toString() {
        return "an image of " + width + " by " + height + " dots";
    }
}
