package virtualreceiptprinter;

import java.io.ByteArrayOutputStream;
import java.util.AbstractList;
import java.util.ArrayList;
import java.util.List;

/** The images of a stream, in turn, and the fault that it ends in. */
public final class Paper extends AbstractList<Image> {
    private final List<Image> images;
    private final Fault fault;

    Paper(List<Image> images, Fault fault) {
        this.images = images;
        this.fault = fault;
    }

    /** The paper of bytes that vp printed, as a file of toPbm. */
    public static Paper read(byte[] printed) {
        Cutter cutter = new Cutter(Long.MAX_VALUE, Long.MAX_VALUE);
        List<Image> images = cutter.add(printed);
        if (!cutter.isWhole()) throw new IllegalArgumentException("it is not what vp prints");
        return new Paper(images, null);
    }

    /** The fault that the stream ends in; null where it has none. */
    public Fault fault() {
        return fault;
    }

    @Override
    public Image get(int at) {
        return images.get(at);
    }

    @Override
    public int size() {
        return images.size();
    }

    /** All of it, byte for byte as the program vp prints it. */
    public byte[] toPbm() {
        ByteArrayOutputStream made = new ByteArrayOutputStream();
        for (Image image : images) {
            byte[] pbm = image.toPbm();
            made.write(pbm, 0, pbm.length);
        }
        return made.toByteArray();
    }

    /** One image of all, one below the other. They have one width, and there is at least one. */
    public Image joined() {
        if (images.isEmpty()) throw new VpException("nothing is printed");
        ByteArrayOutputStream rows = new ByteArrayOutputStream();
        int width = images.get(0).width(), height = 0;
        for (Image image : images) {
            if (image.width() != width) throw new VpException("images of several widths are not one image");
            byte[] data = image.toBytes();
            rows.write(data, 0, data.length);
            height += image.height();
        }
        return new Image(width, height, rows.toByteArray());
    }

    /** How this paper differs from the one that is wanted, in a line for each image; null where it doesn't. */
    public String differenceFrom(Paper wanted) {
        List<String> said = new ArrayList<>();
        if (size() != wanted.size()) said.add("images: " + size() + " in place of " + wanted.size());
        for (int at = 0; at < Math.min(size(), wanted.size()); at++) {
            String difference = get(at).differenceFrom(wanted.get(at));
            if (difference != null) said.add("image " + (at + 1) + ": " + difference);
        }
        return said.isEmpty() ? null : String.join("\n", said);
    }
}
