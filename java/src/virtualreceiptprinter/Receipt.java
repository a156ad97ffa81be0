package virtualreceiptprinter;

/** Printers of receipts, ESC/POS, on paper of 576 or 384 dots. A sheet is the bytes of a raw PBM of 16 by 16 cells, 12 by 24
 * dots for font A and 9 by 17 for font B; null is the shipped one, and no bytes are white characters. */
public final class Receipt extends Printers {
    /** On paper of 576 dots, with the shipped sheets. */
    public Receipt() {
        this(576);
    }

    /** On paper of this width, with the shipped sheets. */
    public Receipt(int width) {
        this(width, null, null, DEFAULT_ROWS, DEFAULT_BYTES);
    }

    public Receipt(int width, byte[] fontA, byte[] fontB, long mostRows, long mostBytes) {
        this(width, fontA, fontB, mostRows, mostBytes, false);
    }

    /** By the whole language all commands of ESC/POS are read, and past what is none: else that is a fault, F1. */
    public Receipt(int width, byte[] fontA, byte[] fontB, long mostRows, long mostBytes, boolean whole) {
        super(paper(width, whole), fontA, fontB, mostRows, mostBytes);
    }

    private static int paper(int width, boolean whole) {
        if (width != 576 && width != 384) {
            throw new IllegalArgumentException("paper is 576 or 384 dots wide, and not " + width);
        }
        if (whole) return width == 576 ? VpLibrary.WHOLE_RECEIPT : VpLibrary.WHOLE_RECEIPT_58;
        return width == 576 ? VpLibrary.RECEIPT : VpLibrary.RECEIPT_58;
    }
}
