package virtualreceiptprinter;

/** Printers of labels, ZPL II. All is as with receipts; every font is of font A's sheet. */
public final class Label extends Printers {
    /** With the shipped sheet. */
    public Label() {
        this(null, DEFAULT_ROWS, DEFAULT_BYTES);
    }

    public Label(byte[] fontA, long mostRows, long mostBytes) {
        this(fontA, mostRows, mostBytes, false);
    }

    /** By the whole language more commands are read, as of more symbols: else they are skipped. */
    public Label(byte[] fontA, long mostRows, long mostBytes, boolean whole) {
        super(whole ? VpLibrary.WHOLE_LABEL : VpLibrary.LABEL, fontA, new byte[0], mostRows, mostBytes);
    }
}
