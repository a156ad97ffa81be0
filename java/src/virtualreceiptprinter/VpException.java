package virtualreceiptprinter;

/** What this library throws where nothing can be printed, or no more: a sheet that is none, more paper than is allowed. */
public final class VpException extends RuntimeException {
    private static final long serialVersionUID = 1;

    VpException(String message) {
        super(message);
    }
}
