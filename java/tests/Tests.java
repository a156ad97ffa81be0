import java.io.ByteArrayInputStream;
import java.io.ByteArrayOutputStream;
import java.io.IOException;
import java.io.InputStream;
import java.nio.charset.StandardCharsets;
import java.nio.file.DirectoryStream;
import java.nio.file.Files;
import java.nio.file.Path;
import java.nio.file.Paths;
import java.util.ArrayList;
import java.util.Arrays;
import java.util.List;
import java.util.Objects;
import javax.imageio.ImageIO;
import virtualreceiptprinter.Image;
import virtualreceiptprinter.Label;
import virtualreceiptprinter.Paper;
import virtualreceiptprinter.Printer;
import virtualreceiptprinter.Printers;
import virtualreceiptprinter.Receipt;
import virtualreceiptprinter.Request;
import virtualreceiptprinter.Requests;

/** Tests of the package: Tests PROGRAM EXAMPLES STREAMS. It prints the streams, and compares with what the program prints. */
final class Tests {
    private static void same(String what, Object found, Object wanted) {
        if (!Objects.equals(found, wanted)) throw new AssertionError(what + ": " + found + " in place of " + wanted);
    }

    private static void refused(String what, String says, Runnable call) {
        try {
            call.run();
        } catch (RuntimeException error) {
            if (!String.valueOf(error.getMessage()).contains(says)) throw new AssertionError(what, error);
            return;
        }
        throw new AssertionError(what + ": nothing was thrown");
    }

    private static byte[] bytes(String text) {
        return text.getBytes(StandardCharsets.ISO_8859_1);
    }

    private static byte[] all(InputStream from) throws IOException {
        ByteArrayOutputStream to = new ByteArrayOutputStream();
        byte[] part = new byte[1 << 14];
        for (int count; (count = from.read(part)) > 0; ) to.write(part, 0, count);
        return to.toByteArray();
    }

    private static void asTheProgram(String program, String examples, Path stream) throws Exception {
        boolean isLabel = stream.toString().endsWith(".zpl");
        List<String> words = new ArrayList<>(Arrays.asList(program, isLabel ? "label" : "receipt", "--font-a", examples + "/font-a.pbm"));
        if (!isLabel) words.addAll(Arrays.asList("--font-b", examples + "/font-b.pbm"));
        words.add(stream.toString());
        Path line = Files.createTempFile("line", "");
        Process process = new ProcessBuilder(words).redirectError(line.toFile()).start();
        byte[] wanted = all(process.getInputStream());
        process.waitFor();
        String said = new String(Files.readAllBytes(line), StandardCharsets.UTF_8).trim();
        Files.delete(line);
        Printers printers = isLabel ? new Label() : new Receipt();
        byte[] data = Files.readAllBytes(stream);
        Paper paper = printers.print(data);
        byte[] printed = paper.toPbm();
        // (an image whose stream ends within it isn't whole)
        same(stream + ": what is printed", Arrays.equals(printed, Arrays.copyOf(wanted, printed.length)), true);
        same(stream + ": how much", printed.length == wanted.length || paper.fault() != null, true);
        same(stream + ": its fault", paper.fault() == null ? "" : paper.fault().toString(), said);
        List<Image> pieces = new ArrayList<>();
        try (Printer printer = printers.start()) {
            for (int at = 0; at < data.length; at += 7) {
                pieces.addAll(printer.feed(Arrays.copyOfRange(data, at, Math.min(at + 7, data.length))));
            }
            same(stream + ": its fault, in pieces", printer.finish(), paper.fault());
        }
        same(stream + ": in pieces", pieces, paper);
    }

    private static void images() throws IOException {
        Image label = new Label().print(bytes("^XA^PW16^LL4^FO2,1^GB5,3,1^FS^XZ")).get(0);
        same("size", label.toString(), "an image of 16 by 4 dots");
        same("dots", label.isBlack(2, 1) + " " + label.isBlack(3, 2), "true false");
        refused("a dot outside", "outside of 16 by 4", () -> label.isBlack(16, 0));
        ByteArrayOutputStream png = new ByteArrayOutputStream();
        ImageIO.write(label.toBufferedImage(), "png", png);
        int white = ImageIO.read(new ByteArrayInputStream(png.toByteArray())).getRGB(3, 2);
        same("its PNG", Integer.toHexString(white) + " "
            + Integer.toHexString(ImageIO.read(new ByteArrayInputStream(png.toByteArray())).getRGB(2, 1)), "ffffffff ff000000");
        Image other = new Label().print(bytes("^XA^PW16^LL4^FO2,1^GB6,3,1^FS^XZ")).get(0);
        same("no difference", label.differenceFrom(label), null);
        same("a difference", other.differenceFrom(label), "4 dots differ, within (6, 1) to (7, 3)");
        Paper paper = new Receipt(384).print(bytes("A\n\u001bJ\u0002"));
        same("joined", paper.size() + " " + paper.joined(), "2 an image of 384 by 36 dots");
        same("read again", Paper.read(paper.toPbm()).differenceFrom(paper), null);
        same("fewer", Paper.read(paper.get(0).toPbm()).differenceFrom(paper), "images: 1 in place of 2");
        Paper whole = new Receipt(384, null, null, 100, 10_000, true).print(bytes("\u001b\u007f\u001bJ\u0002"));
        same("an unknown command is read past", whole.joined() + " " + whole.fault(), "an image of 384 by 2 dots null");
        byte[] added = bytes("^XA^PW24^LL1^BY1,2^B2N,1,N^FD12^FS^XZ");
        same("a symbol is drawn", new Label(null, 100, 10_000, true).print(added).get(0).isBlack(4, 0), true);
        same("a symbol is skipped", new Label(new byte[0], 100, 10_000).print(added).get(0).isBlack(4, 0), false);
        refused("no paper", "what vp prints", () -> Paper.read(bytes("P4\n8 8\n1")));
        refused("no head", "what vp prints", () -> Paper.read(bytes("P5")));
        refused("nothing", "nothing is printed", () -> new Receipt().print(new byte[0]).joined());
    }

    /** What a stream asks, in pieces of so many bytes. */
    private static String asked(Requests requests, byte[] stream, int piece) {
        List<Request> found = new ArrayList<>();
        for (int at = 0; at < stream.length; at += piece) {
            found.addAll(requests.feed(Arrays.copyOfRange(stream, at, Math.min(at + piece, stream.length))));
        }
        Request last = requests.finish();
        if (last != null) found.add(last);
        return found.toString();
    }

    private static void requested() {
        byte[] receipt = bytes("A\u0010\u0004\u0001\u001dv0\0\u0001\0\u0004\0\u0010\u0004\u0002\0\u001dr\u0001");
        for (int piece : new int[] {1, 5, 100}) {
            same("what a receipt asks", asked(Requests.ofReceipt(), receipt, piece),
                "[1..4 DLE EOT 01, 12..15 DLE EOT 02, 16..19 GS r 01]");
            same("what a label asks", asked(Requests.ofLabel(), bytes("~HS^XA^XZ~HQES~SD1"), piece),
                "[0..3 ~HS, 9..14 ~HQ 45 53, 14..18 ~SD 31]");
        }
        Requests requests = Requests.ofLabel();
        requests.close();
        requests.close();
        same("requests of a closed one", requests.finish(), null);
        refused("requests behind their end", "closed", () -> requests.feed(new byte[0]));
    }

    private static void misuse() {
        refused("no stream", "data", () -> new Receipt().print(null));
        refused("a width", "576 or 384", () -> new Receipt(500));
        refused("a bound", "0 or more", () -> new Label(null, -1, 1));
        refused("a sheet", "font A: S1 not P4", () -> new Label(bytes("P5"), 1, 1));
        refused("copies", "1000000 rows",
            () -> new Label().print(bytes("^XA^PW100^LL100^PQ99999999^FO0,0^GB10,10^FS^XZ")));
        Printer printer = new Receipt().start();
        printer.close();
        printer.close();
        refused("behind its end", "closed", () -> printer.feed(new byte[0]));
        same("an open line", new Receipt().print(bytes("A")).fault().toString(), "vp: F9 after 1 bytes: input ends before printing");
        byte[] large = new byte[200_000];
        Arrays.fill(large, (byte) '\n');
        same("a stream of several pieces", new Receipt(576, null, null, Long.MAX_VALUE, Long.MAX_VALUE).print(large).size(), 200_000);
    }

    public static void main(String[] words) throws Exception {
        for (String folder : new String[] {words[1], words[2]}) {
            try (DirectoryStream<Path> streams = Files.newDirectoryStream(Paths.get(folder), "*.{zpl,bin}")) {
                for (Path stream : streams) asTheProgram(words[0], words[1], stream);
            }
        }
        images();
        requested();
        misuse();
        System.out.println("the package for Java: ok");
    }
}
