// Tests of the package: Tests.exe PROGRAM EXAMPLES STREAMS. It prints the streams, and compares with what the program prints.
using System;
using System.Collections.Generic;
using System.Diagnostics;
using System.IO;
using System.Linq;
using System.Text;
using VirtualReceiptPrinter;

static class Tests
{
    static void Same(string what, object found, object wanted)
    {
        if (!Equals(found, wanted)) throw new Exception($"{what}: {found ?? "null"} in place of {wanted ?? "null"}");
    }

    static void Throws<T>(string what, string says, Action call) where T : Exception
    {
        try { call(); }
        catch (T error)
        {
            if (!error.Message.Contains(says)) throw new Exception($"{what}: {error.Message}");
            return;
        }
        throw new Exception($"{what}: nothing was thrown");
    }

    /// <summary>What the program prints and says of a stream.</summary>
    static byte[] Wanted(string program, string words, string stream, out string line)
    {
        var how = new ProcessStartInfo(program, $"{words} \"{stream}\"")
        {
            RedirectStandardOutput = true, RedirectStandardError = true, UseShellExecute = false,
        };
        using (var process = Process.Start(how))
        using (var paper = new MemoryStream())
        {
            process.StandardOutput.BaseStream.CopyTo(paper);
            line = process.StandardError.ReadToEnd().TrimEnd('\n');
            process.WaitForExit();
            return paper.ToArray();
        }
    }

    static void AsTheProgram(string program, string examples, string stream)
    {
        var isLabel = stream.EndsWith(".zpl");
        var words = isLabel ? $"label --font-a {examples}/font-a.pbm"
            : $"receipt --font-a {examples}/font-a.pbm --font-b {examples}/font-b.pbm";
        var wanted = Wanted(program, words, stream, out var line);
        Printers printers = isLabel ? new Label() : (Printers)new Receipt();
        var bytes = File.ReadAllBytes(stream);
        var paper = printers.Print(bytes);
        var printed = paper.ToPbm();
        // (an image whose stream ends within it isn't whole)
        Same($"{stream}: what is printed", printed.SequenceEqual(wanted.Take(printed.Length)), true);
        Same($"{stream}: how much", wanted.Length - printed.Length < 1 || paper.Fault != null, true);
        Same($"{stream}: its fault", paper.Fault?.ToString() ?? "", line);
        var pieces = new List<Image>();
        using (var printer = printers.Start())
        {
            for (var at = 0; at < bytes.Length; at += 7) pieces.AddRange(printer.Feed(bytes.Skip(at).Take(7).ToArray()));
            Same($"{stream}: its fault, in pieces", printer.Finish(), paper.Fault);
        }
        Same($"{stream}: in pieces", pieces.SequenceEqual(paper), true);
    }

    static byte[] Ascii(string text) => Encoding.ASCII.GetBytes(text);

    static void Images(string to)
    {
        var label = new Label().Print(Ascii("^XA^PW16^LL4^FO2,1^GB5,3,1^FS^XZ"))[0];
        Same("width", label.Width, 16);
        Same("height", label.Height, 4);
        Same("a black dot", label.IsBlack(2, 1), true);
        Same("a white dot", label.IsBlack(3, 2), false);
        Throws<ArgumentOutOfRangeException>("a dot outside", "outside of 16 dots", () => label.IsBlack(16, 0));
        File.WriteAllBytes($"{to}.png", label.ToPng(8));
        File.WriteAllBytes($"{to}.pbm", label.ToPbm());
        var other = new Label().Print(Ascii("^XA^PW16^LL4^FO2,1^GB6,3,1^FS^XZ"))[0];
        Same("no difference", label.DifferenceFrom(label), null);
        Same("a difference", other.DifferenceFrom(label), "4 dots differ, within (6, 1) to (7, 3)");
        var paper = new Receipt(width: 384).Print(Ascii("A\n\u001bJ\u0002"));
        Same("images", paper.Count, 2);
        Same("joined", $"{paper.Joined().Width} {paper.Joined().Height}", "384 36");
        Same("read again", Paper.Read(paper.ToPbm()).DifferenceFrom(paper), null);
        var whole = new Receipt(width: 384, whole: true).Print(Ascii("\u001b\u007f\u001bJ\u0002"));
        Same("an unknown command is read past", $"{whole.Joined().Width} {whole.Joined().Height} {whole.Fault}", "384 2 ");
        var added = Ascii("^XA^PW24^LL1^BY1,2^B2N,1,N^FD12^FS^XZ");
        Same("a symbol is drawn", BitConverter.ToString(new Label(whole: true).Print(added)[0].ToBytes()), "AD-2B-34");
        Same("a symbol is skipped", BitConverter.ToString(new Label(new byte[0]).Print(added)[0].ToBytes()), "00-00-00");
        Same("fewer", Paper.Read(paper[0].ToPbm()).DifferenceFrom(paper), "1 images in place of 2");
        Throws<ArgumentException>("no paper", "what vp prints", () => Paper.Read(Ascii("P4\n8 8\n1")));
        Throws<VpException>("nothing", "nothing is printed", () => new Receipt().Print(new byte[0]).Joined());
    }

    /// <summary>What a stream asks, in pieces of so many bytes, a request a line.</summary>
    static string Asked(Requests requests, byte[] stream, int piece)
    {
        using (requests)
        {
            var found = new List<Request>();
            for (var at = 0; at < stream.Length; at += piece) found.AddRange(requests.Feed(stream.Skip(at).Take(piece).ToArray()));
            var last = requests.Finish();
            if (last != null) found.Add(last);
            return string.Join("; ", found);
        }
    }

    static void Requested()
    {
        var receipt = Ascii("A\u0010\u0004\u0001\u001dv0\0\u0001\0\u0004\0\u0010\u0004\u0002\0\u001dr\u0001");
        foreach (var piece in new[] { 1, 5, 100 })
        {
            Same("what a receipt asks", Asked(Requests.OfReceipt(), receipt, piece),
                "1..4 DLE EOT 01; 12..15 DLE EOT 02; 16..19 GS r 01");
            Same("what a label asks", Asked(Requests.OfLabel(), Ascii("~HS^XA^XZ~HQES~SD1"), piece),
                "0..3 ~HS; 9..14 ~HQ 45 53; 14..18 ~SD 31");
        }
        var requests = Requests.OfLabel();
        requests.Dispose();
        requests.Dispose();
        Same("requests of a closed one", requests.Finish(), null);
        Throws<ObjectDisposedException>("requests behind their end", "", () => requests.Feed(new byte[0]));
    }

    static void Misuse()
    {
        Throws<ArgumentNullException>("no stream", "data", () => new Receipt().Print(null));
        Throws<ArgumentOutOfRangeException>("a width", "576 or 384", () => new Receipt(width: 500));
        Throws<ArgumentOutOfRangeException>("a bound", "0 or more", () => new Label(mostRows: -1));
        Throws<BadSheetException>("a sheet", "font A: S1 not P4", () => new Label(Ascii("P5")));
        Throws<TooMuchPaperException>("copies", "1000000 rows",
            () => new Label().Print(Ascii("^XA^PW100^LL100^PQ99999999^FO0,0^GB10,10^FS^XZ")));
        Throws<TooMuchPaperException>("bytes", "1000 bytes", () => new Receipt(mostBytes: 1000).Print(Ascii("\n\n\n")));
        var printer = new Receipt().Start();
        printer.Dispose();
        printer.Dispose();
        Throws<ObjectDisposedException>("behind its end", "", () => printer.Feed(new byte[0]));
        Same("no bytes", new Receipt().Print(new byte[0]).Count, 0);
        Same("an open line", new Receipt().Print(Ascii("A")).Fault.ToString(), "vp: F9 after 1 bytes: input ends before printing");
    }

    static int Main(string[] words)
    {
        foreach (var stream in Directory.GetFiles(words[1], "*.zpl").Concat(Directory.GetFiles(words[1], "*.bin"))
            .Concat(Directory.GetFiles(words[2]))) AsTheProgram(words[0], words[1], stream);
        Images(words[3]);
        Requested();
        Misuse();
        Console.WriteLine("the .NET package: ok");
        return 0;
    }
}
