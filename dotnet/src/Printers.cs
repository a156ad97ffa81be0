// Printers of receipts and labels.
using System;
using System.Collections.Generic;
using System.IO;
using System.Reflection;

namespace VirtualReceiptPrinter
{
    /// <summary>Printers of a language with sheets, each as it was when it was switched on.</summary>
    public abstract class Printers
    {
        /// <summary>What a stream, or what is fed at once, prints at most where no other bound is given: 125 metres of rows
        /// in 8 dots a millimetre, and 64 MiB.</summary>
        public const long DefaultRows = 1000000, DefaultBytes = 1 << 26;

        readonly uint language;
        readonly byte[] fontA, fontB;
        readonly long mostRows, mostBytes;

        internal Printers(uint language, byte[] fontA, byte[] fontB, long mostRows, long mostBytes)
        {
            if (mostRows < 0) throw new ArgumentOutOfRangeException(nameof(mostRows), "a bound is 0 or more");
            if (mostBytes < 0) throw new ArgumentOutOfRangeException(nameof(mostBytes), "a bound is 0 or more");
            this.language = language;
            this.fontA = fontA ?? Sheet("font-a.pbm");
            this.fontB = fontB ?? Sheet("font-b.pbm");
            this.mostRows = mostRows;
            this.mostBytes = mostBytes;
            Start().Dispose();
        }

        /// <summary>The version of the library that prints.</summary>
        public static string Version => Native.Version();

        /// <summary>The paper of a whole stream, by a printer that was just switched on.</summary>
        public Paper Print(byte[] stream)
        {
            using (var printer = Start())
            {
                var images = printer.Feed(stream);
                return new Paper(images, printer.Finish());
            }
        }

        /// <summary>A printer that was just switched on, to be fed in pieces.</summary>
        public Printer Start() => new Printer(language, fontA, fontB, new Cutter(mostRows, mostBytes));

        static byte[] Sheet(string name)
        {
            using (var from = typeof(Printers).GetTypeInfo().Assembly.GetManifestResourceStream(name))
            using (var to = new MemoryStream())
            {
                from.CopyTo(to);
                return to.ToArray();
            }
        }
    }

    /// <summary>Printers of receipts, ESC/POS, on paper of 576 or 384 dots. A sheet is the bytes of a raw PBM of 16 by 16
    /// cells, 12 by 24 dots for font A and 9 by 17 for font B; null is the shipped one, and no bytes are white characters.
    /// By the whole language all commands of ESC/POS are read, and past what is none: else that is a fault, F1.</summary>
    public sealed class Receipt : Printers
    {
        public Receipt(byte[] fontA = null, byte[] fontB = null, int width = 576, long mostRows = DefaultRows,
            long mostBytes = DefaultBytes, bool whole = false)
            : base(Paper(width, whole), fontA, fontB, mostRows, mostBytes) { }

        static uint Paper(int width, bool whole)
        {
            switch (width)
            {
                case 576: return whole ? Native.WholeReceipt : Native.Receipt;
                case 384: return whole ? Native.WholeReceipt58 : Native.Receipt58;
                default: throw new ArgumentOutOfRangeException(nameof(width), $"paper is 576 or 384 dots wide, and not {width}");
            }
        }
    }

    /// <summary>Printers of labels, ZPL II. All is as with receipts; every font is of font A's sheet. By the whole language
    /// more commands are read, as of more symbols: else they are skipped.</summary>
    public sealed class Label : Printers
    {
        public Label(byte[] fontA = null, long mostRows = DefaultRows, long mostBytes = DefaultBytes, bool whole = false)
            : base(whole ? Native.WholeLabel : Native.Label, fontA, new byte[0], mostRows, mostBytes) { }
    }

    /// <summary>A printer that is fed as bytes come, and gives each image once it is whole. One thread at a time uses it.
    /// </summary>
    public sealed class Printer : IDisposable
    {
        const int Step = 1 << 16;
        readonly Cutter cutter;
        readonly byte[] paper = new byte[Step];
        NativePrinter printer;
        long taken;
        bool isOpen;

        /// <summary>The fault that stopped the printer, or that its stream ended in; null where there is none.</summary>
        public Fault Fault { get; private set; }

        internal Printer(uint language, byte[] fontA, byte[] fontB, Cutter cutter)
        {
            this.cutter = cutter;
            var answer = Native.vp_new(
                language, fontA, (UIntPtr)fontA.Length, fontB, (UIntPtr)fontB.Length, out printer);
            if (answer == Native.NoMemory) throw new OutOfMemoryException("vp: " + Native.AnswerText(answer));
            if (answer != Native.Ok)
                throw new BadSheetException($"vp: font {(answer < 20 ? 'A' : 'B')}: {Native.AnswerText(answer)}");
            isOpen = true;
        }

        ~Printer() { Free(); }

        /// <summary>Takes bytes, and gives the images that they complete. Behind a fault nothing is printed any more.
        /// </summary>
        public IReadOnlyList<Image> Feed(byte[] data)
        {
            if (data == null) throw new ArgumentNullException(nameof(data));
            if (!isOpen) throw new ObjectDisposedException(nameof(Printer));
            var images = new List<Image>();
            cutter.CountAnew();
            try
            {
                var at = 0;
                NativeProgress done;
                do
                {
                    done = TakeStep(data, at);
                    at += (int)done.Taken;
                    taken += (long)done.Taken;
                    images.AddRange(cutter.Add(paper, (int)done.Put));
                } while (done.State == Native.Room);
                if (done.State == Native.Stopped) Fault = Native.FaultOf(done.Fault, taken);
            }
            catch
            {
                Dispose();
                throw;
            }
            return images;
        }

        unsafe NativeProgress TakeStep(byte[] data, int at)
        {
            NativeProgress done;
            fixed (byte* input = data, output = paper)
            {
                Native.vp_step(ref printer, input + at, (UIntPtr)(data.Length - at), output, (UIntPtr)Step, out done);
            }
            GC.KeepAlive(this);
            return done;
        }

        /// <summary>Ends the stream: gives the fault that it ends in, or null, and closes the printer.</summary>
        public Fault Finish()
        {
            if (!isOpen) return Fault;
            NativeFault fault;
            if (Fault == null && Native.vp_finish(ref printer, out fault) == Native.Ok) Fault = Native.FaultOf(fault, taken);
            Dispose();
            return Fault;
        }

        /// <summary>Gives the printer's memory back. It prints no more.</summary>
        public void Dispose()
        {
            Free();
            GC.SuppressFinalize(this);
        }

        void Free()
        {
            if (isOpen) Native.vp_free(ref printer);
            isOpen = false;
        }
    }
}
