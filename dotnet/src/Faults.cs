// What went wrong: a stream's fault, and what is thrown where nothing can be printed.
using System;

namespace VirtualReceiptPrinter
{
    /// <summary>Where a stream is wrong.</summary>
    public sealed class Fault : IEquatable<Fault>
    {
        /// <summary>1 to 9, as the documents number faults.</summary>
        public int Number { get; }

        /// <summary>What the fault says, as "unknown command 1B 7F".</summary>
        public string Text { get; }

        /// <summary>How many bytes of the stream were read by then.</summary>
        public long Byte { get; }

        internal Fault(int number, string text, long after)
        {
            Number = number;
            Text = text;
            Byte = after;
        }

        /// <summary>The line that the program vp prints of it.</summary>
        public override string ToString() => $"vp: F{Number} after {Byte} bytes: {Text}";

        public bool Equals(Fault other) =>
            other != null && Number == other.Number && Text == other.Text && Byte == other.Byte;

        public override bool Equals(object other) => Equals(other as Fault);

        public override int GetHashCode() => ToString().GetHashCode();
    }

    /// <summary>What this library throws is one of these, or an ArgumentException.</summary>
    public class VpException : Exception
    {
        public VpException(string message) : base(message) { }
    }

    /// <summary>Bytes that are no glyph sheet.</summary>
    public sealed class BadSheetException : VpException
    {
        public BadSheetException(string message) : base(message) { }
    }

    /// <summary>A stream prints more than it may. Bounds are given where a printer is made.</summary>
    public sealed class TooMuchPaperException : VpException
    {
        public TooMuchPaperException(string message) : base(message) { }
    }
}
