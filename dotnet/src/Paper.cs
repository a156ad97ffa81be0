// Paper: images one after the other, as vp prints them.
using System;
using System.Collections;
using System.Collections.Generic;
using System.Globalization;
using System.Linq;
using System.Text;

namespace VirtualReceiptPrinter
{
    /// <summary>The images of a stream, in turn, and the fault that it ends in.</summary>
    public sealed class Paper : IReadOnlyList<Image>
    {
        readonly IReadOnlyList<Image> images;

        /// <summary>The fault that the stream ends in, or null.</summary>
        public Fault Fault { get; }

        internal Paper(IReadOnlyList<Image> images, Fault fault)
        {
            this.images = images;
            Fault = fault;
        }

        /// <summary>The paper of bytes that vp printed, as a file that ToPbm wrote.</summary>
        public static Paper Read(byte[] printed)
        {
            if (printed == null) throw new ArgumentNullException(nameof(printed));
            var cutter = new Cutter(long.MaxValue, long.MaxValue);
            var images = cutter.Add(printed, printed.Length);
            if (!cutter.IsWhole) throw new ArgumentException("it is not what vp prints", nameof(printed));
            return new Paper(images, null);
        }

        /// <summary>How many images there are.</summary>
        public int Count => images.Count;

        /// <summary>An image by its place, from 0.</summary>
        public Image this[int at] => images[at];

        /// <summary>All of it, byte for byte as the program vp prints it.</summary>
        public byte[] ToPbm() => images.SelectMany(it => it.ToPbm()).ToArray();

        /// <summary>One image of all, one below the other. They have one width, and there is at least one.</summary>
        public Image Joined()
        {
            if (Count == 0) throw new VpException("nothing is printed");
            if (images.Any(it => it.Width != images[0].Width))
                throw new VpException("images of several widths are not one image");
            return new Image(images[0].Width, images.Sum(it => it.Height), images.SelectMany(it => it.ToBytes()).ToArray());
        }

        /// <summary>How this paper differs from the one that is wanted, in a line for each image; null where it doesn't.
        /// </summary>
        public string DifferenceFrom(Paper wanted)
        {
            if (wanted == null) throw new ArgumentNullException(nameof(wanted));
            var said = new List<string>();
            if (Count != wanted.Count) said.Add($"{Count} images in place of {wanted.Count}");
            for (var at = 0; at < Math.Min(Count, wanted.Count); at++)
            {
                var difference = this[at].DifferenceFrom(wanted[at]);
                if (difference != null) said.Add($"image {at + 1}: {difference}");
            }
            return said.Count == 0 ? null : string.Join("\n", said);
        }

        public IEnumerator<Image> GetEnumerator() => images.GetEnumerator();

        IEnumerator IEnumerable.GetEnumerator() => GetEnumerator();
    }

    /// <summary>Bytes that a printer puts out, as they come, cut into images within bounds.</summary>
    sealed class Cutter
    {
        readonly long mostRows, mostBytes;
        readonly StringBuilder head = new StringBuilder();
        long rows, bytes;
        int width, height, filled;
        byte[] data;

        public Cutter(long mostRows, long mostBytes)
        {
            this.mostRows = mostRows;
            this.mostBytes = mostBytes;
        }

        /// <summary>Whether no image has begun that isn't whole.</summary>
        public bool IsWhole => data == null && head.Length == 0;

        /// <summary>Begins to count anew.</summary>
        public void CountAnew()
        {
            rows = data == null ? 0 : height;
            bytes = 0;
        }

        /// <summary>Takes the first bytes of an array, and gives the images that they complete.</summary>
        public List<Image> Add(byte[] part, int length)
        {
            var whole = new List<Image>();
            bytes += length;
            if (bytes > mostBytes) throw new TooMuchPaperException($"vp: more than {mostBytes} bytes are printed");
            for (var at = 0; at < length;)
            {
                if (data == null)
                {
                    TakeHead(part[at++]);
                    continue;
                }
                var count = Math.Min(length - at, data.Length - filled);
                Array.Copy(part, at, data, filled, count);
                at += count;
                filled += count;
                if (filled < data.Length) continue;
                whole.Add(new Image(width, height, data));
                data = null;
            }
            return whole;
        }

        /// <summary>Takes a byte of a head: P4, a line end, width, a blank, height, a line end.</summary>
        void TakeHead(byte it)
        {
            head.Append((char)it);
            var text = head.ToString();
            if (!(text.StartsWith("P4\n", StringComparison.Ordinal) || "P4\n".StartsWith(text, StringComparison.Ordinal))
                || head.Length > 23) throw new ArgumentException("it is not what vp prints");
            if (it != '\n' || head.Length < 4) return;
            var parts = text.Substring(3, text.Length - 4).Split(' ');
            if (parts.Length != 2 || !Size(parts[0], out width) || !Size(parts[1], out height))
                throw new ArgumentException("it is not what vp prints");
            rows += height;
            if (rows > mostRows) throw new TooMuchPaperException($"vp: more than {mostRows} rows are printed");
            head.Clear();
            data = new byte[checked((width + 7) / 8 * height)];
            filled = 0;
        }

        static bool Size(string text, out int size)
        {
            return int.TryParse(text, NumberStyles.None, CultureInfo.InvariantCulture, out size) && size > 0;
        }
    }
}
