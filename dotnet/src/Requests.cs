// What a stream asks of its printer.
using System;
using System.Collections.Generic;
using System.Runtime.InteropServices;
using System.Text;

namespace VirtualReceiptPrinter
{
    /// <summary>A request: its name as its manual writes it ("DLE EOT", "GS r", "~HS"), the bytes behind the name, and how
    /// many bytes of the stream come before its first byte and before the one behind its last.</summary>
    public sealed class Request
    {
        public string Name { get; }
        public byte[] Arguments { get; }
        public long Start { get; }
        public long End { get; }

        internal Request(string name, byte[] arguments, long start, long end)
        {
            Name = name;
            Arguments = arguments;
            Start = start;
            End = end;
        }

        public override string ToString() =>
            $"{Start}..{End} {Name}{(Arguments.Length > 0 ? " " : "")}{BitConverter.ToString(Arguments).Replace('-', ' ')}";
    }

    /// <summary>What a stream asks of its printer: its state, its name, its settings. It prints nothing: beside a printer it
    /// is fed the same bytes, in any pieces, and gives each request as soon as it is known. The real-time requests of
    /// receipts (DLE) are found in all bytes, also within pictures. One thread at a time uses it.</summary>
    public sealed class Requests : IDisposable
    {
        NativeRequests requests;
        bool isOpen;

        Requests(uint language)
        {
            var answer = Native.vp_new_requests(language, out requests);
            if (answer != Native.Ok) throw new OutOfMemoryException("vp: " + Native.AnswerText(answer));
            isOpen = true;
        }

        ~Requests() { Free(); }

        /// <summary>Those of a receipt, ESC/POS.</summary>
        public static Requests OfReceipt() => new Requests(Native.Receipt);

        /// <summary>Those of a label, ZPL II.</summary>
        public static Requests OfLabel() => new Requests(Native.Label);

        /// <summary>Takes bytes, and gives the requests that they make known.</summary>
        public unsafe IReadOnlyList<Request> Feed(byte[] data)
        {
            if (data == null) throw new ArgumentNullException(nameof(data));
            if (!isOpen) throw new ObjectDisposedException(nameof(Requests));
            var found = new List<Request>();
            fixed (byte* input = data)
            {
                var at = 0;
                while (true)
                {
                    NativeRequest request;
                    UIntPtr took;
                    Native.vp_next_request(ref requests, input + at, (UIntPtr)(data.Length - at), out took, out request);
                    at += (int)took;
                    if (request.Name[0] == 0) break;
                    found.Add(Told(ref request));
                }
            }
            GC.KeepAlive(this);
            return found;
        }

        /// <summary>What the stream asks if it ends here, and closes this: a label's last request, whose arguments could go
        /// on; else null.</summary>
        public unsafe Request Finish()
        {
            if (!isOpen) return null;
            NativeRequest request;
            Native.vp_last_request(ref requests, out request);
            Dispose();
            return request.Name[0] == 0 ? null : Told(ref request);
        }

        static unsafe Request Told(ref NativeRequest request)
        {
            var name = new StringBuilder();
            var arguments = new byte[(int)request.Count];
            fixed (NativeRequest* it = &request)
            {
                for (var i = 0; i < 8 && it->Name[i] != 0; i++) name.Append((char)it->Name[i]);
                Marshal.Copy((IntPtr)it->Arguments, arguments, 0, arguments.Length);
            }
            return new Request(name.ToString(), arguments, (long)request.Start, (long)request.End);
        }

        /// <summary>Gives its memory back.</summary>
        public void Dispose()
        {
            Free();
            GC.SuppressFinalize(this);
        }

        void Free()
        {
            if (isOpen) Native.vp_free_requests(ref requests);
            isOpen = false;
        }
    }
}
