// The library's calls, as include/vp.h has them.
using System;
using System.Runtime.InteropServices;
using System.Text;

namespace VirtualReceiptPrinter
{
    /// <summary>A printer's handle, passed by its address.</summary>
    [StructLayout(LayoutKind.Sequential)]
    struct NativePrinter
    {
        public IntPtr Printer;
    }

    [StructLayout(LayoutKind.Sequential)]
    struct NativeFault
    {
        public byte Number, Why, Lead, Byte;
    }

    [StructLayout(LayoutKind.Sequential)]
    struct NativeProgress
    {
        public UIntPtr Taken, Put;
        public uint State;
        public NativeFault Fault;
    }

    /// <summary>A handle of what finds requests, passed by its address.</summary>
    [StructLayout(LayoutKind.Sequential)]
    struct NativeRequests
    {
        public IntPtr Requests;
    }

    [StructLayout(LayoutKind.Sequential)]
    unsafe struct NativeRequest
    {
        public fixed byte Name[8];
        public ulong Start, End;
        public uint Count;
        public fixed byte Arguments[1024];
    }

    static class Native
    {
        public const uint Receipt = 0, Receipt58 = 1, Label = 2, WholeReceipt = 3, WholeReceipt58 = 4,
            WholeLabel = 5;
        public const uint Ok = 0, NoMemory = 1;
        public const uint More = 0, Room = 1, Stopped = 2;
        const int Line = 96;
        const string Library = "vp";

        [DllImport(Library, CallingConvention = CallingConvention.Cdecl)]
        public static extern uint vp_new(
            uint language, byte[] fontA, UIntPtr lengthA, byte[] fontB, UIntPtr lengthB, out NativePrinter made);

        [DllImport(Library, CallingConvention = CallingConvention.Cdecl)]
        public static extern unsafe uint vp_step(
            ref NativePrinter printer, byte* input, UIntPtr length, byte* output, UIntPtr room, out NativeProgress done);

        [DllImport(Library, CallingConvention = CallingConvention.Cdecl)]
        public static extern uint vp_finish(ref NativePrinter printer, out NativeFault fault);

        [DllImport(Library, CallingConvention = CallingConvention.Cdecl)]
        public static extern void vp_free(ref NativePrinter printer);

        [DllImport(Library, CallingConvention = CallingConvention.Cdecl)]
        public static extern uint vp_new_requests(uint language, out NativeRequests made);

        [DllImport(Library, CallingConvention = CallingConvention.Cdecl)]
        public static extern unsafe uint vp_next_request(
            ref NativeRequests requests, byte* input, UIntPtr length, out UIntPtr taken, out NativeRequest request);

        [DllImport(Library, CallingConvention = CallingConvention.Cdecl)]
        public static extern uint vp_last_request(ref NativeRequests requests, out NativeRequest request);

        [DllImport(Library, CallingConvention = CallingConvention.Cdecl)]
        public static extern void vp_free_requests(ref NativeRequests requests);

        [DllImport(Library, CallingConvention = CallingConvention.Cdecl)]
        static extern UIntPtr vp_fault_line(ref NativeFault fault, ulong after, byte[] line, UIntPtr room);

        [DllImport(Library, CallingConvention = CallingConvention.Cdecl)]
        static extern UIntPtr vp_answer_text(uint answer, byte[] text, UIntPtr room);

        [DllImport(Library, CallingConvention = CallingConvention.Cdecl)]
        static extern UIntPtr vp_version(byte[] text, UIntPtr room);

        static string Text(byte[] line, UIntPtr length)
        {
            return Encoding.ASCII.GetString(line, 0, Math.Min((int)length, Line - 1));
        }

        /// <summary>The fault that the library tells of, or null.</summary>
        public static Fault FaultOf(NativeFault fault, long after)
        {
            if (fault.Number == 0) return null;
            var line = new byte[Line];
            var said = Text(line, vp_fault_line(ref fault, (ulong)after, line, (UIntPtr)Line));
            return new Fault(fault.Number, said.Split(new[] { ": " }, 3, StringSplitOptions.None)[2], after);
        }

        public static string AnswerText(uint answer)
        {
            var text = new byte[Line];
            return Text(text, vp_answer_text(answer, text, (UIntPtr)Line));
        }

        public static string Version()
        {
            var text = new byte[Line];
            return Text(text, vp_version(text, (UIntPtr)Line));
        }
    }
}
