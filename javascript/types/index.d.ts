// Types of virtual-receipt-printer. They stand without those of browsers and of node; where these are there, what they
// name is of them.

type OfBrowser<Name extends string, Else> = typeof globalThis extends Record<Name, { prototype: infer T }> ? T : Else;

interface ReadableOf<T> {
  getReader(): { read(): Promise<{ done: boolean; value?: T }>; cancel(reason?: unknown): Promise<void> };
  readonly locked?: boolean;
}

/** What is printed: a string goes as its UTF-8. */
export type Stream = string | ArrayBuffer | ArrayBufferView | { arrayBuffer(): Promise<ArrayBuffer> }
  | ReadableOf<string | ArrayBufferView> | AsyncIterable<string | ArrayBuffer | ArrayBufferView>;

/** The bytes of a glyph sheet; null is none, and its characters are white. */
export type Sheet = ArrayBuffer | ArrayBufferView | null;

/** How much a stream, or what is fed at once, may come to; null is no bound. */
export interface Bounds {
  /** 1,000,000 where nothing is said. */
  mostRows?: number | null;
  /** 67,108,864 where nothing is said. */
  mostBytes?: number | null;
  /** 100,000 where nothing is said. */
  mostImages?: number | null;
  /** 60 where nothing is said. */
  mostSeconds?: number | null;
}

export interface LabelOptions extends Bounds {
  /** The shipped sheet where nothing is said. */
  fontA?: Sheet;
  /** Whether the whole language is read: of ESC/POS all commands, and past what is none, which without it is a fault, F1;
   * of ZPL II more commands, as of more symbols, which without it are skipped. */
  whole?: boolean;
}

export interface ReceiptOptions extends LabelOptions {
  fontB?: Sheet;
  /** The paper's width in dots: 576 where nothing is said, 384 on paper of 58 mm. */
  width?: 576 | 384;
}

export interface PrintOptions {
  /** An AbortSignal: where it aborts, the print ends with its reason. */
  signal?: OfBrowser<'AbortSignal', { readonly aborted: boolean; readonly reason?: unknown }>;
}

export interface Scale {
  /** Dots of a millimetre of paper: 8 where nothing is said. */
  dpmm?: number;
}

/** Why a stream is wrong. */
export class Fault {
  private constructor();
  /** F1 to F9. */
  readonly number: string;
  /** How many bytes of the stream were taken when it was known. */
  readonly after: number;
  readonly text: string;
  /** As the program prints it: `vp: F1 after 4 bytes: unknown command 1B 7F`. */
  readonly line: string;
  toString(): string;
}

/** What is raised: every misuse, and every bound that is reached. */
export class VpError extends Error {
  private constructor();
  readonly code: 'argument' | 'sheet' | 'stream' | 'paper' | 'closed' | 'too-much' | 'module' | 'memory' | 'worker'
    | 'golden';
  /** Of too-much the bound, what it is, and how many bytes of the stream were taken by then. */
  readonly reached: { bound: 'rows' | 'bytes' | 'images' | 'seconds'; most: number; byte: number | null } | null;
  /** Of too-much what was printed before. */
  readonly paper: Paper | null;
}

/** Black and white dots: a row is whole bytes, the first dot the highest bit, 1 is black. */
export class Picture {
  constructor(width: number, height: number, rows: ArrayBuffer | ArrayBufferView);
  readonly width: number;
  readonly height: number;
  readonly rows: Uint8Array;
  isBlack(x: number, y: number): boolean;
  /** The bytes of a row. */
  row(y: number): Uint8Array;
  toPBM(): Uint8Array;
  toRGBA(): Uint8ClampedArray;
  /** For a canvas's putImageData, in browsers. */
  toImageData(): OfBrowser<'ImageData', never>;
  toPNG(options?: Scale): Promise<Uint8Array>;
  toSVG(options?: Scale): Promise<string>;
}

/** What a printer would print besides, or otherwise, and the byte that it is about. */
export interface Remark {
  readonly byte: number | null;
  readonly text: string;
}

/** Which bytes drew a dot. */
export interface Drew {
  readonly from: number;
  readonly to: number;
  readonly bytes: Uint8Array;
  /** Where their ink is, where that is known. */
  readonly box: { readonly x: number; readonly y: number; readonly width: number; readonly height: number } | null;
  /** Whether they were printed alone and have ink at the dot; else they are of the line, or of the nearest field. */
  readonly exact: boolean;
}

/** The images of a stream, and the fault that it ends in. */
export class Paper implements Iterable<Picture> {
  private constructor();
  /** The paper of bytes that vp printed, as toPBM() gives them. */
  static read(bytes: ArrayBuffer | ArrayBufferView): Paper;
  readonly images: readonly Picture[];
  readonly length: number;
  readonly fault: Fault | null;
  readonly language: 'receipt' | 'label' | null;
  /** What was printed; null of a paper that was read. */
  readonly stream: Uint8Array | null;
  /** What came of a last image whose stream ended inside it. */
  readonly unfinished: Uint8Array;
  [Symbol.iterator](): Iterator<Picture>;
  /** All that was printed, byte for byte as the program prints it. */
  toPBM(): Uint8Array;
  /** One image of all, under each other. */
  joined(): Picture;
  toPNG(options?: Scale): Promise<Uint8Array>;
  toSVG(options?: Scale): Promise<string>;
  remarks(): Promise<Remark[]>;
  /** The bytes that drew a dot: of the image of this number, else of all images under each other. */
  drew(x: number, y: number, image?: number): Promise<Drew | null>;
}

/** Images as they come; the fault is known once they have ended. */
export interface Images extends AsyncIterable<Picture> {
  readonly fault: Fault | null;
}

export interface Through {
  readonly readable: OfBrowser<'ReadableStream', ReadableOf<Picture>>;
  readonly writable: OfBrowser<'WritableStream', object>;
  readonly fault: Fault | null;
}

declare class Printers {
  protected constructor();
  /** The paper of a whole stream. */
  print(stream: Stream, options?: PrintOptions): Promise<Paper>;
  /** The images of a stream, each as soon as it is whole. */
  images(stream: Stream, options?: PrintOptions): Images;
  /** A TransformStream: bytes or strings go in, and images come out. */
  through(): Through;
  /** A printer that was just switched on, to be fed in pieces. */
  start(): Promise<Printer>;
}

/** Printers of receipts, ESC/POS, each print by one that was just switched on. */
export class Receipt extends Printers {
  constructor(options?: ReceiptOptions);
}

/** Printers of labels, ZPL II; every font is of font A's sheet. */
export class Label extends Printers {
  constructor(options?: LabelOptions);
}

/** A printer that is fed as bytes come. */
export class Printer {
  private constructor();
  /** Takes bytes, and gives the images that they complete. */
  feed(piece: Stream, options?: PrintOptions): Promise<Picture[]>;
  /** Ends the stream: gives the fault that it ends in, or null. */
  finish(): Promise<Fault | null>;
  readonly fault: Fault | null;
  readonly taken: number;
  readonly memory: number;
  readonly unfinished: Uint8Array;
}

/** Prints in a thread of its own, which is ended where it takes too long. */
export class PrinterWorker {
  constructor();
  print(printer: Receipt | Label, stream: Stream, options?: PrintOptions): Promise<Paper>;
  end(): void;
}

/** A line for each command of a stream, and with offsets how many bytes come before its end; whole as of printers. */
export function list(stream: Stream, language: 'receipt' | 'label',
  options?: { offsets?: boolean; whole?: boolean; mostBytes?: number | null; mostSeconds?: number | null },
): Promise<{ items: { text: string; place: number | null }[]; fault: Fault | null }>;

/** A request of a stream: its name as its manual writes it, the bytes behind the name, and how many bytes of the stream
 * come before its first byte and before the one behind its last. */
export interface Request {
  readonly name: string;
  readonly arguments: Uint8Array;
  readonly start: number;
  readonly end: number;
}

/** What a stream asks of its printer, its state, its name, its settings, each request as soon as it is known. */
export function requests(stream: Stream, language: 'receipt' | 'label'): AsyncIterable<Request>;

export const version: string;
