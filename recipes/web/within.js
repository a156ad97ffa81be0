// The printer in the page itself, where there is no server: it prints and lists by the WebAssembly module, in workers,
// so that what takes too long can be ended. Sheets and examples come with the page; files are followed where the
// browser lets a page read them again. See served.js for what each call is.
//
// All of a stream is what the whole language prints of it: streams that are written anew only a server has.

const SECONDS = 10;
const MOST_STREAM = 4 << 20;
const AT_ONCE = 4;
const [MOST_SHEETS, MOST_SHEET] = [32, 1 << 20];
// How often followed files are looked at, in milliseconds.
const LOOK = 300;

const given = JSON.parse(document.getElementById('given').textContent);
function decoded(text) {
  const chars = atob(text);
  const bytes = new Uint8Array(chars.length);
  for (let at = 0; at < bytes.length; at++) bytes[at] = chars.charCodeAt(at);
  return bytes;
}

const version = handle => handle.getFile().then(it => `${it.lastModified}-${it.size}`, () => '');

export class Printer {
  constructor() {
    this.module = WebAssembly.compile(decoded(given.module));
    this.sheets = new Map(Object.entries(given.sheets).map(([name, text]) => [name, decoded(text)]));
    this.address = URL.createObjectURL(new Blob([given.worker], { type: 'text/javascript' }));
    this.handles = [];
    // (one pass over the stream tells of as many fronts as are asked for)
    this.fronts = 64;
    // (beside a page on a server may stand what keeps it for when there is no network)
    if (location.protocol.startsWith('http')) {
      navigator.serviceWorker?.register('viewer-offline.js', { scope: location.pathname }).catch(() => {});
    }
    if (window.showOpenFilePicker) this.pick = () => this.picked();
    this.idle = [];
    this.waiting = [];
    this.running = 0;
  }

  async state() {
    await this.module;
    return { files: [], examples: given.examples.map(it => it.name), width: 576, language: null, most: MOST_STREAM,
      anew: true, served: false, known: given.known, fonts: { a: 'font-a.pbm', b: 'font-b.pbm' } };
  }

  async print(stream, words, take, signal) {
    const told = await this.inTurn({ ...words, work: 'print', stream, ...this.fonts(words) }, take, signal);
    return { ...told, guess: await this.guess(stream) };
  }

  async rows(stream, words, signal) {
    const job = { ...words, work: 'rows', stream, ...this.fonts(words) };
    const { rows, late } = await this.inTurn(job, () => true, signal);
    if (late) throw new Error(`printing was ended after ${late} seconds`);
    return rows;
  }

  list(stream, words, take, signal) { return this.inTurn({ ...words, work: 'list', stream }, take, signal); }

  // (what a printer would print besides the page finds itself)
  async sheet(letter, name = `font-${letter}.pbm`) { return this.sheets.get(name) ?? null; }

  // A label where ^XA, or another of its commands, comes before a receipt's lead.
  async guess(stream) {
    const text = new TextDecoder('latin1').decode(stream);
    const plain = text.replace(/[\r\n]/g, '');
    const start = plain.search(/\^XA/i);
    const lead = plain.search(/[\x1b-\x1d]/);
    if (start >= 0) return lead >= 0 && lead < start ? 'receipt' : 'label';
    return /^[ \t-\r]*[\^~][A-Za-z]/.test(text) ? 'label' : 'receipt';
  }

  async keepSheet(file) {
    if (this.sheets.size === MOST_SHEETS || file.size > MOST_SHEET) {
      throw new Error('too many sheets, or too large a one');
    }
    const id = `${this.sheets.size}-${file.name}`;
    this.sheets.set(id, new Uint8Array(await file.arrayBuffer()));
    return id;
  }

  async example(n) { return decoded(given.examples[n].bytes); }

  async picked() {
    const handles = await window.showOpenFilePicker({ multiple: true });
    const seen = async it => ({ name: it.name, path: it.name, version: await version(it) });
    const files = await Promise.all(handles.map(seen));
    this.handles.push(...handles);
    return files;
  }

  async file(n) {
    const file = await this.handles[n].getFile();
    if (file.size > MOST_STREAM) throw new Error(`${file.name}: a stream has at most ${MOST_STREAM >> 20} MB`);
    return new Uint8Array(await file.arrayBuffer());
  }

  async changes(known) {
    for (;;) {
      await new Promise(done => setTimeout(done, LOOK));
      const now = await Promise.all(this.handles.map(version));
      if (now.join() !== known.join()) return now;
    }
  }

  fonts({ lang, a = 'font-a.pbm', b = 'font-b.pbm' }) {
    const sheet = name => this.sheets.get(name) ?? new Uint8Array(0);
    return { fontA: sheet(a), fontB: lang === 'receipt' ? sheet(b) : new Uint8Array(0) };
  }

  // Runs one job in a worker, once there is a place for it.
  async inTurn(job, take, signal) {
    while (this.running === AT_ONCE) await new Promise(done => this.waiting.push(done));
    this.running++;
    try {
      return await this.run(job, take, signal);
    } finally {
      this.running--;
      this.waiting.shift()?.();
    }
  }

  async run(job, take, signal) {
    if (signal?.aborted) throw signal.reason;
    const worker = this.idle.pop() ?? await this.newWorker();
    return new Promise((tell, refuse) => {
      // the worker is let go, or ended where it still runs
      const leave = isDone => {
        clearTimeout(timer);
        signal?.removeEventListener('abort', stop);
        if (isDone) this.idle.push(worker);
        else worker.terminate();
      };
      const late = () => {
        leave(false);
        tell({ line: '', status: -9, late: SECONDS });
      };
      const stop = () => {
        leave(false);
        refuse(signal.reason);
      };
      const timer = setTimeout(late, 1000 * SECONDS);
      signal?.addEventListener('abort', stop);
      worker.onerror = event => {
        leave(false);
        refuse(new Error(event.message ?? 'the browser starts no worker'));
      };
      worker.onmessage = ({ data: { piece, told } }) => {
        if (piece && take(piece)) {
          worker.postMessage({ goOn: true });
        } else {
          leave(Boolean(told));
          tell(told ?? { stopped: true });
        }
      };
      worker.postMessage(job);
    });
  }

  async newWorker() {
    const worker = new Worker(this.address);
    worker.postMessage({ module: await this.module });
    return worker;
  }
}
