// The editor: a text field over a layer that shows its visible lines with colours and marks.

const LINE = 20;
const LEFT = 8;
const WIDE = 400;

export class Editor {
  constructor(root) {
    this.area = root.querySelector('textarea');
    this.layer = root.querySelector('.layer');
    this.gutter = root.querySelector('.gutter');
    // kinds(from, to): the class of each visible character, and the marks that stand in these places
    this.kinds = () => [];
    this.marks = [];
    this.notes = [];
    this.starts = [0];
    this.area.addEventListener('scroll', () => this.draw());
    new ResizeObserver(() => this.draw()).observe(this.area);
    const probe = document.createElement('span');
    probe.textContent = '0'.repeat(100);
    this.layer.append(probe);
    this.wide = probe.getBoundingClientRect().width / 100 || 8;
    probe.remove();
  }

  get text() {
    return this.area.value;
  }

  set text(text) {
    this.area.value = text;
    this.area.setSelectionRange(0, 0);
    this.area.scrollTo(0, 0);
    this.measure();
  }

  // Another text in its place, which stays scrolled as it is.
  change(text) {
    const { scrollTop, scrollLeft } = this.area;
    this.area.value = text;
    this.area.scrollTo(scrollLeft, scrollTop);
    this.measure();
  }

  // Finds the lines anew.
  measure() {
    const text = this.area.value;
    this.starts = [0];
    for (let at = text.indexOf('\n'); at >= 0; at = text.indexOf('\n', at + 1)) this.starts.push(at + 1);
    this.draw();
  }

  // The place of the text under the pointer; -1 where none is.
  placeAt({ clientX, clientY }) {
    const { left, top } = this.area.getBoundingClientRect();
    const line = Math.floor((clientY - top + this.area.scrollTop) / LINE);
    if (line < 0 || line >= this.starts.length) return -1;
    const column = Math.floor((clientX - left - LEFT + this.area.scrollLeft) / this.wide);
    const end = line + 1 < this.starts.length ? this.starts[line + 1] - 1 : this.area.value.length;
    return column < 0 || this.starts[line] + column > end ? -1 : this.starts[line] + column;
  }

  // Where a place of the text stands, in pixels from the editor's corner: its left, its top, and below it.
  placeOf(place) {
    const line = this.lineOf(place);
    const top = line * LINE - this.area.scrollTop;
    return { left: LEFT + (place - this.starts[line]) * this.wide - this.area.scrollLeft, top, below: top + LINE };
  }

  lineOf(place) {
    let low = 0;
    let high = this.starts.length - 1;
    while (low < high) {
      const middle = (low + high + 1) >> 1;
      if (this.starts[middle] <= place) low = middle; else high = middle - 1;
    }
    return low;
  }

  // Marks are {from, to, kind}; notes are {place, kind, text}, shown at the line of their place.
  show(marks, notes) {
    this.marks = marks;
    this.notes = notes;
    this.draw();
  }

  draw() {
    if (this.drawing) return;
    this.drawing = requestAnimationFrame(() => {
      this.drawing = 0;
      this.paint();
    });
  }

  paint() {
    const { scrollTop: top, clientHeight: high } = this.area;
    const first = Math.floor(top / LINE);
    const last = Math.min(this.starts.length, Math.ceil((top + high) / LINE) + 1);
    const drawn = [];
    for (let n = first; n < last; n++) drawn.push(this.line(n));
    this.gutter.replaceChildren(...drawn.map(it => it[0]));
    this.layer.replaceChildren(...drawn.map(it => it[1]));
    // what is said of a fault stands behind its line, over no text: where there is no room it stands below alone
    const { right } = this.layer.getBoundingClientRect();
    for (const said of this.layer.querySelectorAll('.note')) {
      if (said.getBoundingClientRect().right > right) said.remove();
    }
  }

  // A line's number and its text.
  line(n) {
    const { scrollTop: top, scrollLeft: left, clientWidth: width } = this.area;
    const text = this.area.value;
    const start = this.starts[n];
    const end = n + 1 < this.starts.length ? this.starts[n + 1] - 1 : text.length;
    const number = document.createElement('div');
    number.textContent = n + 1;
    const line = document.createElement('div');
    line.className = 'line';
    number.style.top = line.style.top = `${n * LINE - top}px`;
    // of a long line only what is seen; all its characters are as wide
    const skip = end - start > WIDE ? Math.max(0, Math.floor(left / this.wide) - 2) : 0;
    const from = Math.min(end, start + skip);
    const to = end - start > WIDE ? Math.min(end, from + Math.ceil(width / this.wide) + 4) : end;
    line.style.left = `${skip * this.wide - left}px`;
    this.spans(line, text, from, to);
    for (const note of this.notes) {
      if (note.place < start || note.place > end) continue;
      number.className = note.kind === 'fault' ? 'fault' : number.className || note.kind;
      number.title = note.text;
      if (note.kind !== 'fault') continue;
      const said = document.createElement('span');
      said.className = 'note fault';
      said.textContent = note.text;
      line.append(said);
    }
    return [number, line];
  }

  spans(line, text, from, to) {
    const kinds = this.kinds(from, to);
    const marks = this.marks.filter(it => it.from < Math.max(to, from + 1) && it.to >= from);
    const classOf = at => {
      let name = kinds[at - from] || '';
      for (const it of marks) if (it.from <= at && at < it.to) name += ` ${it.kind}`;
      return name;
    };
    for (let at = from; at < to;) {
      const name = classOf(at);
      let next = at + 1;
      while (next < to && classOf(next) === name) next++;
      const span = document.createElement('span');
      if (name) span.className = name;
      span.textContent = text.slice(at, next);
      line.append(span);
      at = next;
    }
    for (const it of marks) {
      if (it.from === it.to && it.from >= from && it.from === to) {
        const span = document.createElement('span');
        span.className = it.kind;
        span.textContent = ' ';
        line.append(span);
      }
    }
  }

  // Brings a place into view.
  reveal(place) {
    const line = this.lineOf(place);
    const { scrollTop: top, clientHeight: high, scrollLeft: left, clientWidth: width } = this.area;
    if (line * LINE < top || (line + 1) * LINE > top + high) this.area.scrollTop = line * LINE - high / 3;
    const across = (place - this.starts[line]) * this.wide;
    if (across < left || across > left + width - 40) this.area.scrollLeft = Math.max(0, across - width / 3);
    this.draw();
  }
}
