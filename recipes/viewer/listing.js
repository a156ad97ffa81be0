// The listing: the lines that vp lists, of which only the visible ones are in the page.

const ROW = 20;

export class Listing {
  // `named` tells a row's {code, words}, `choose` hears of a row that is chosen, `over` of one under the pointer, or
  // null.
  constructor(box, named, choose, over) {
    this.box = box;
    this.inside = box.querySelector('.inside');
    this.rows = [];
    this.current = -1;
    this.named = named;
    this.choose = choose;
    box.addEventListener('scroll', () => this.draw());
    new ResizeObserver(() => this.draw()).observe(box);
    const under = event => Math.floor((event.clientY - box.getBoundingClientRect().top + box.scrollTop) / ROW);
    box.addEventListener('click', event => { if (under(event) < this.rows.length) this.pick(under(event)); });
    box.addEventListener('pointermove', event => over(this.rows[under(event)] ?? null));
    box.addEventListener('pointerleave', () => over(null));
    box.addEventListener('keydown', event => {
      const page = Math.max(1, Math.floor(box.clientHeight / ROW) - 1);
      const steps = { ArrowDown: 1, ArrowUp: -1, PageDown: page, PageUp: -page, Home: -this.rows.length,
        End: this.rows.length, Enter: 0 };
      if (!(event.key in steps) || !this.rows.length) return;
      event.preventDefault();
      const row = Math.max(0, Math.min(this.rows.length - 1, this.current + steps[event.key]));
      this.pick(row, event.key === 'Enter');
    });
  }

  set(rows) {
    this.rows = rows;
    this.current = Math.min(this.current, rows.length - 1);
    this.inside.style.height = `${rows.length * ROW}px`;
    this.draw();
  }

  pick(row, enter = false) {
    this.mark(row);
    this.choose(row, enter);
  }

  mark(row) {
    this.current = row;
    const top = row * ROW;
    if (row >= 0 && (top < this.box.scrollTop || top + ROW > this.box.scrollTop + this.box.clientHeight)) {
      this.box.scrollTop = top - this.box.clientHeight / 3;
    }
    this.draw();
  }

  draw() {
    if (this.drawing) return;
    this.drawing = requestAnimationFrame(() => {
      this.drawing = 0;
      this.paint();
    });
  }

  paint() {
    const first = Math.floor(this.box.scrollTop / ROW);
    const last = Math.min(this.rows.length, Math.ceil((this.box.scrollTop + this.box.clientHeight) / ROW) + 1);
    this.inside.replaceChildren(...this.rows.slice(first, last).map((row, n) => this.line(row, first + n)));
    if (this.current >= first && this.current < last) {
      this.box.setAttribute('aria-activedescendant', `row-${this.current}`);
    } else {
      this.box.removeAttribute('aria-activedescendant');
    }
  }

  line(row, n) {
    const line = document.createElement('div');
    line.id = `row-${n}`;
    line.setAttribute('role', 'option');
    line.setAttribute('aria-posinset', n + 1);
    line.setAttribute('aria-setsize', this.rows.length);
    line.setAttribute('aria-selected', n === this.current);
    line.className = `row ${row.kind}${row.said ? ` said ${row.said.kind}` : ''}`;
    line.style.top = `${n * ROW}px`;
    const { code, words } = this.named(row);
    const put = (name, text) => {
      const part = document.createElement('span');
      part.className = name;
      part.textContent = text;
      line.append(part);
    };
    put('place', row.place === null ? '' : row.place.toLocaleString('en'));
    put('text', code);
    put('words', words);
    if (row.count > 1) put('count', `×${row.count.toLocaleString('en')}`);
    line.title = [code, words, row.said?.text].filter(Boolean).join(': ');
    return line;
  }
}
