// A till: what it sends to its printer for a sale, as ESC/POS.

const [ESC, GS] = ['\x1b', '\x1d'];
const WIDTH = 48;
const money = cents => (cents / 100).toFixed(2);

function line(name, cents) {
  const price = money(cents);
  return `${name.slice(0, WIDTH - price.length - 1).padEnd(WIDTH - price.length)}${price}\n`;
}

export function receipt(items) {
  const total = items.reduce((sum, it) => sum + it.cents, 0);
  return [`${ESC}@${ESC}a\x01${GS}!\x11CORNER SHOP\n${GS}!\x00${ESC}a\x00\n`, ...items.map(it => line(it.name, it.cents)),
    `${ESC}E\x01${line('TOTAL EUR', total)}${ESC}E\x00\n`, `${GS}V\x41\x18`].join('');
}
