// The label of a parcel, as ZPL II.

const plain = text => text.replace(/[\^~]/g, ' ');

export function label({ name, street, town, number }) {
  const lines = [name, street, town].map((it, n) => `^FO20,${20 + 40 * n}^A0N,32,18^FD${plain(it)}^FS`);
  return `^XA^PW480^LL320${lines.join('')}^FO20,150^GB440,2,2^FS^FO40,180^BY2^BCN,80,Y^FD${number}^FS^XZ`;
}
