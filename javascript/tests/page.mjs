// What a page does with the package, as a bundler put it together.

import { Label, PrinterWorker, Receipt, VpError } from 'virtual-receipt-printer';
import { same } from './same.mjs';

const BOX = '^XA^PW80^LL40^FO8,8^GB16,8,8^FS^XZ';
const isSo = (found, wanted) => {
  if (String(found) !== String(wanted)) throw new Error(`${found} in place of ${wanted}`);
};

async function tried() {
  const paper = await new Label().print(new Blob([BOX]));
  const canvas = Object.assign(document.createElement('canvas'), { width: 80, height: 40 });
  const context = canvas.getContext('2d');
  context.putImageData(paper.images[0].toImageData(), 0, 0);
  isSo([...context.getImageData(7, 8, 2, 1).data], [255, 255, 255, 255, 0, 0, 0, 255]);
  const picture = await createImageBitmap(new Blob([await paper.toPNG()], { type: 'image/png' }));
  isSo([picture.width, picture.height], [80, 40]);
  context.drawImage(picture, 0, 0);
  isSo([...context.getImageData(23, 15, 2, 1).data], [0, 0, 0, 255, 255, 255, 255, 255]);
  const through = new Label().through();
  const heights = [];
  const reader = new Response(BOX + BOX).body.pipeThrough(through).getReader();
  for (let it = await reader.read(); !it.done; it = await reader.read()) heights.push(it.value.height);
  isSo(heights, [40, 40]);
  const worker = new PrinterWorker();
  isSo((await worker.print(new Receipt(), 'x\n')).toPBM(), (await new Receipt().print('x\n')).toPBM());
  const none = { mostRows: null, mostBytes: null, mostImages: null };
  const late = await worker.print(new Label({ ...none, mostSeconds: 0.2 }), BOX.replace('^FO', '^PQ99999999^FO'))
    .catch(error => error);
  isSo([late instanceof VpError, late.reached.bound], [true, 'seconds']);
  isSo((await worker.print(new Label(), BOX)).length, 1);
  worker.end();
  isSo((await paper.drew(9, 9)).exact, true);
  isSo((await paper.remarks()).length, 0);
  return 'ok';
}

Object.assign(window, { same, tried });
