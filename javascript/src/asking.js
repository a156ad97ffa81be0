// What a stream asks of its printer.

import { Requests as Machine } from '../../recipes/web/vp.js';
import { checkLanguage } from './errors.js';
import { ready } from './module.js';
import { piecesOf } from './reading.js';

/** What a stream asks, 'receipt' or 'label', each request as soon as it is known. */
export async function* requests(stream, language) {
  checkLanguage(language);
  await ready();
  const machine = new Machine(language);
  for await (const piece of piecesOf(stream)) yield* machine.feed(piece);
  const last = machine.end();
  if (last) yield last;
}
