import { expect, test } from 'vitest';
import { Label } from 'virtual-receipt-printer';
import { label } from './label.js';

const parcel = { name: 'Marta Lind', street: '7 Quay Street', town: '1204 Old Harbour', number: 'HP0042' };

test('the label of a parcel', async () => {
  await expect(new Label().print(label(parcel))).toMatchPaper();
});

test('a caret in a name begins no command', async () => {
  const paper = await new Label().print(label({ ...parcel, name: 'A^XZ' }));
  expect(paper.length).toBe(1);
  await expect(paper).toMatchPaper();
});
