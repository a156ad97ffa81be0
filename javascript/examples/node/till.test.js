import { test } from 'node:test';
import { Receipt } from 'virtual-receipt-printer';
import { papersOf } from 'virtual-receipt-printer/testing';
import { receipt } from './till.js';

const matchPaper = papersOf(import.meta.url);

test('a sale of two items', async t => {
  const stream = receipt([{ name: 'Rye bread', cents: 340 }, { name: 'Milk 1 l', cents: 129 }]);
  await matchPaper(t, new Receipt().print(stream));
});

test('a name that is too long is cut', async t => {
  const stream = receipt([{ name: 'Mountain cheese, ripened for twelve months in a cave', cents: 1916 }]);
  await matchPaper(t, new Receipt().print(stream));
});
