// In place of vitest: test, and expect with the matchers that it is given, which have what vitest's have of `this`.

import assert from 'node:assert/strict';
import { test as own } from 'node:test';

let current = '';
export const hooks = [];
export const afterEach = hook => hooks.push(hook);
export const test = (name, act) => own(name, async t => {
  current = name;
  await act(t);
  for (const hook of hooks) hook({ task: { name } });
});

const matchers = {};
const state = () => ({ isNot: false, promise: '', equals: Object.is, utils: {}, testPath: process.argv[1],
  currentTestName: current, snapshotState: { _updateSnapshot: process.env.STAND_IN_UPDATE ?? 'new' } });

export function expect(received) {
  const known = { toBe: wanted => assert.equal(received, wanted) };
  return Object.assign(known, Object.fromEntries(Object.entries(matchers).map(([name, matcher]) => [name, async (...words) => {
    const { pass, message } = await matcher.call(state(), received, ...words);
    if (!pass) throw new Error(message());
  }])));
}
expect.extend = more => Object.assign(matchers, more);
expect.matchers = matchers;
