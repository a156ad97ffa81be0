// toMatchPaper: whether paper is as it was accepted, for the test runners of JavaScript.

import { basename, dirname, join } from 'node:path';
import { fileURLToPath } from 'node:url';
import { Golden, isInCI } from './golden.js';
import { VpError } from './index.js';

const FOLDER = '__papers__';

function optionsOf(options) {
  const found = typeof options === 'string' ? { name: options } : options ?? {};
  for (const it of Object.keys(found)) {
    if (!['name', 'incomplete'].includes(it)) {
      throw new VpError('argument', `toMatchPaper has no option ${it}: it has name, incomplete`);
    }
  }
  return found;
}

// Of the paper of a promise too, so that one `await` is enough.
async function paperOf(received) {
  const paper = await received;
  if (!Array.isArray(paper?.images) || typeof paper.toPBM !== 'function') {
    throw new VpError('argument', 'toMatchPaper is for paper, as new Label().print(stream) gives it');
  }
  return paper;
}

/**
 * Compares paper with what was accepted, or accepts it.
 * @param {unknown} received
 * @param {string | {name?: string, incomplete?: boolean} | undefined} options
 * @param {{file: string, test: string, isUpdate: boolean, flag: string}} where  the test, and what its runner was told
 * @returns {Promise<{pass: boolean, message: () => string, picture: string | null}>}
 */
export async function matched(received, options, { file, test, isUpdate, flag }) {
  const { name = '', incomplete = false } = optionsOf(options);
  const paper = await paperOf(received);
  const folder = join(dirname(file), FOLDER);
  const own = basename(file);
  const golden = new Golden(join(folder, own), name ? `${test}.${name}` : test, join(folder, 'differs', own));
  const answer = (lines, picture = null) => ({ pass: !lines.length, picture,
    message: () => (lines.length ? ['the paper isn\'t as it was accepted:', ...lines].join('\n  ')
      : 'the paper is as it was accepted') });
  if (!isUpdate) {
    const lines = await golden.difference(paper, flag);
    const isDrawn = lines.some(it => it.startsWith('see '));
    return answer(lines, isDrawn ? join(golden.differs, `${golden.name}.png`) : null);
  }
  if (isInCI()) return answer([`${flag} is for where you work: CI is set, and there nothing is accepted`]);
  const why = await golden.accept(paper, incomplete);
  return answer(why ? [why] : []);
}

// Comparisons that go on, each with its test's name.
const going = new Map();

function noted(test, made) {
  const done = () => { going.delete(made); };
  going.set(made, test);
  made.then(done, done);
  return made;
}

function refuse(test, call) {
  throw new VpError('golden', `${test} ended before its paper was compared: await ${call}`);
}

/** Refuses a test that has ended while its paper is compared: nobody awaits what is found. */
export function refuseLate(isOwn) {
  const late = [...going.values()].find(isOwn);
  if (late !== undefined) refuse(late, 'expect(..).toMatchPaper()');
}

const noNot = () => { throw new VpError('argument', 'toMatchPaper has no .not: a paper that differs says how'); };

/** For expect.extend of jest and of vitest: what is accepted is changed by their own flag, -u, alone. */
export function toMatchPaper(received, options) {
  if (this?.isNot) noNot();
  const { testPath, currentTestName, snapshotState } = this ?? {};
  if (!testPath || !currentTestName) {
    throw new VpError('argument', 'toMatchPaper runs within a test of jest or of vitest, which say which test it is');
  }
  return noted(currentTestName, matched(received, options, { file: testPath, test: currentTestName,
    isUpdate: snapshotState?._updateSnapshot === 'all', flag: '-u' }));
}

/** For expect.extend of playwright, whose `test` says which test runs: what is accepted is changed by -u alone. */
export function matchersFor(test) {
  if (typeof test?.info !== 'function') {
    throw new VpError('argument', "matchersFor is given playwright's test, as matchersFor(test)");
  }
  return {
    async toMatchPaper(received, options) {
      if (this?.isNot) noNot();
      const info = test.info();
      const { picture, ...found } = await matched(received, options, { file: info.file,
        test: info.titlePath.slice(1).join(' '), isUpdate: ['all', 'changed'].includes(info.config.updateSnapshots),
        flag: '-u' });
      if (picture) await info.attach('paper', { path: picture, contentType: 'image/png' });
      return { ...found, name: 'toMatchPaper' };
    },
  };
}

const NODE_FLAG = '--test-update-snapshots';

/**
 * For node's own runner, of the file that import.meta.url or __filename names: an assertion for its tests, by the
 * runner's context. What is accepted is changed by --test-update-snapshots alone; before node 22.3, which has that
 * word itself, behind the file's name.
 */
export function papersOf(file) {
  const path = String(file).startsWith('file:') ? fileURLToPath(file) : String(file);
  return async function matchPaper(context, received, options) {
    if (typeof context?.name !== 'string') {
      throw new VpError('argument',
        "matchPaper is given the test's context first, as test('..', async t => ..) has it");
    }
    const isUpdate = [...process.execArgv, ...process.argv.slice(1)].includes(NODE_FLAG);
    const where = { file: path, test: context.name, isUpdate, flag: NODE_FLAG };
    const found = noted(context.name, matched(received, options, where));
    context.after?.(() => { if (going.has(found)) refuse(context.name, 'matchPaper(t, ..)'); });
    const { pass, message } = await found;
    if (!pass) throw new VpError('golden', message());
  };
}
