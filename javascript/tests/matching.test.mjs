// toMatchPaper, by what jest, vitest and playwright document of matchers: stand-ins have these in place of the runners.

import assert from 'node:assert/strict';
import { existsSync, mkdtempSync, readFileSync, readdirSync, rmSync, writeFileSync } from 'node:fs';
import { tmpdir } from 'node:os';
import { join } from 'node:path';
import { after, beforeEach, test } from 'node:test';
import { fileURLToPath } from 'node:url';
import { inflateRawSync } from 'node:zlib';
import { Label, Receipt } from 'virtual-receipt-printer';
import { matchersFor, papersOf, toMatchPaper } from 'virtual-receipt-printer/testing';

const room = mkdtempSync(join(tmpdir(), 'vp-matching-'));
const { CI } = process.env;
after(() => rmSync(room, { recursive: true }));
beforeEach(() => { delete process.env.CI; delete process.env.VP_PAGE; });
after(() => { if (CI !== undefined) process.env.CI = CI; });

const folder = name => join(room, '__papers__', name);
const file = join(room, 'till.test.js');
// What jest and vitest have of a matcher's `this`; update is none, new or all.
const standIn = (test, update = 'none', isNot = false) => ({ isNot, promise: '', equals: Object.is, utils: {},
  testPath: file, currentTestName: test, snapshotState: { _updateSnapshot: update } });
const tried = async (test, paper, update, options) => {
  const { pass, message } = await toMatchPaper.call(standIn(test, update), paper, options);
  return pass ? '' : message();
};
const receipt = text => new Receipt().print(text);
const label = text => new Label().print(`^XA^PW200^LL60^FO8,8^A0N,30,20^FD${text}^FS^XZ`);

test('a paper is accepted by the flag alone, and is then what is expected', async () => {
  const png = join(folder('till.test.js'), 'refund.png');
  for (const update of ['none', 'new']) {
    assert.match(await tried('refund', label('one'), update), /no paper was accepted yet: -u keeps it as .*refund\.png$/);
    assert.ok(!existsSync(png));
  }
  assert.equal(await tried('refund', label('one'), 'all'), '');
  assert.ok(existsSync(png));
  for (const update of ['none', 'new']) assert.equal(await tried('refund', await label('one'), update), '');
  const kept = JSON.parse(readFileSync(png.replace('png', 'json'), 'utf-8'));
  assert.deepEqual([kept.language, kept.images, kept.fault, kept.remarks], ['label', ['200 x 60'], null, []]);
  const said = await tried('refund', label('two'));
  assert.match(said, /\n {2}\d+ dots differ, in rows \d+ to \d+\n {2}see .*__papers__.differs.till\.test\.js.refund\.png\n/);
  assert.match(said, /\n {2}file:.*refund\.html opens both in the page\n {2}expected is .*refund\.png; -u takes over what is printed now$/);
  assert.deepEqual(readdirSync(folder('differs/till.test.js')).sort(), ['refund.html', 'refund.png']);
  // what is right again leaves no picture
  assert.equal(await tried('refund', label('one')), '');
  assert.deepEqual(readdirSync(folder('differs/till.test.js')), []);
});

test('nothing is accepted where CI is set', async () => {
  for (const value of ['true', '1', 'woodpecker']) {
    process.env.CI = value;
    assert.match(await tried('in CI', label('one'), 'all'), /-u is for where you work: CI is set, and there nothing is accepted/);
  }
  assert.ok(!existsSync(join(folder('till.test.js'), 'in_CI.json')));
  for (const value of ['', '0', 'false']) {
    process.env.CI = value;
    assert.equal(await tried(`CI is ${value}`, label('one'), 'all'), '');
  }
});

test('what is no whole paper is accepted by a word alone', async () => {
  const cut = 'TOTAL\n\x1b\x7f';
  assert.match(await tried('cut', receipt(cut), 'all'),
    /not accepted: it ends in a fault, vp: F1 after 8 bytes: unknown command 1B 7F; toMatchPaper\(\{ incomplete: true \}\) takes it over/);
  assert.equal(await tried('cut', receipt(cut), 'all', { incomplete: true }), '');
  assert.equal(await tried('cut', receipt(cut), 'all'), '');
  assert.equal(await tried('cut', receipt(cut)), '');
  assert.match(await tried('cut', receipt('TOTAL\n')),
    /the fault is to be vp: F1 after 8 bytes: unknown command 1B 7F and is none/);
  const off = '^XA^PW80^LL40^FO70,8^GB16,8,8^FS^XZ';
  assert.match(await tried('off', new Label().print(off), 'all'), /lacks: the field of \^FO70,8 passes the label's right edge;/);
  assert.equal(await tried('off', new Label().print(off), 'all', { incomplete: true }), '');
  assert.match(await tried('off', new Label().print(off.replace('GB16', 'GB10'))),
    /what isn't drawn is to be the field of .* edge and is nothing/);
});

test('a receipt in which a line came and one went is aligned', async () => {
  const lines = ['one', 'two', 'three', 'four', 'five', 'six'];
  assert.equal(await tried('lines', receipt(`${lines.join('\n')}\n`), 'all'), '');
  const more = ['one', 'new', 'two', 'three', 'four', 'five', 'sex'];
  assert.match(await tried('lines', receipt(`${more.join('\n')}\n`)),
    /\n {2}\d+ dots differ, in rows \d+ to \d+; 1 image of 34 rows is added, at row 34; 204 rows are expected and 238 printed\n/);
  assert.match(await tried('lines', receipt(`${lines.slice(1).join('\n')}\n`)),
    /\n {2}1 image of 34 rows is missing, at row 0; 204 rows are expected and 170 printed\n/);
});

test('a long receipt in which much changed is aligned', async () => {
  const lines = Array.from({ length: 600 }, (_, n) => `${n % 3 ? `line ${n}` : ''}\n`);
  assert.equal(await tried('long', receipt(lines.join('')), 'all'), '');
  const more = [...lines.slice(0, 20), ...lines.slice(21, 400), 'other\n', ...lines.slice(401), 'more\n'];
  assert.match(await tried('long', receipt(more.join(''))), new RegExp('\\n  \\d+ dots differ, in rows 13,5\\d\\d to 13,5\\d\\d; ' +
    '1 image of 34 rows is added, at row 20,366; 1 image of 34 rows is missing, at row 680\\n'));
});

test('no paper, several, and of several widths', async () => {
  assert.equal(await tried('nothing', receipt(''), 'all'), '');
  assert.equal(await tried('nothing', receipt('')), '');
  assert.match(await tried('nothing', receipt('x\n')), /1 image of 34 rows is added, at row 0; 0 rows are expected and 34 printed/);
  const both = async text => new Label().print(`^XA^PW200^LL60^FDx^FS^XZ^XA^PW83^LL40^FO3,0^GB80,8,8^FS^FO0,20^FD${text}^FS^XZ`);
  assert.equal(await tried('both', both('y'), 'all'), '');
  assert.equal(await tried('both', both('y')), '');
  assert.match(await tried('both', both('z')), /dots differ, in rows 8\d to 8\d/);
  assert.equal(await tried('two', label('one'), 'all'), '');
  assert.match(await tried('two', label('two'), 'all'), /two was accepted already: a second paper of a test has a name/);
  assert.equal(await tried('two', label('two'), 'all', 'second'), '');
  assert.equal(await tried('two', label('two'), 'none', 'second'), '');
});

test('the link opens both streams', async () => {
  process.env.VP_PAGE = 'https://tools.example/viewer.html';
  const old = await label('<one>');
  assert.equal(await tried('a link > all', old, 'all'), '');
  const now = await label('<two>');
  const said = await tried('a link > all', now);
  const [, page] = /(file:\S+\.html) opens both in the page/.exec(said);
  const html = readFileSync(fileURLToPath(page), 'utf-8');
  const [, link] = /href="(https:\/\/tools\.example\/viewer\.html#vp1\.[\w-]+)"/.exec(html);
  const data = inflateRawSync(Buffer.from(link.split('#vp1.')[1], 'base64url'));
  const end = data.indexOf(10);
  assert.deepEqual(JSON.parse(data.subarray(0, end).toString()).map(it => [it.name, it.language, it.bytes]),
    [['printed', 'label', now.stream.length], ['expected', 'label', old.stream.length]]);
  assert.equal(data.subarray(end + 1).toString(), Buffer.concat([now.stream, old.stream]).toString());
  assert.match(html, /<title>a_link___all-[\da-f]{8}<\/title>/);
  delete process.env.VP_PAGE;
  await tried('a link > all', now);
  const own = /href="(file:\S+\/viewer\.html)#/.exec(readFileSync(fileURLToPath(page), 'utf-8'))[1];
  assert.ok(existsSync(fileURLToPath(own)));
});

test('misuse', async () => {
  const isSaid = text => error => error.name === 'VpError' && error.message === `vp: ${text}`;
  assert.throws(() => toMatchPaper.call(standIn('x', 'none', true), label('x')),
    isSaid('toMatchPaper has no .not: a paper that differs says how'));
  await assert.rejects(toMatchPaper.call(standIn('x'), '^XA^XZ'),
    isSaid('toMatchPaper is for paper, as new Label().print(stream) gives it'));
  await assert.rejects(toMatchPaper.call(standIn('x'), label('x'), { threshold: 1 }),
    isSaid('toMatchPaper has no option threshold: it has name, incomplete'));
  assert.throws(() => toMatchPaper(label('x')),
    isSaid('toMatchPaper runs within a test of jest or of vitest, which say which test it is'));
  assert.throws(() => matchersFor({}), isSaid("matchersFor is given playwright's test, as matchersFor(test)"));
  assert.equal(await tried('a file', label('x'), 'all'), '');
  const png = join(folder('till.test.js'), 'a_file.png').replace('a_file', readdirSync(folder('till.test.js'))
    .find(it => it.startsWith('a_file') && it.endsWith('.png')).slice(0, -4));
  writeFileSync(png, 'GIF89a');
  await assert.rejects(tried('a file', label('x')), { code: 'golden', message: /a_file.*\.png isn't as it was written here/ });
  rmSync(png);
  await assert.rejects(tried('a file', label('x')), { code: 'golden' });
  const json = png.replace('.png', '.json');
  for (const text of ['<<<<<<< ours\n{}', '{}']) {
    writeFileSync(json, text);
    await assert.rejects(tried('a file', label('x')), { code: 'golden', message: /\.json isn't as it was written here/ });
  }
});

test('a failed print is the failure', async () => {
  await assert.rejects(tried('much', new Label({ mostImages: 1 }).print('^XA^PQ9^FDx^FS^XZ'), 'all'), { code: 'too-much' });
});

test("jest's and vitest's expect are extended", async () => {
  const { expect: vitest } = await import('vitest');
  const { expect: jest } = await import('@jest/globals');
  await import('virtual-receipt-printer/vitest');
  await import('virtual-receipt-printer/jest');
  for (const it of [vitest, jest]) assert.deepEqual(it.matchers, { toMatchPaper });
});

test('a test that awaits no comparison fails', async () => {
  const { hooks: [ofVitest] } = await import('vitest');
  const { expect: jest, hooks: [ofJest] } = await import('@jest/globals');
  const ends = async (name, test) => {
    const going = tried(name, label('one'));
    const late = { code: 'golden', message: `vp: ${name} ended before its paper was compared: await expect(..).toMatchPaper()` };
    assert.throws(() => test(name.split(' > ').pop()), late);
    // (another test has nothing to do with it)
    test('another');
    await going;
    test(name.split(' > ').pop());
  };
  await ends('late', name => ofVitest({ task: { name } }));
  await ends('suite > late', name => ofVitest({ task: { name } }));
  await ends('late', name => {
    jest.getState = () => ({ currentTestName: name });
    ofJest();
  });
  const after = [];
  const own = papersOf(join(room, 'own.test.mjs'))({ name: 'late', after: it => after.push(it) }, label('one'));
  assert.throws(() => after[0](), { code: 'golden' });
  await assert.rejects(own, /no paper was accepted yet/);
  after[0]();
});

test("playwright's expect", async () => {
  const { expect, test: runner } = await import('virtual-receipt-printer/playwright');
  const attached = [];
  const info = (updateSnapshots, title) => ({ file: join(room, 'shop.spec.js'), titlePath: ['shop.spec.js', 'order', title],
    config: { updateSnapshots }, attach: async (name, it) => attached.push([name, it]) });
  const tries = async (update, paper) => {
    runner.info = () => info(update, 'label');
    const { pass, message } = await expect.matchers.toMatchPaper.call({ isNot: false }, paper);
    return pass ? '' : message();
  };
  for (const update of ['missing', 'none']) assert.match(await tries(update, label('one')), /no paper was accepted yet/);
  assert.equal(await tries('all', label('one')), '');
  assert.equal(await tries('missing', label('one')), '');
  assert.match(await tries('none', label('two')), /dots differ/);
  assert.deepEqual(attached, [['paper', { path: join(folder('differs/shop.spec.js'), `${readdirSync(folder('shop.spec.js'))[0]
    .replace('.json', '')}.png`), contentType: 'image/png' }]]);
  runner.info = () => info('none', 'label');
  await assert.rejects(expect.matchers.toMatchPaper.call({ isNot: true }, label('one')), { code: 'argument' });
});

test("node's own runner", async t => {
  const matchPaper = papersOf(join(room, 'own.test.mjs'));
  await assert.rejects(matchPaper(t, label('one')), /no paper was accepted yet: --test-update-snapshots keeps it as /);
  process.execArgv.push('--test-update-snapshots');
  await matchPaper(t, label('one'));
  process.execArgv.pop();
  await matchPaper(t, label('one'));
  await assert.rejects(matchPaper(t, label('two')), { code: 'golden', message: /dots differ/ });
  await assert.rejects(matchPaper(label('two')), { code: 'argument' });
});
