/**
 * Tests of the module in headless Chromium: worked tables, errors, and calls made by chance.
 *
 *     node test.mjs SITE SAMPLES CASES    a folder with scale_info.mjs and scale_info.wasm, the samples, and a file of cases
 *
 * A case is an object with the name of a call, what it is given and what must come; bytes are an object with their digits.
 */
import { readFile, writeFile } from 'node:fs/promises';
import { join, resolve } from 'node:path';
import assert from 'node:assert/strict';
import { browser, serve } from './browser.mjs';

const [site, samples, casesFile] = process.argv.slice(2).map(it => resolve(it));

/** What runs in the page: answers of many calls, bytes as digits. */
const ANSWERS = `
  const digits = bytes => ({ digits: Array.from(bytes, it => it.toString(16).padStart(2, '0')).join('') });
  const bytes = text => Uint8Array.from(text.match(/../g) ?? [], it => parseInt(it, 16));
  const taken = it => (it !== null && typeof it === 'object' && 'digits' in it ? bytes(it.digits) : it);
  const shown = it => (it instanceof Uint8Array ? digits(it) : it);
  globalThis.answers = async cases => {
    const { load } = await import('/scale_info.mjs');
    globalThis.scale ??= await load();
    return cases.map(({ name, given }) => {
      try {
        return shown(scale[name](...given.map(taken)));
      } catch (error) {
        return { error: error.name, number: error.number ?? error.message };
      }
    });
  };`;

const digits = bytes => ({ digits: Buffer.from(bytes).toString('hex') });
const sample = async name => digits(await readFile(join(samples, name)));
const failed = (error, number = 0) => ({ error, number });

async function worked() {
  const [kinds, vec, deep] = await Promise.all(['kinds.scale', 'vec_u32.scale', 'recursive.scale'].map(sample));
  const [value, text] = [{ digits: '010000000702000000' }, '{"left":1,"right":{"Just":[2]}}'];
  return [
    { name: 'check', given: [kinds], answer: null },
    { name: 'check', given: [{ digits: '' }], answer: 'Malformed' },
    { name: 'check', given: [{ digits: '0000' }], answer: 'TrailingBytes' },
    { name: 'prune', given: [vec, [1]], answer: { digits: '04000000050500' } },
    { name: 'prune', given: [vec, [7]], answer: failed('NoSuchType', 7) },
    { name: 'prune', given: [vec, [-1]], answer: failed('NoSuchType', -1) },
    { name: 'prune', given: [{ digits: '04000000022400' }, [0]], answer: failed('Dangling', 9) },
    { name: 'table', given: [await sample('metadata_16.scale')], answer: vec },
    { name: 'table', given: [await readFile(join(samples, 'metadata.hex'), 'utf8')], answer: vec },
    { name: 'table', given: [{ digits: '6d6574610d00' }], answer: failed('Version', 13) },
    { name: 'strip', given: [vec], answer: vec },
    { name: 'find', given: [kinds, 'demo::Choice'], answer: [2] },
    { name: 'describe', given: [kinds, 4], answer: '[u8; 3]' },
    { name: 'describe', given: [kinds, 11], answer: failed('NoSuchType', 11) },
    { name: 'value', given: [kinds, 0, value], answer: text },
    { name: 'value', given: [deep, 0, { digits: '00'.repeat(200) }], answer: failed('TooDeep') },
    { name: 'value', given: [kinds, 1, { digits: '000000' }], answer: failed('MalformedValue') },
    { name: 'value', given: [kinds, 1, { digits: '0000000000' }], answer: failed('TrailingValue') },
    { name: 'value', given: [kinds, 7, { digits: '00' }], answer: failed('Unsupported') },
    { name: 'encode', given: [kinds, 0, text], answer: value },
    { name: 'encode', given: [kinds, 1, '['], answer: failed('NoJson') },
    { name: 'encode', given: [kinds, 1, 'true'], answer: failed('Mismatch') },
    { name: 'difference', given: [kinds, 1, vec, 1], answer: null },
    { name: 'difference', given: [kinds, 3, vec, 1], answer: 'Vec<u32> -> u32' },
    { name: 'changes', given: [kinds, vec], answer: ['- demo::Pair', '- demo::Choice', '- bitvec::order::Lsb0'] },
  ];
}

const cases = [...(await worked()), ...JSON.parse(await readFile(casesFile, 'utf8'))];
await writeFile(join(site, 'blank.html'), '<!doctype html><link rel="icon" href="data:,"><title>blank</title>');
const server = await serve(site);
const page = await browser();
try {
  await page.open(`${server.url}/blank.html`);
  await page.run(ANSWERS);
  const answers = await page.run(`answers(${JSON.stringify(cases.map(({ name, given }) => ({ name, given })))})`);
  cases.forEach(({ name, given, answer }, at) => assert.deepEqual(answers[at], answer, `case ${at}: ${name} of ${JSON.stringify(given).slice(0, 500)}`));
  assert.deepEqual(page.logs, []);
} finally {
  await page.close();
  server.close();
}
console.log(`test.mjs: ${cases.length} calls gave what they must`);
