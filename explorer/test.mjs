/**
 * Uses each control of the page once, in headless Chromium, and takes pictures.
 *
 *     node test.mjs SITE SAMPLES LARGE PICTURES    the page's folder, the samples, a table of 1,000 types, and a folder for pictures
 */
import { mkdtemp, readFile, rm, writeFile } from 'node:fs/promises';
import { tmpdir } from 'node:os';
import { join, resolve } from 'node:path';
import assert from 'node:assert/strict';
import { browser, serve } from '../bindings/js/browser.mjs';

const [site, samples, large, pictures] = process.argv.slice(2).map(it => resolve(it));
const made = await mkdtemp(join(tmpdir(), 'tables-'));
const kinds = await readFile(join(samples, 'kinds.scale'));
const file = async (name, data) => {
  await writeFile(join(made, name), data);
  return join(made, name);
};
const server = await serve(site);
const page = await browser();
const textOf = id => page.run(`document.getElementById('${id}').textContent`);
const set = (id, value) => page.run(`document.getElementById('${id}').value = ${JSON.stringify(value)}`);
const click = selector => page.run(`document.querySelector(${JSON.stringify(selector)}).click()`);
const says = (id, words) => page.until(`document.getElementById('${id}').textContent.includes(${JSON.stringify(words)})`);
const picture = async name => writeFile(join(pictures, `${name}.png`), await page.picture());
const rows = () => page.run("document.querySelectorAll('#list li').length");

/** The file of each kind of input, and an error by its name. */
async function opens() {
  for (const name of ['metadata_14.scale', 'metadata_15.scale', 'metadata_16.scale', 'metadata.hex']) {
    await page.choose('#file', join(samples, name));
    await says('status', `${name}, 2 types in 13 bytes`);
  }
  await page.choose('#file', await file('cut.scale', kinds.subarray(0, 100)));
  await says('status', 'Malformed: the bytes are no table.');
  await page.choose('#file', await file('old.scale', Buffer.from('meta\x0d\x00')));
  await says('status', 'Version: metadata of version 13 is not known.');
  await set('text', `0x${kinds.toString('hex')}`);
  await click('#paste button');
  await says('status', 'pasted text, 11 types');
  await page.choose('#file', join(samples, 'kinds.scale'));
  await says('status', 'kinds.scale, 11 types');
}

/** The list, a search, a reference that is followed, and the declaration. */
async function looks() {
  assert.equal(await rows(), 11);
  await says('declaration', 'struct Pair');
  await set('search', 'choice variant');
  await page.run("document.getElementById('search').oninput()");
  assert.equal(await rows(), 1);
  assert.equal(await textOf('found'), '1 type');
  await set('search', '');
  await page.run("document.getElementById('search').oninput()");
  await click('#references button');
  await says('title', '1 u32');
  assert.equal(await page.run('document.activeElement.id'), 'title');
  await page.run("document.querySelector('#list button[data-id=\"2\"]').focus()");
  await page.press('Enter', 'Enter', '\r');
  await says('declaration', 'enum Choice');
}

/** A value, read and written, and one that is none. */
async function values() {
  await click('#list button[data-id="0"]');
  await says('title', '0 demo::Pair');
  await set('bytes', '0x01000000 07 02000000');
  await click('#read');
  await says('said', 'Read: 9 bytes as a value of type 0.');
  assert.equal(await page.run("document.getElementById('json').value"), '{"left":1,"right":{"Just":[2]}}');
  await set('bytes', '');
  await click('#write');
  await says('said', 'Written: 9 bytes.');
  assert.equal(await page.run("document.getElementById('bytes').value"), '0x010000000702000000');
  await set('bytes', '0x01');
  await click('#read');
  await says('said', 'MalformedValue: the bytes are no value of the type.');
  await set('json', '[');
  await click('#write');
  await says('said', 'NoJson: the text is no JSON.');
}

/** A part of the table, and the table without docs. */
async function makes() {
  assert.equal(await page.run("document.getElementById('prune').disabled"), true);
  await click('#list li:nth-child(3) input');
  await says('chosen', '1 type chosen');
  await click('#prune');
  await says('made', 'Made: 2 types, ');
  assert.equal(await page.run("document.getElementById('save').download"), 'kinds.pruned.scale');
  await picture('kinds');
  await click('#none');
  await says('chosen', 'Choose the types to keep');
  await click('#strip');
  await says('made', 'Save kinds.stripped.scale');
}

/** Two tables side by side: docs, a changed path and why. */
async function compares() {
  const other = Buffer.from(kinds);
  other[other.indexOf('first')] = 'F'.charCodeAt(0);
  await page.choose('#other', await file('docs.scale', other));
  await says('changes', 'Nothing.');
  await click('#docs');
  await says('changes', '~ demo::Pair');
  await click('#changes button');
  await says('changes', '~ demo::Pair: ');
  await picture('changes');
  await page.choose('#other', join(samples, 'vec_u32.scale'));
  await says('changes', '+ demo::Pair');
}

/** Each control and region has a name for who can't see it. */
async function isNamed() {
  const { nodes } = await page.call('Accessibility.getFullAXTree');
  const controls = nodes.filter(it => !it.ignored && ['button', 'checkbox', 'textbox', 'searchbox', 'link', 'list', 'region'].includes(it.role?.value));
  assert(controls.length > 20);
  assert.deepEqual(controls.filter(it => !it.name?.value).map(it => it.role.value), []);
}

/** A runtime's 1,000 types, in light and dark. */
async function isFast() {
  await page.choose('#file', large);
  await says('status', '1,000 types');
  const spent = Number((await textOf('status')).match(/in ([0-9]+) ms/)[1]);
  assert(spent < 1000, `1,000 types took ${spent} ms`);
  for (const value of ['light', 'dark']) {
    await page.call('Emulation.setEmulatedMedia', { features: [{ name: 'prefers-color-scheme', value }] });
    await picture(value);
  }
  return spent;
}

try {
  await page.open(`${server.url}/index.html`);
  await opens();
  await looks();
  await values();
  await makes();
  await compares();
  await isNamed();
  const spent = await isFast();
  assert.deepEqual(page.logs, []);
  console.log(`explorer: each control did what it must; 1,000 types took ${spent} ms`);
} finally {
  await page.close();
  server.close();
  await rm(made, { recursive: true });
}
