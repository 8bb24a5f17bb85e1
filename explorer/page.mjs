/** The page: files, the list of types, one type, values of it, parts of the table to save, and what changed between two tables. */
import { ask } from './library.mjs';
import { bytesOf, digitsOf, found, kindOf, labelOf, referencesOf } from './types.mjs';

/** More rows than this are not shown at once. */
const MOST_ROWS = 1000;

const $ = id => document.getElementById(id);
const size = count => `${count.toLocaleString('en')} ${count === 1 ? 'byte' : 'bytes'}`;
const number = (count, word) => `${count.toLocaleString('en')} ${word}${count === 1 ? '' : 's'}`;

/** The table that is open, and the one that it is compared with. */
let table = null;
let types = [];
let other = null;
let shown = null;
let name = 'table';
const chosen = new Set();

const element = (tag, properties = {}, ...children) => {
  const made = Object.assign(document.createElement(tag), properties);
  made.append(...children);
  return made;
};

/** Says something in a place of the page: a word in green or red, and a sentence. */
function say(place, isGood, word, sentence) {
  $(place).hidden = false;
  $(place).replaceChildren(element('span', { className: isGood ? 'good' : 'bad' }, word), ` ${sentence}`);
}

/** Does what a control asks for; an error is said in this place. */
async function tried(place, work) {
  try {
    await work();
  } catch (error) {
    say(place, false, error.name === 'Error' ? 'Not done:' : `${error.name}:`, `${error.message}.`);
  }
}

/** Opens an input: its table, and the list of its types. */
async function open(given, from) {
  await tried('status', async () => {
    const began = performance.now();
    const read = await ask('table', given);
    const made = JSON.parse(await ask('json', read)).types;
    [table, types, name, shown] = [read, made, from.replace(/\.\w+$/, ''), null];
    chosen.clear();
    $('work').hidden = false;
    $('search').value = '';
    $('made').replaceChildren();
    list();
    const spent = Math.round(performance.now() - began);
    say('status', true, 'Read:', `${from}, ${number(types.length, 'type')} in ${size(table.length)}, in ${spent} ms.`);
    if (types.length) await show(0);
    await compare();
  });
}

/** Takes an input to compare with. */
async function openOther(given, from) {
  await tried('compared', async () => {
    other = await ask('table', given);
    say('compared', true, 'To compare with:', `${from}, ${size(other.length)}.`);
    await compare();
  });
}

/** The list of the types that are searched for. */
function list() {
  const ids = found(types, $('search').value);
  $('list').replaceChildren(...ids.slice(0, MOST_ROWS).map(row));
  $('found').textContent = ids.length > MOST_ROWS ? `${number(ids.length, 'type')}, of which the first ${MOST_ROWS} are shown` : number(ids.length, 'type');
  bar();
}

function row(id) {
  const label = labelOf(types, id);
  const box = element('input', { type: 'checkbox', checked: chosen.has(id), ariaLabel: `Choose ${id} ${label}` });
  box.onchange = () => {
    if (box.checked) chosen.add(id);
    else chosen.delete(id);
    bar();
  };
  const button = element('button', { type: 'button', className: 'path', onclick: () => show(id, true) }, `${id} ${label}`);
  button.dataset.id = id;
  button.ariaCurrent = String(id === shown);
  return element('li', {}, box, button, element('span', { className: 'kind' }, kindOf(types[id].type)));
}

function bar() {
  $('chosen').textContent = chosen.size ? `${number(chosen.size, 'type')} chosen` : 'Choose the types to keep';
  $('prune').disabled = $('none').disabled = !chosen.size;
}

/** Shows a type, and goes to it where it was asked for. */
async function show(id, goes = false) {
  await tried('said', async () => {
    const declared = await ask('describe', table, id);
    shown = id;
    for (const it of $('list').querySelectorAll('button')) it.ariaCurrent = String(Number(it.dataset.id) === id);
    $('title').textContent = `${id} ${labelOf(types, id)}`;
    $('declaration').textContent = declared;
    const references = referencesOf(types[id].type);
    const buttons = references.map(it => element('button', { type: 'button', onclick: () => show(it, true) }, `${it} ${labelOf(types, it)}`));
    $('references').replaceChildren(...(buttons.length ? buttons.map(it => element('li', {}, it)) : [element('li', {}, 'no type')]));
    $('said').replaceChildren();
    if (goes) $('title').focus();
  });
}

/** Offers bytes to be saved. */
function offer(bytes, word, kept) {
  const link = element('a', { href: URL.createObjectURL(new Blob([bytes])), download: `${name}.${word}.scale`, id: 'save' }, `Save ${name}.${word}.scale`);
  URL.revokeObjectURL($('save')?.href);
  say('made', true, 'Made:', `${kept}${size(bytes.length)} of ${size(table.length)}. `);
  $('made').append(link);
}

async function prune() {
  await tried('made', async () => {
    const bytes = await ask('prune', table, [...chosen]);
    offer(bytes, 'pruned', `${number(JSON.parse(await ask('json', bytes)).types.length, 'type')}, `);
  });
}

async function strip() {
  await tried('made', async () => offer(await ask('strip', table), 'stripped', ''));
}

async function read() {
  await tried('said', async () => {
    const bytes = bytesOf($('bytes').value);
    if (!bytes) throw new Error('these are no pairs of hexadecimal digits');
    $('json').value = await ask('value', table, shown, bytes);
    say('said', true, 'Read:', `${size(bytes.length)} as a value of type ${shown}.`);
  });
}

async function write() {
  await tried('said', async () => {
    const bytes = await ask('encode', table, shown, $('json').value);
    $('bytes').value = digitsOf(bytes);
    say('said', true, 'Written:', `${size(bytes.length)}.`);
  });
}

/** What changed from the other table to this one, where there is one. */
async function compare() {
  if (!table || !other) return;
  await tried('compared', async () => {
    const tables = $('docs').checked ? [other, table] : await Promise.all([ask('strip', other), ask('strip', table)]);
    const lines = await ask('changes', ...tables);
    $('changed').hidden = false;
    const rows = lines.map(line => element('li', {}, line.startsWith('~') ? reason(tables, line) : element('code', {}, line)));
    $('changes').replaceChildren(...(rows.length ? rows : [element('li', {}, 'Nothing.')]));
  });
}

/** A line of a changed path, which tells why when it is asked. */
function reason(tables, line) {
  const path = line.slice(2);
  const button = element('button', { type: 'button' }, line);
  button.onclick = () =>
    tried('compared', async () => {
      const [[id], [own]] = await Promise.all(tables.map(it => ask('find', it, path)));
      const told = await ask('difference', tables[0], id, tables[1], own);
      button.textContent = `${line}: ${told ?? 'another type with this path'}`;
    });
  return button;
}

const bytesIn = async file => new Uint8Array(await file.arrayBuffer());
const chooses = (control, work) => {
  $(control).onchange = async () => {
    const [file] = $(control).files;
    if (file) await work(await bytesIn(file), file.name);
  };
};

chooses('file', open);
chooses('other', openOther);
$('paste').onsubmit = event => {
  event.preventDefault();
  open($('text').value, 'pasted text');
};
$('search').oninput = list;
$('none').onclick = () => {
  chosen.clear();
  list();
};
$('prune').onclick = prune;
$('strip').onclick = strip;
$('value').onsubmit = event => event.preventDefault();
$('read').onclick = read;
$('write').onclick = write;
$('docs').onchange = compare;
const over = isOver => event => {
  event.preventDefault();
  $('drop').classList.toggle('over', isOver);
};
document.ondragover = over(true);
document.ondragleave = over(false);
document.ondrop = async event => {
  over(false)(event);
  const [file] = event.dataTransfer.files;
  if (file) await open(await bytesIn(file), file.name);
};
