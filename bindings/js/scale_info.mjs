/**
 * Tables of types: read, pruned, searched, and values read and written by them, in a page or a worker.
 *
 * A table is the SCALE encoding of a list of type descriptions, as a node's metadata holds it. An id of a type is its index in the table,
 * counted from 0. The module that answers was proved as a library for x86-64 and compiled for WebAssembly; what hands bytes on to it, here,
 * is not proved.
 *
 *     const scale = await load();
 *     const table = scale.table(metadata);               // a Uint8Array
 *     scale.value(table, 0, new Uint8Array([8, 1, 0, 0, 0, 2, 0, 0, 0]))   // "[1,2]"
 *
 * Each call has an instance and a memory of its own, so nothing is left of it, and a call that fails spoils no other.
 */

/** What each status of the module says. */
const STATUSES = [
  'Done', 'Malformed', 'TrailingBytes', 'NoSuchType', 'Dangling', 'OutOfMemory', 'NoRoom', 'Version', 'NoText', 'NoJson', 'Unsupported', 'TooDeep',
  'MalformedValue', 'TrailingValue', 'Mismatch',
];
const [DONE, NO_ROOM] = [0, 6];

/** The sentence of each error; # stands for its number. */
const SENTENCES = {
  Malformed: 'the bytes are no table',
  TrailingBytes: 'there are bytes after the table',
  NoSuchType: 'no such type #',
  Dangling: 'dangling id #',
  OutOfMemory: 'out of memory',
  Version: 'metadata of version # is not known',
  NoText: 'the path is not UTF-8',
  NoJson: 'the text is no JSON',
  Unsupported: 'values of the type are neither read nor written',
  TooDeep: 'the value is more than 128 deep',
  MalformedValue: 'the bytes are no value of the type',
  TrailingValue: 'there are bytes after the value',
  Mismatch: 'the JSON is no value of the type',
  Fault: 'the module stopped',
};

/** Why a call gives nothing: `name` is one of the names above, and `number` the id or the version that goes with it, else 0. */
export class ScaleInfoError extends Error {
  constructor(name, number = 0) {
    super(SENTENCES[name].replace('#', number));
    this.name = name;
    this.number = number;
  }
}

/** The id as the module takes it; one that is no whole number from 0 to 2^32 - 1 is no index of a table. */
function idOf(id) {
  if (!Number.isInteger(id) || id < 0 || id > 0xffffffff) throw new ScaleInfoError('NoSuchType', id);
  return id;
}

/** Bytes, or a text as its UTF-8. */
const bytesOf = given => (typeof given === 'string' ? new TextEncoder().encode(given) : given);
const textOf = bytes => new TextDecoder().decode(bytes);

/** One instance of the module, and where its arguments lie in its memory. */
class Call {
  constructor(module) {
    this.exports = new WebAssembly.Instance(module).exports;
  }

  /** Room of so many bytes: where it is, as a BigInt, since the memory has 64-bit addresses. */
  room(size) {
    const at = this.exports.heap_alloc(BigInt(size));
    if (at === 0n) throw new ScaleInfoError('OutOfMemory');
    return at;
  }

  /** The arguments of a slice: where it is, and how many items it has. */
  slice(items) {
    const at = this.room(items.byteLength);
    new Uint8Array(this.exports.memory.buffer, Number(at), items.byteLength).set(new Uint8Array(items.buffer, items.byteOffset, items.byteLength));
    return [at, BigInt(items.length)];
  }

  /** The arguments of the module for those of a call: a list is a slice, and a number an id. */
  given(all) {
    return all.flatMap(it => (typeof it === 'number' ? [it] : this.slice(it)));
  }

  /** Calls without a room. */
  ask(name, given) {
    return this.exports[`scale_info_ffi_${name}`](...this.given(given));
  }

  /** Calls with room for so many items of this size: the status, the count, and where the items are. */
  fill(name, given, items, size) {
    const all = this.given(given);
    const [at, count] = [this.room(items * size), this.room(8)];
    const status = this.exports[`scale_info_ffi_${name}`](...all, at, BigInt(items), count);
    // The memory may have grown, so its old buffer is not used again.
    const length = Number(new DataView(this.exports.memory.buffer).getBigUint64(Number(count), true));
    return { status, length, items: size === 4 ? Uint32Array : Uint8Array, at: Number(at) };
  }

  /** A copy of the output of a call that was done. */
  output({ items, at, length }) {
    return new items(this.exports.memory.buffer, at, length).slice();
  }
}

/** Does the work; a module that stopped is an error like the others. */
function guarded(work) {
  try {
    return work();
  } catch (error) {
    if (error instanceof WebAssembly.RuntimeError) throw new ScaleInfoError('Fault');
    throw error;
  }
}

/** The calls of a compiled module. */
export function callsOf(module) {
  /** Calls with so much room, and once more with the room that is wanted. */
  function filled(name, given, first, size = 1) {
    return guarded(() => {
      for (let wanted = first; ;) {
        const call = new Call(module);
        const answer = call.fill(name, given, wanted, size);
        if (answer.status === DONE) return call.output(answer);
        if (answer.status !== NO_ROOM) throw new ScaleInfoError(STATUSES[answer.status], answer.length);
        wanted = answer.length;
      }
    });
  }

  return {
    /** Whether the bytes are one table, with nothing after it: null, or the name of why they are none. */
    check(table) {
      const status = guarded(() => new Call(module).ask('check', [table]));
      return status === DONE ? null : STATUSES[status];
    },
    /** The table of what these ids reach, in depth-first order of discovery from the ids in ascending order, each once. */
    prune: (table, ids) => filled('prune', [table, Uint32Array.from(ids, idOf)], table.length),
    /** The table as compact JSON text. */
    json: table => textOf(filled('json', [table], 2 * table.length + 64)),
    /** The table without the docs of its types, fields and variants. */
    strip: table => filled('strip', [table], table.length),
    /** The table of a node's metadata of version 14, 15 or 16, or of an input that is a table; each also as a text of hexadecimal digits. */
    table: input => filled('table', [bytesOf(input)], bytesOf(input).length),
    /** The ids, ascending, of the types with this path; none, where no type has it. */
    find: (table, path) => [...filled('find', [table, bytesOf(path)], 4, 4)],
    /** The type as Rust declares it, with its docs. */
    describe: (table, id) => textOf(filled('describe', [table, idOf(id)], 1024)),
    /** The JSON text of the bytes as one value of the type. */
    value: (table, id, bytes) => textOf(filled('value', [table, idOf(id), bytes], 4 * bytes.length + 64)),
    /** The encoding of the value of the type that the JSON text gives. */
    encode: (table, id, json) => filled('encode', [table, idOf(id), bytesOf(json)], bytesOf(json).length),
    /** What differs first between a type of one table and one of another; null, where they are the same. */
    difference: (first, id, second, other) => textOf(filled('same', [first, idOf(id), second, idOf(other)], 1024)) || null,
    /** A line for each path of types that changed between two tables: "- PATH", "+ PATH" or "~ PATH". */
    changes: (old, other) => textOf(filled('changes', [old, other], 4096)).split('\n').slice(0, -1),
  };
}

/** Compiles the module, and gives its calls. */
export async function load(url = new URL('scale_info.wasm', import.meta.url)) {
  return callsOf(await WebAssembly.compileStreaming(fetch(url)));
}
