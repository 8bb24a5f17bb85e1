/** What the page says of types, by the JSON text of their table. */

/** The kind of a type's definition. */
export const kindOf = type => Object.keys(type.def)[0];

/** The ids that a type refers to, each once, in order. */
export function referencesOf(type) {
  const kind = kindOf(type);
  const def = type.def[kind];
  const fields = kind === 'composite' ? def.fields : kind === 'variant' ? (def.variants ?? []).flatMap(it => it.fields ?? []) : [];
  const own = {
    sequence: () => [def.type],
    array: () => [def.type],
    compact: () => [def.type],
    tuple: () => def,
    bitsequence: () => [def.bit_store_type, def.bit_order_type],
    map: () => [def.key, def.value],
  };
  const parameters = (type.params ?? []).map(it => it.type ?? it.ty).filter(Number.isInteger);
  const all = [...parameters, ...(fields ?? []).map(it => it.type), ...(own[kind]?.() ?? [])];
  return [...new Set(all.filter(Number.isInteger))];
}

/** A short name of a type: its path, or how it is made. */
export function labelOf(types, id) {
  const type = types[id]?.type;
  if (!type) return `#${id}`;
  if (type.path?.length) return type.path.join('::');
  const kind = kindOf(type);
  const def = type.def[kind];
  const made = {
    primitive: () => def,
    sequence: () => `Vec<#${def.type}>`,
    array: () => `[#${def.type}; ${def.len}]`,
    compact: () => `Compact<#${def.type}>`,
    tuple: () => `(${def.map(it => `#${it}`).join(', ')})`,
    bitsequence: () => `BitVec<#${def.bit_store_type}, #${def.bit_order_type}>`,
    map: () => `BTreeMap<#${def.key}, #${def.value}>`,
  };
  return made[kind]?.() ?? kind;
}

/** The ids of the types of which id, kind and name have all these words. */
export function found(types, words) {
  const wanted = words.toLowerCase().split(/\s+/).filter(Boolean);
  return types.flatMap((it, id) => {
    const text = `${id} ${kindOf(it.type)} ${labelOf(types, id)}`.toLowerCase();
    return wanted.every(word => text.includes(word)) ? [id] : [];
  });
}

/** The digits of bytes. */
export const digitsOf = bytes => `0x${Array.from(bytes, it => it.toString(16).padStart(2, '0')).join('')}`;

/** The bytes that a text of digits writes; null, where it is none. */
export function bytesOf(text) {
  const digits = text.trim().replace(/^0x/i, '').replace(/\s/g, '');
  if (digits.length % 2 || /[^0-9a-f]/i.test(digits)) return null;
  return Uint8Array.from({ length: digits.length / 2 }, (_, at) => parseInt(digits.slice(2 * at, 2 * at + 2), 16));
}
