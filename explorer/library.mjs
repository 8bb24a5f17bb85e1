/** The library in its worker: each call is a promise of what it gives, or of its error. */
const worker = new Worker(new URL('worker.mjs', import.meta.url), { type: 'module' });
const waiting = new Map();
let last = 0;

worker.onmessage = ({ data: { id, answer, error } }) => {
  const { done, failed } = waiting.get(id);
  waiting.delete(id);
  if (error) failed(Object.assign(new Error(error.message), { name: error.name }));
  else done(answer);
};
worker.onerror = event => {
  for (const { failed } of waiting.values()) failed(new Error(event.message || 'the library could not be loaded'));
  waiting.clear();
};

/** Asks the library for this call. */
export const ask = (name, ...given) =>
  new Promise((done, failed) => {
    waiting.set(++last, { done, failed });
    worker.postMessage({ id: last, name, given });
  });
