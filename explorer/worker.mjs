/** Answers the calls of the page, each by the library, away from the page's own thread. */
import { load } from './scale_info.mjs';

const library = load();

onmessage = async ({ data: { id, name, given } }) => {
  try {
    const answer = (await library)[name](...given);
    postMessage({ id, answer });
  } catch (error) {
    postMessage({ id, error: { name: error.name, message: error.message } });
  }
};
