// The library as WebAssembly: its functions over bytes of JavaScript. It imports nothing; lengths are 64 bits wide, so BigInt.

/** include/layout.h: an area and a text that are long enough for any image. */
export const ANY_AREA = 26976;
export const ANY_LISTING = 140577;

const PAGE = 65536;

/** The instance of the library's bytes. */
export async function instance(bytes) {
  const { instance: made } = await WebAssembly.instantiate(bytes, {});
  return made.exports;
}

/** What an outcome of layout_run says: accepted with a length, or refused with a number and two places. */
export function outcomeOf(bits) {
  const outcome = BigInt.asUintN(64, bits);
  const number = Number(outcome >> 32n);
  if (number === 0) return { accepted: true, length: Number(outcome) };
  return { accepted: false, number, concatenation: Number((outcome >> 16n) & 0xffffn), component: Number(outcome & 0xffffn) };
}

/** Memory from __heap_base on, with so many bytes in it at least. */
export function memory(exports, length) {
  const base = Number(exports.__heap_base.value);
  const missing = base + length - exports.memory.buffer.byteLength;
  if (missing > 0) exports.memory.grow(Math.ceil(missing / PAGE));
  return { base, bytes: new Uint8Array(exports.memory.buffer) };
}

/** Runs an image: { accepted: true, answer } or { accepted: false, number, concatenation, component }, and its listing. */
export function runImage(exports, mode, image) {
  const input = 1 + image.length;
  const { base, bytes } = memory(exports, input + ANY_AREA + ANY_LISTING);
  const area = base + input;
  const text = area + ANY_AREA;
  bytes[base] = mode;
  bytes.set(image, base + 1);
  const outcome = outcomeOf(exports.layout_run(base + 1, BigInt(image.length), mode, area, BigInt(ANY_AREA)));
  const answer = outcome.accepted ? bytes.slice(area, area + outcome.length) : null;
  const length = Number(exports.layout_listing(base, BigInt(input), text, BigInt(ANY_LISTING)));
  const listing = new TextDecoder().decode(bytes.slice(text, text + length));
  return { ...outcome, answer, listing };
}
