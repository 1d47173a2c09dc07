// layout_tokens of the library as WebAssembly: the worked examples 2 and 4 of document 02's L2, by the page's records and texts.
import { memory } from '../../web/reader.mjs';

const GUARD = 64;
const GUARD_BYTE = 0xc3;
const TOO_SHORT = 53n << 32n;

// a token: kind, text start, length; a group's start and length are not looked at
const EXAMPLES = [
  {
    text: 'a , b ; c', list: [0, 0, 1, 1, 2, 1, 0, 4, 1, 1, 6, 1, 0, 8, 1],
    image: [2, 3, 3, 3, 0, 40, 48, 72, 108, 111, 2, 1, 1, 0, 1, 0, 1, 0, 0, 0, 1, 0, 1, 1, 0, 2, 1], joined: 'bac',
  },
  {
    text: 'x y z', list: [3, 9, 0xffffffff, 0, 0, 1, 0, 2, 1, 7, 0xffffffff, 9, 0, 4, 1],
    image: [1, 1, 4, 6, 0, 40, 44, 52, 100, 106, 1, 4, 0, 1, 0, 3, 0, 1, 1, 5, 4, 1, 0, 5, 1], joined: ' x y z',
  },
];

function bytesOf(numbers) {
  const bytes = Buffer.alloc(4 * numbers.length);
  numbers.forEach((n, i) => bytes.writeUInt32LE(n, 4 * i));
  return bytes;
}

/** Whether the image is written where the area has room for it, else refused with 53, and all other bytes are as lent. */
function right(library, list, text, image, areaLength) {
  const listAt = GUARD;
  const textAt = listAt + list.length + GUARD;
  const areaAt = textAt + text.length + GUARD;
  const { base, bytes } = memory(library, areaAt + areaLength + GUARD);
  const lent = bytes.subarray(base, base + areaAt + areaLength + GUARD);
  lent.fill(GUARD_BYTE);
  lent.set(list, listAt);
  lent.set(text, textAt);
  const after = Buffer.from(lent);
  const fits = areaLength >= image.length;
  if (fits) after.set(image, areaAt);
  const at = [base + listAt, BigInt(list.length), base + textAt, BigInt(text.length), base + areaAt, BigInt(areaLength)];
  const outcome = BigInt.asUintN(64, library.layout_tokens(...at));
  return outcome === (fits ? BigInt(image.length) : TOO_SHORT) && Buffer.compare(lent, after) === 0;
}

/** Says that the examples came out as they must, or throws. */
export function checkTokens(library) {
  for (const example of EXAMPLES) {
    const [list, text] = [bytesOf(example.list), Buffer.from(example.text)];
    const image = Buffer.concat([bytesOf(example.image), Buffer.from(example.joined)]);
    for (const areaLength of [image.length + GUARD, image.length, image.length - 1, 0]) {
      if (right(library, list, text, image, areaLength)) continue;
      throw new Error(`layout_tokens on ${JSON.stringify(example.text)}, with an area of ${areaLength}: another image or outcome`);
    }
  }
  console.log(`wasm32: layout_tokens: ${EXAMPLES.length} images as they must be`);
}
