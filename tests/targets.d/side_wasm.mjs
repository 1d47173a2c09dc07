// The library as WebAssembly, in node. Each case is run with image and area between guard bytes, the area full of a pattern.
import fs from 'node:fs';
import { ANY_LISTING, instance, memory } from '../../web/reader.mjs';
import { checkTokens } from './tokens.mjs';

const GUARD = 64;
const GUARD_BYTE = 0xc3;
const patternAt = (i) => i % 251;

export async function wasmSide(file, cases) {
  const bytes = fs.readFileSync(file);
  const imports = WebAssembly.Module.imports(new WebAssembly.Module(bytes));
  if (imports.length > 0) throw new Error(`it imports ${imports[0].name}`);
  const library = await instance(bytes);
  checkTokens(library);
  return cases.map((each) => answerTo(library, each));
}

function answerTo(library, { input, areaLength }) {
  const length = GUARD + input.length + GUARD + areaLength + GUARD;
  const { base, bytes } = memory(library, length + ANY_LISTING);
  const inputAt = base + GUARD;
  const areaAt = inputAt + input.length + GUARD;
  bytes.fill(GUARD_BYTE, base, base + length);
  bytes.set(input, inputAt);
  for (let i = 0; i < areaLength; i++) bytes[areaAt + i] = patternAt(i);
  const before = bytes.slice(base, base + length);

  // an input of no bytes has no mode byte; its image is empty, and refused as such
  const imageAt = Math.min(inputAt + 1, inputAt + input.length);
  const imageLength = BigInt(Math.max(0, input.length - 1));
  const outcome = library.layout_run(imageAt, imageLength, input[0] ?? 0, areaAt, BigInt(areaLength));
  const written = BigInt.asUintN(64, outcome) >> 32n === 0n ? Number(outcome) : 0;
  const answer = Buffer.from(bytes.slice(areaAt, areaAt + written));
  const after = bytes.slice(base, base + length);
  after.set(before.subarray(areaAt - base, areaAt - base + written), areaAt - base);
  const kept = written <= areaLength && Buffer.compare(before, after) === 0;

  const check = library.layout_check(imageAt, imageLength) >>> 0;
  const textAt = base + length;
  const textLength = Number(library.layout_listing(inputAt, BigInt(input.length), textAt, BigInt(ANY_LISTING)));
  return { outcome, answer, check, kept, text: Buffer.from(bytes.slice(textAt, textAt + textLength)) };
}
