// node lines.mjs LAYOUT-LINE: the page's reader of lines (web/line.mjs, web/image.mjs) beside the encoder in Rust (encoder/): the same
// image byte for byte, or both refuse the line. Lines of the examples, lines chosen for what is easily read in two ways, and
// generated ones, the same each time.
import { spawnSync } from 'node:child_process';
import fs from 'node:fs';
import { imageOf } from '../../web/image.mjs';
import { readLine } from '../../web/line.mjs';
import { LineError } from '../../web/tokens.mjs';
import { CHOSEN, generated } from './lines_made.mjs';

const WITH_IMAGE = 3000;
const [encoder] = process.argv.slice(2);
const root = new URL('../../', import.meta.url);

/** The image of a line, or null where the page refuses it. */
function ours(line) {
  try {
    return Buffer.from(imageOf(readLine(line)));
  } catch (error) {
    if (error instanceof LineError) return null;
    throw error;
  }
}

/** The same by the encoder: exit status 0 with a mode byte and an image, or 2 with words and nothing on standard output. */
function theirs(line) {
  const { status, stdout, error } = spawnSync(encoder, ['encode', '0'], { input: line });
  if (error) throw error;
  if (status === 0 && stdout[0] === 0) return stdout.subarray(1);
  if (status === 2 && stdout.length === 0) return null;
  throw new Error(`${encoder} ended with status ${status} on ${JSON.stringify(line)}`);
}

const examples = ['whole', 'cut'].map((name) => fs.readFileSync(new URL(`examples/${name}.txt`, root), 'utf8'));
const lines = new Set([...examples, ...CHOSEN, ...generated(4600)]);
let different = 0;
let images = 0;
for (const line of lines) {
  const [one, two] = [ours(line), theirs(line)];
  if (one !== null) images++;
  if (one === null ? two === null : two !== null && one.equals(two)) continue;
  different++;
  const word = (image) => (image === null ? 'refused' : image.toString('hex').slice(0, 200));
  if (different <= 5) console.log(`lines: ${JSON.stringify(line)}: the page ${word(one)}, the encoder ${word(two)}`);
}
const refused = lines.size - images;
console.log(`lines: ${images} lines with an image, ${refused} refused: ${lines.size - different} equal, ${different} different`);
if (images < WITH_IMAGE) console.log(`lines: at least ${WITH_IMAGE} with an image are asked for`);
process.exitCode = different > 0 || images < WITH_IMAGE ? 1 : 0;
