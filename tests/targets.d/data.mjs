// The recorded answers of crates/run_replay/data (differential/README.md, "The files of `replay`").
import fs from 'node:fs';
import path from 'node:path';

/** The entries of a file: three numbers of 4 bytes, and then as many byte strings as `lengths` names of them. */
function entries(bytes, lengths) {
  const found = [];
  let at = 0;
  while (at < bytes.length) {
    const numbers = [0, 4, 8].map((offset) => bytes.readUInt32LE(at + offset));
    at += 12;
    const strings = lengths.map((i) => bytes.subarray(at, (at += numbers[i])));
    if (at > bytes.length) throw new Error('a file of recorded answers ends within an entry');
    found.push({ numbers, strings });
  }
  return found;
}

/** { runs: [{ input, areaLength, listing }], pairs: [{ inputs, listing }] } */
export function recorded(folder) {
  const file = (name) => fs.readFileSync(path.join(folder, name));
  const runs = entries(file('runs'), [0, 2]).map(({ numbers, strings: [input, listing] }) => ({ input, areaLength: numbers[1], listing }));
  const pairs = entries(file('cuts'), [0, 1, 2]).map(({ strings: [one, two, listing] }) => ({ inputs: [one, two], listing }));
  return { runs, pairs };
}
