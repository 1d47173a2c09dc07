// node spoil.mjs FROM TO: copies the recorded answers and changes one byte of one: the last before the newline of the first accepted
// listing.
import fs from 'node:fs';
import path from 'node:path';

const [from, to] = process.argv.slice(2);
fs.copyFileSync(path.join(from, 'cuts'), path.join(to, 'cuts'));
const runs = fs.readFileSync(path.join(from, 'runs'));
for (let at = 0; at < runs.length; ) {
  const listing = at + 12 + runs.readUInt32LE(at);
  at = listing + runs.readUInt32LE(at + 8);
  if (runs.toString('latin1', listing, listing + 7) === 'layout ') {
    runs[at - 2] ^= 1;
    break;
  }
}
fs.writeFileSync(path.join(to, 'runs'), runs);
