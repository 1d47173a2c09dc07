// node sizes.mjs OBJECT: how much memory the sections of an ELF object for a 32-bit machine take, by what they hold. The index that
// unwinds the stack (.ARM.exidx) is told apart: nothing in the library asks for it, and a link may leave it out.
import fs from 'node:fs';

const [WRITE, ALLOC, EXECUTE] = [1, 2, 4];
const [NOBITS, EXIDX] = [8, 0x70000001];

const bytes = fs.readFileSync(process.argv[2]);
if (bytes.readUInt32BE(0) !== 0x7f454c46 || bytes[4] !== 1 || bytes[5] !== 1) throw new Error('not a little-endian ELF of 32 bits');
const [table, entry, count] = [bytes.readUInt32LE(32), bytes.readUInt16LE(46), bytes.readUInt16LE(48)];
const sizes = { text: 0, rodata: 0, data: 0, bss: 0, index: 0 };
for (let i = 0; i < count; i++) {
  const [type, flags, size] = [4, 8, 20].map((offset) => bytes.readUInt32LE(table + i * entry + offset));
  if (!(flags & ALLOC)) continue;
  if (type === EXIDX) sizes.index += size;
  else if (type === NOBITS) sizes.bss += size;
  else if (flags & WRITE) sizes.data += size;
  else if (flags & EXECUTE) sizes.text += size;
  else sizes.rodata += size;
}
const { index, ...parts } = sizes;
const words = Object.entries(parts).map(([name, size]) => `${name} ${size}`).join(', ');
console.log(`size: ${words} bytes, and ${index} of unwinding index (the library alone: its object before linking)`);
