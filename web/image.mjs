// The prepared image of a line's concatenations (document 01, "The prepared image"). All numbers are little-endian and have 4 bytes.

const HEADER = 40;

/** Document 01's limits: the counts in the header, in its order, and how deep groups may nest. */
export const LIMITS = [
  { name: 'concatenations', most: 16 },
  { name: 'components', most: 256 },
  { name: 'records', most: 2048 },
  { name: 'text bytes', most: 16384 },
  { name: 'literal bytes', most: 8192 },
];
export const DEEPEST = 32;

/** The five counts of the header. */
export function countsOf(concatenations) {
  const components = concatenations.flatMap((concatenation) => concatenation.components);
  const records = components.flatMap((component) => component.records);
  return [
    concatenations.length,
    components.length,
    records.length,
    records.reduce((sum, record) => sum + record.bytes.length, 0),
    components.reduce((sum, component) => sum + component.bits.length, 0),
  ];
}

/** The image's bytes. */
export function imageOf(concatenations) {
  const components = concatenations.flatMap((concatenation) => concatenation.components);
  const records = components.flatMap((component) => component.records);
  const counts = countsOf(concatenations);
  const entrySizes = [4, 8, 12, 1, 1];
  const offsets = [HEADER];
  counts.forEach((count, table) => offsets.push(offsets[table] + entrySizes[table] * count));
  const bytes = new Uint8Array(offsets[5]);
  const view = new DataView(bytes.buffer);
  let at = 0;
  const put = (number) => {
    view.setUint32(at, number, true);
    at += 4;
  };
  counts.forEach(put);
  offsets.slice(0, 5).forEach(put);
  for (const concatenation of concatenations) put(concatenation.components.length);
  for (const component of components) {
    put(component.records.length);
    put(component.width);
  }
  let textAt = 0;
  for (const record of records) {
    put(record.kind);
    put(textAt);
    put(record.skip);
    bytes.set(record.bytes, offsets[3] + textAt);
    textAt += record.bytes.length;
  }
  let bitsAt = offsets[4];
  for (const component of components) {
    bytes.set(component.bits, bitsAt);
    bitsAt += component.bits.length;
  }
  return bytes;
}
