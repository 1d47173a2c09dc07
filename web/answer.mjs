// The bytes of an answer read (document 01, "The answer area"): every field, texts and literals as the bytes that they name.

const HEAD_SIZE = 32;
const CONCATENATION_SIZE = 20;
const COMPONENT_SIZE = 72;

export const KINDS = ['', 'literal', 'variable', 'filler'];
export const ALIGNMENTS = ['none', 'single', 'lsb', 'msb', 'mid', 'multiple'];

/** The place of the text table's offset in an image's header. */
const TEXT_OFFSET = 32;

/** The answer to an image. Widths and numbers are BigInt; where there is no width it is 0n, as in the area. */
export function readAnswer(area, image) {
  const fields = new Fields(area, image);
  const count = fields.number(0);
  const literals = HEAD_SIZE + CONCATENATION_SIZE * count + COMPONENT_SIZE * fields.number(4);
  let at = HEAD_SIZE + CONCATENATION_SIZE * count;
  const concatenations = [];
  for (let i = 0; i < count; i++) {
    const place = HEAD_SIZE + CONCATENATION_SIZE * i;
    const components = [];
    for (let k = 0; k < fields.number(place); k++, at += COMPONENT_SIZE) components.push(readComponent(fields, at, literals));
    concatenations.push({
      components,
      alignment: fields.number(place + 4),
      deterministic: (fields.number(place + 8) & 1) !== 0,
      nonzero: (fields.number(place + 8) & 2) !== 0,
      width: fields.long(place + 12),
    });
  }
  const flags = fields.number(16);
  return {
    concatenations,
    components: fields.number(4),
    width: fields.long(8),
    deterministic: (flags & 1) !== 0,
    nonzero: (flags & 2) !== 0,
    startingValue: (flags & 4) !== 0 ? fields.text(24) : null,
    alignment: fields.number(20),
  };
}

function readComponent(fields, at, literals) {
  const kind = fields.number(at);
  const literalWidth = fields.number(at + 12);
  const offset = fields.number(at + 16);
  return {
    kind: KINDS[kind],
    text: fields.text(at + 4),
    literalWidth,
    offset,
    literal: fields.area.slice(literals + offset, literals + offset + (kind === 1 ? Math.ceil(literalWidth / 8) : 0)),
    start: fields.bound(at + 24),
    end: fields.number(at + 20) !== 0 ? fields.bound(at + 48) : null,
  };
}

class Fields {
  constructor(area, image) {
    this.area = area;
    this.view = new DataView(area.buffer, area.byteOffset, area.byteLength);
    const textAt = new DataView(image.buffer, image.byteOffset).getUint32(TEXT_OFFSET, true);
    this.texts = image.subarray(textAt);
  }

  number(at) {
    return this.view.getUint32(at, true);
  }

  long(at) {
    return this.view.getBigUint64(at, true);
  }

  /** A text, by its start and length. */
  text(at) {
    return this.texts.slice(this.number(at), this.number(at) + this.number(at + 4));
  }

  /** A bound: a text, and 16 bytes of x in two's complement. */
  bound(at) {
    return { text: this.text(at), x: (this.view.getBigInt64(at + 16, true) << 64n) | this.long(at + 8) };
  }
}

/** Whether two byte strings are the same. */
export function sameBytes(a, b) {
  return a.length === b.length && a.every((byte, i) => byte === b[i]);
}

/** A component's width: known when the texts of start and end are equal and the difference fits 128 bits; else null. */
export function widthOf({ start, end }) {
  if (end === null || !sameBytes(start.text, end.text)) return null;
  const width = end.x - start.x;
  return width < 1n << 127n ? width : null;
}

/** Bytes in hex, the highest first. */
export function hexOf(bytes) {
  return Array.from(bytes, (byte) => byte.toString(16).padStart(2, '0')).reverse().join('');
}
