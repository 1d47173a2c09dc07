// A line of text as a tree: concatenations of components, a component's records in a row as the image has them (document 01, "The
// prepared image"), each component and concatenation with its place in the text.
import { LineError, joined, tokens } from './tokens.mjs';
import { readLiteral } from './literal.mjs';

/** The record kinds that this file tells apart. */
const CHARACTERS = 0;
const BRACKET = 3;
const CLOSER = 5;

/** More openers than an image could hold in one another; the encoder in Rust stops there too. */
const MOST_NESTED = 1024;

const BITS_ELSEWHERE = "⟦ ⟧ stands only at a component's end";

/**
 * The concatenations of a line, each { components, at, to }, its components least significant first (the last written first), each
 * { records, width, bits, at, to }. A record is { kind, bytes, skip }.
 */
export function readLine(line) {
  const reading = new Reading();
  for (const token of tokens(line)) reading.take(token);
  return reading.end();
}

class Reading {
  constructor() {
    this.concatenations = [];
    this.written = []; // the components of this concatenation, as they are written
    this.before = null; // the `,` or `;` before this component
    this.beginComponent();
  }

  beginComponent() {
    this.records = [];
    this.open = []; // openers not closed yet: { group, record, at, to }
    this.given = null; // what ⟦ ⟧ says
    this.afterWord = false;
    this.names = []; // the names of the last record, and the spaces between them
    this.at = null;
    this.to = null;
  }

  take(token) {
    const between = this.open.length === 0 && token.type === 'mark';
    if (between && (token.text === ',' || token.text === ';')) {
      this.endComponent(token);
      this.before = token;
      if (token.text === ';') this.endConcatenation();
      return;
    }
    if (this.given) throw new LineError(BITS_ELSEWHERE, this.given);
    this.at ??= token.at;
    this.to = token.to;
    if (token.type !== 'word') this.endNames();
    this.addToken(token);
    if (token.type === 'word' && !this.afterWord) this.names = [token.bytes];
    this.afterWord = token.type === 'word';
  }

  /** Names side by side become the bytes of their record. */
  endNames() {
    if (this.names.length > 1) this.records.at(-1).bytes = joined(this.names);
    this.names = [];
  }

  addToken(token) {
    if (token.type === 'open') return this.openGroup(token);
    if (token.type === 'close') return this.closeGroup(token);
    if (token.type === 'bits') {
      if (this.open.length > 0) throw new LineError(BITS_ELSEWHERE, token);
      this.given = token;
      return;
    }
    // two names side by side are one record, a space between them
    if (token.type === 'word' && this.afterWord) this.names.push([0x20], token.bytes);
    else this.records.push({ kind: CHARACTERS, bytes: token.bytes, skip: 1 });
  }

  openGroup({ group, at, to }) {
    if (this.open.length === MOST_NESTED) throw new LineError('more than 1,024 groups in each other', { at, to });
    this.open.push({ group, record: this.records.length, at, to });
    this.records.push({ kind: group.kind, bytes: [group.bytes[0].charCodeAt(0)], skip: 0 });
  }

  closeGroup({ group, at, to }) {
    const opener = this.open.pop();
    if (!opener) throw new LineError(`\`${group.close}\` closes nothing`, { at, to });
    if (opener.group !== group) {
      const words = `\`${opener.group.open}\` is closed by \`${group.close}\`, not \`${opener.group.close}\``;
      throw new LineError(words, opener, { at, to });
    }
    this.records.push({ kind: CLOSER, bytes: [group.bytes[1].charCodeAt(0)], skip: 1 });
    this.records[opener.record].skip = this.records.length - opener.record;
  }

  /** mark: the `,` or `;` that ends the component; none at the end of the line. */
  endComponent(mark) {
    const opener = this.open.at(-1);
    if (opener) throw new LineError(`\`${opener.group.open}\` is not closed`, opener);
    this.endNames();
    if (this.records.length === 0) throw this.emptyComponent(mark);
    const first = this.concatenations.length === 0 && this.written.length === 0;
    const literal = this.given ? { width: this.given.width, bytes: this.given.bytes } : literalOf(this.records, first);
    const { records, at, to } = this;
    this.written.push({ records, width: literal?.width ?? 0, bits: literal?.bytes ?? [], at, to });
    this.beginComponent();
  }

  emptyComponent(mark) {
    const before = this.before;
    if (this.given) return new LineError('nothing stands before ⟦ ⟧', this.given);
    if (before && mark) return new LineError(`nothing stands between \`${before.text}\` and \`${mark.text}\``, before, mark);
    if (before) return new LineError(`nothing stands after \`${before.text}\``, before);
    if (mark) return new LineError(`nothing stands before \`${mark.text}\``, mark);
    return new LineError('there is no line');
  }

  endConcatenation() {
    const at = this.written[0].at;
    const to = this.written.at(-1).to;
    this.concatenations.push({ components: this.written.reverse(), at, to });
    this.written = [];
  }

  end() {
    this.endComponent(null);
    this.endConcatenation();
    return this.concatenations;
  }
}

/** Width and bytes where what stands between a starting value and the range is a literal; null where it is none. */
function literalOf(records, mayHavePrefix) {
  let middle = topLevel(records);
  if (middle.at(-1).kind === BRACKET) middle = middle.slice(0, -1);
  if (mayHavePrefix) middle = middle.slice(loneColon(middle) + 1);
  if (middle.some((record) => record.kind !== CHARACTERS)) return null;
  const text = new TextDecoder('utf-8', { ignoreBOM: true }).decode(joined(middle.map((record) => record.bytes)));
  return readLiteral(text);
}

/** Openers and characters that stand in no group. */
function topLevel(records) {
  const items = [];
  for (let at = 0; at < records.length; at += records[at].skip) items.push(records[at]);
  return items;
}

/** The index of the first lone colon, or -1; the two of `::` are passed over together. */
function loneColon(items) {
  const isColon = (i) => i < items.length && items[i].kind === CHARACTERS && items[i].bytes.length === 1 && items[i].bytes[0] === 0x3a;
  for (let i = 0; i < items.length; i++) {
    if (isColon(i) && !isColon(i + 1)) return i;
    if (isColon(i)) i++;
  }
  return -1;
}
