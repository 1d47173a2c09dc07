// A line of text cut into tokens, each with its place: at and to, in UTF-16 units as in a text field.
//
// The tokens are the Rust's, with three marks of ours: `⟨ ⟩` is a Space group, `«..»` one record of just that text (`\` and two hex
// digits stand for a byte), `⟦8:a5⟧` a literal's width and bits. The encoder in Rust reads a line in the same way: `tests/targets
// lines` holds the two to each other. Nothing of this is proved.

/** What is wrong with a line itself, and where: places { at, to }, none where all of the line is meant. */
export class LineError extends Error {
  constructor(words, ...places) {
    super(words);
    this.places = places.map(({ at, to }) => ({ at, to }));
  }
}

/** The groups: record kind, and the bytes that open and close one in the image. */
const GROUPS = [
  { kind: 1, open: '⟨', close: '⟩', bytes: [' ', ' '] },
  { kind: 2, open: '(', close: ')', bytes: ['(', ')'] },
  { kind: 3, open: '[', close: ']', bytes: ['[', ']'] },
  { kind: 4, open: '{', close: '}', bytes: ['{', '}'] },
];

const encoder = new TextEncoder();

/** Byte strings, one after the other. */
export function joined(parts) {
  const whole = new Uint8Array(parts.reduce((sum, part) => sum + part.length, 0));
  let at = 0;
  for (const part of parts) {
    whole.set(part, at);
    at += part.length;
  }
  return whole;
}

const SPACE = /\p{White_Space}+/uy;
const WORD = /[\p{Alphabetic}\p{Nd}\p{Nl}\p{No}_]+/uy;
const RAW_WORD = /r#[\p{Alphabetic}\p{Nd}\p{Nl}\p{No}_]+/uy;
const NUMBER = /[0-9]/y;
const RAW_QUOTE = /(?:br|cr|r)(#*)"/y;
const QUOTE = /[bc]?(["'])/y;
const STRING = /(?:[^"\\]|\\[^])*"/uy;
const CHARACTER = /(?:[^'\\]|\\[xu][0-9a-fA-F{}_]*|\\[^xu])'/uy;
const COMMENT = /\/\/[^\n]*|\/\*(?:[^]*?\*\/)?/y;

/** What a sticky expression finds at a place, or null. */
function found(expression, line, at) {
  expression.lastIndex = at;
  return expression.exec(line);
}

/** Where the word at a place ends; the place itself if none begins there. */
function wordEnd(line, at) {
  const word = found(WORD, line, at);
  return word ? at + word[0].length : at;
}

/** The tokens of a line. */
export function tokens(line) {
  const list = [];
  // what some editors put first in a file; the Rust passes over it too
  let at = line.startsWith('\ufeff') ? 1 : 0;
  for (;;) {
    at += found(SPACE, line, at)?.[0].length ?? 0;
    if (at === line.length) return list;
    const token = tokenAt(line, at);
    list.push({ ...token, at });
    at = token.to;
  }
}

function tokenAt(line, at) {
  const first = String.fromCodePoint(line.codePointAt(at));
  const after = at + first.length;
  if (/\p{Surrogate}/u.test(first)) throw new LineError('half a character', { at, to: after });
  const comment = found(COMMENT, line, at);
  if (comment) throw new LineError('a comment: a line has none', { at, to: at + comment[0].length });
  if (first === '«') return recordMark(line, at);
  if (first === '⟦') return bitsMark(line, at);
  const opened = GROUPS.find((group) => group.open === first);
  if (opened) return { type: 'open', group: opened, to: after };
  const closed = GROUPS.find((group) => group.close === first);
  if (closed) return { type: 'close', group: closed, to: after };
  return textToken(line, at, first);
}

/** A quoted text, a number, a word, or one character. */
function textToken(line, at, first) {
  let type = 'literal';
  let to = quotedEnd(line, at);
  if (to === null && found(NUMBER, line, at)) to = numberEnd(line, at);
  if (to === null) {
    const raw = found(RAW_WORD, line, at);
    to = raw ? at + raw[0].length : wordEnd(line, at);
    type = 'word';
  }
  if (to === at) {
    to = at + first.length;
    type = 'mark';
  }
  const text = line.slice(at, to);
  return { type, text, bytes: encoder.encode(text), to };
}

/** A number with its suffix. A dot belongs to it unless a second dot or a name follows, and so does a decimal exponent's sign. */
function numberEnd(line, at) {
  let to = wordEnd(line, at);
  if (/^0[xob]/.test(line.slice(at, at + 2))) return to;
  const nameOrDot = /\.(?:\.|(?![0-9])[\p{Alphabetic}\p{Nd}\p{Nl}\p{No}_])/uy;
  if (line[to] === '.' && !found(nameOrDot, line, to)) to = wordEnd(line, to + 1);
  if (/[eE]/.test(line[to - 1]) && found(/[+-][0-9]/y, line, to)) to = wordEnd(line, to + 1);
  return to;
}

/** Where a string or character literal ends, prefixed and raw ones included; null if none begins here. */
function quotedEnd(line, at) {
  const raw = found(RAW_QUOTE, line, at);
  if (raw) {
    const close = '"' + raw[1];
    const end = line.indexOf(close, at + raw[0].length);
    if (end < 0) throw new LineError(NOT_CLOSED, { at, to: at + raw[0].length });
    return end + close.length;
  }
  const quote = found(QUOTE, line, at);
  if (!quote) return null;
  const inside = at + quote[0].length;
  const rest = found(quote[1] === '"' ? STRING : CHARACTER, line, inside);
  if (rest) return inside + rest[0].length;
  throw quote[1] === '"' ? new LineError(NOT_CLOSED, { at, to: inside }) : wrongCharacter(line, at, inside);
}

const NOT_CLOSED = 'a quote that is not closed';

/** Why what stands after a `'` is no character literal. A lifetime has no use in a line, and is refused as a quote not closed. */
function wrongCharacter(line, at, inside) {
  if (line[inside] === "'") return new LineError('a quote with nothing in it', { at, to: inside + 1 });
  const word = wordEnd(line, inside);
  if (line[word] === "'") return new LineError("more than one character between `'` and `'`", { at, to: word + 1 });
  return new LineError(NOT_CLOSED, { at, to: inside });
}

/** What stands between a mark and its end. */
function marked(line, at, open, close) {
  const end = line.indexOf(close, at);
  if (end < 0) throw new LineError(`no ${close} after ${open}`, { at, to: at + 1 });
  return { inside: line.slice(at + 1, end), to: end + 1 };
}

/** `«..»`: one record of just these bytes. */
function recordMark(line, at) {
  const { inside, to } = marked(line, at, '«', '»');
  const [first, ...rest] = inside.split('\\');
  const parts = [encoder.encode(first)];
  for (const part of rest) {
    if (!/^[0-9a-fA-F]{2}/.test(part)) throw new LineError('two hex digits stand after \\', { at, to });
    parts.push([parseInt(part.slice(0, 2), 16)], encoder.encode(part.slice(2)));
  }
  const bytes = joined(parts);
  if (bytes.length === 0) throw new LineError('an image holds no empty record', { at, to });
  return { type: 'record', bytes, to };
}

/** `⟦width:hex⟧`: a literal's width, and its bytes, lowest first. */
function bitsMark(line, at) {
  const { inside, to } = marked(line, at, '⟦', '⟧');
  const parts = /^([0-9]+):([0-9a-fA-F]*)$/.exec(inside);
  if (!parts) throw new LineError('between ⟦ and ⟧ stand a width, a colon and hex digits', { at, to });
  const width = Number(parts[1]);
  if (width >= 2 ** 32) throw new LineError('a width that does not fit 32 bits', { at, to });
  const bytes = [];
  for (let end = parts[2].length; end > 0; end -= 2) bytes.push(parseInt(parts[2].slice(Math.max(0, end - 2), end), 16));
  return { type: 'bits', width, bytes, to };
}
