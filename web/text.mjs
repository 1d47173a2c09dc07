// Texts of a line and parts of an answer in a form that can be shown.
import { hexOf } from './answer.mjs';

/** Characters that are not seen or that turn what stands around them: controls, format marks, odd separators, halves. */
const UNSEEN = /[\p{Cc}\p{Cf}\p{Zl}\p{Zp}\p{Cs}\p{Co}\p{Cn}]/gu;

/** A text in which such characters stand by their number, as \u{200f}. */
export function shown(text) {
  return text.replace(UNSEEN, (c) => `\\u{${c.codePointAt(0).toString(16)}}`);
}

/** The same of a line, which keeps its own line ends and tabs. */
export function shownLine(line) {
  return line.split(/([\n\t])/).map((part) => (part === '\n' || part === '\t' ? part : shown(part))).join('');
}

/** Bytes of a text so shown; bytes that are no UTF-8 as the listing has them, `\` and two hex digits. */
export function shownBytes(bytes) {
  try {
    return shown(new TextDecoder('utf-8', { fatal: true, ignoreBOM: true }).decode(bytes));
  } catch {
    const plain = (byte) => byte > 32 && byte < 127 && byte !== 92;
    const hex = (byte) => `\\${byte.toString(16).padStart(2, '0')}`;
    return Array.from(bytes, (byte) => (plain(byte) ? String.fromCharCode(byte) : hex(byte))).join('');
  }
}

/** After a name of a script that runs from right to left: what follows, a range or a number, is not turned round with it. */
const LEFT_TO_RIGHT = '\u200e';
const FROM_THE_RIGHT = /[\p{Script=Hebrew}\p{Script=Arabic}\p{Script=Syriac}\p{Script=Thaana}\p{Script=Nko}]/u;

/** A name before a range or a number. */
function shownName(bytes) {
  const text = shownBytes(bytes);
  return FROM_THE_RIGHT.test(text) ? text + LEFT_TO_RIGHT : text;
}

/** A text so made, in the parts that are to be kept apart; for who copies it, without the mark. */
export function apart(text) {
  return text.split(LEFT_TO_RIGHT);
}

/** A bound: its text and its number. */
export function shownBound({ text, x }) {
  if (text.length === 0) return String(x);
  if (x === 0n) return shownName(text);
  return shownName(text) + (x < 0n ? '' : '+') + x;
}

/** A range as it could be written; nothing for the whole of a variable. */
function shownRange({ start, end }) {
  if (end === null && start.text.length === 0 && start.x === 0n) return '';
  return `[${shownSpan(start, end)}]`;
}

/** A range without its bracket; a start of 0 and an end that is none are left out. */
function shownSpan(start, end) {
  const first = start.text.length === 0 && start.x === 0n ? '' : shownBound(start);
  return `${first}..${end ? shownBound(end) : ''}`;
}

/** A component by what it is: a literal's bits and its range where that is not all of it, a variable's text and range, a filler's. */
export function shownComponent(component) {
  const { kind, start, end, literal, literalWidth, text } = component;
  if (kind === 'filler') return shownSpan(start, end);
  if (kind === 'variable') return shownName(text) + shownRange(component);
  const whole = start.text.length === 0 && start.x === 0n && end?.text.length === 0 && end.x === BigInt(literalWidth);
  return '0x' + hexOf(literal).slice(-Math.ceil(literalWidth / 4)) + (whole ? '' : shownRange(component));
}

/** A long text with its middle left out. */
export function shortened(text, most) {
  const characters = [...text];
  if (characters.length <= most) return text;
  const tail = Math.floor((most - 1) / 3);
  return characters.slice(0, most - 1 - tail).join('') + '…' + characters.slice(characters.length - tail).join('');
}

/** A concatenation by its number. */
export function shownConcatenation(i) {
  return `concatenation ${i} (${i === 0 ? 'the source' : 'copied to'})`;
}

/** A number of things. */
export function counted(n, one, many = one + 's') {
  return `${n} ${String(n) === '1' ? one : many}`;
}
