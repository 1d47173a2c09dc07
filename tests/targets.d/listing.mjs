// Document 01's listing of an answer that web/answer.mjs has read: what the page's reader found, in a form that can be compared.
import { ALIGNMENTS, hexOf } from '../../web/answer.mjs';

/** Text bytes outside 33 to 126 and `\` as `\` and two hex digits. */
function escaped(bytes) {
  const plain = (byte) => byte >= 33 && byte <= 126 && byte !== 92;
  return Array.from(bytes, (byte) => (plain(byte) ? String.fromCharCode(byte) : `\\${byte.toString(16).padStart(2, '0')}`)).join('');
}

const bound = (side) => (side === null ? '-' : `${escaped(side.text)}${side.x < 0n ? '' : '+'}${side.x}`);
const width = (bits) => (bits === 0n ? '-' : String(bits));
const flag = (holds, letter) => (holds ? letter : '-');

function componentLine({ kind, start, end, literal, text }) {
  const words = [kind, bound(start), bound(end)];
  if (kind === 'literal') words.push(hexOf(literal));
  if (kind === 'variable') words.push(escaped(text));
  return words.join(' ');
}

export function listingOf(answer) {
  const flags = (part) => [ALIGNMENTS[part.alignment], flag(part.deterministic, 'D'), flag(part.nonzero, 'Z')];
  const start = answer.startingValue === null ? '-' : `=${escaped(answer.startingValue)}`;
  const lines = [['layout', answer.concatenations.length, answer.components, width(answer.width), ...flags(answer), start].join(' ')];
  answer.concatenations.forEach((each, i) => {
    lines.push(['c', i, each.components.length, width(each.width), ...flags(each)].join(' '));
    lines.push(...each.components.map(componentLine));
  });
  return lines.map((line) => line + '\n').join('');
}
