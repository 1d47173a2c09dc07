// Whether two answers are the same in every field, and the first difference in words.
import { ALIGNMENTS, hexOf, sameBytes } from './answer.mjs';
import { shownBound, shownBytes, shownConcatenation } from './text.mjs';

/** null where the answers are the same in every field, else { where, what, one, two }. */
export function firstDifference(a, b) {
  const count = Math.min(a.concatenations.length, b.concatenations.length);
  const parts = [() => differenceIn(WHOLE_LINE, [STARTING_VALUE], a, b)];
  for (let i = 0; i < count; i++) parts.push(() => concatenationDifference(a.concatenations[i], b.concatenations[i], i));
  parts.push(() => differenceIn(WHOLE_LINE, WHOLE_FIELDS, a, b));
  for (const part of parts) {
    const difference = part();
    if (difference) return difference;
  }
  return null;
}

/** A field of which two answers may differ: its name, its value in words, and whether two values are the same. */
const plain = (what, of) => ({ what, of: (x) => String(of(x)), same: (x, y) => of(x) === of(y) });
const bytes = (what, of, words) => ({
  what,
  of: (x) => (of(x) === null ? 'none' : words(of(x))),
  same: (x, y) => (of(x) === null || of(y) === null ? of(x) === of(y) : sameBytes(of(x), of(y))),
});
const bound = (what, of) => ({
  what,
  of: (x) => (of(x) === null ? 'none' : shownBound(of(x))),
  same: (x, y) => {
    if (of(x) === null || of(y) === null) return of(x) === of(y);
    return of(x).x === of(y).x && sameBytes(of(x).text, of(y).text);
  },
});

const WHOLE_LINE = 'the whole line';
const yesNo = (flag) => (flag ? 'yes' : 'no');
const orNone = (width) => (width === 0n ? 'none' : String(width));
const STARTING_VALUE = bytes('the starting value', (x) => x.startingValue, shownBytes);
const WHOLE_FIELDS = [
  plain('the number of concatenations', (x) => x.concatenations.length),
  plain('the number of components', (x) => x.components),
  plain('the common width', (x) => orNone(x.width)),
  plain('the alignment', (x) => ALIGNMENTS[x.alignment]),
  plain('whether the width is deterministic', (x) => yesNo(x.deterministic)),
  plain('whether the width is nonzero', (x) => yesNo(x.nonzero)),
];
const CONCATENATION_FIELDS = [
  plain('the number of components', (x) => x.components.length),
  plain('the width', (x) => orNone(x.width)),
  plain('the alignment', (x) => ALIGNMENTS[x.alignment]),
  plain('whether the width is deterministic', (x) => yesNo(x.deterministic)),
  plain('whether the width is nonzero', (x) => yesNo(x.nonzero)),
];
const COMPONENT_FIELDS = [
  plain('the kind', (x) => x.kind),
  bytes('the text', (x) => x.text, shownBytes),
  plain("the literal's width", (x) => x.literalWidth),
  bytes("the literal's bits", (x) => x.literal, (literal) => '0x' + hexOf(literal)),
  bound('the start', (x) => x.start),
  bound('the end', (x) => x.end),
  plain("the literal's place in the answer", (x) => x.offset),
];

function differenceIn(where, fields, x, y) {
  const field = fields.find((candidate) => !candidate.same(x, y));
  return field ? { where, what: field.what, one: field.of(x), two: field.of(y) } : null;
}

function concatenationDifference(a, b, i) {
  const count = Math.min(a.components.length, b.components.length);
  for (let k = 0; k < count; k++) {
    // by its place from the right, for literals are merged and the line's own components can be more
    const where = `${shownConcatenation(i)}, field ${k + 1} from the right`;
    const difference = differenceIn(where, COMPONENT_FIELDS, a.components[k], b.components[k]);
    if (difference) return difference;
  }
  return differenceIn(shownConcatenation(i), CONCATENATION_FIELDS, a, b);
}
