// Where each field of an answer lies: the places that the picture and the table of fields show.
import { widthOf } from './answer.mjs';
import { shownComponent } from './text.mjs';

/**
 * For each concatenation { fields, width }, the fields least significant first, each { kind, label, width, from, to, left }. width,
 * from and to are null where they are not known; left says that the width is what an unbounded filler has left of the common width.
 */
export function rulers(answer) {
  return answer.concatenations.map((concatenation) => ruler(concatenation, answer.width));
}

function ruler(concatenation, commonWidth) {
  const fields = concatenation.components.map((component) => ({
    kind: component.kind,
    label: shownComponent(component),
    width: widthOf(component),
    left: false,
    unbounded: component.kind === 'filler' && component.end === null,
  }));
  fillIn(fields, commonWidth);
  let from = 0n;
  for (const field of fields) {
    field.from = from;
    from = from === null || field.width === null ? null : from + field.width;
    field.to = field.width === null || from === null ? null : from - 1n;
  }
  return { fields, width: from };
}

/** Gives the one unbounded filler what the others leave of the common width, where all others are known. */
function fillIn(fields, commonWidth) {
  const unknown = fields.filter((field) => field.width === null);
  if (commonWidth === 0n || unknown.length !== 1 || !unknown[0].unbounded) return;
  const rest = commonWidth - fields.reduce((sum, field) => sum + (field.width ?? 0n), 0n);
  if (rest < 0n) return;
  unknown[0].width = rest;
  unknown[0].left = true;
}

/** A field's bits in words: from, to and width. */
export function spanWords({ from, to, width, left }) {
  const size = width === null ? 'width not known' : `${width} wide` + (left ? ', what is left' : '');
  if (from === null) return `place not known, ${size}`;
  if (width === null) return `from bit ${from}, ${size}`;
  if (width === 0n) return 'no bits, nothing is left';
  return from === to ? `bit ${from}, ${size}` : `bits ${from} to ${to}, ${size}`;
}

/** A row of the table: kind, field, from, to, width; the highest field is the first row. */
export function rulerRows({ fields }) {
  const cell = (number) => (number === null ? 'not known' : String(number));
  return fields.toReversed().map(({ kind, label, from, to, width, left }) => {
    if (width === 0n) return [kind, label, 'none', 'none', '0 (nothing is left)'];
    return [kind, label, cell(from), cell(to), cell(width) + (left ? ' (what is left)' : '')];
  });
}
