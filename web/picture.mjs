// Where the boxes of a picture stand: one box for each field, the lowest at the right, in as many rows as it takes. Widths and places
// are in pixels of the drawing; show.mjs draws them.
import { shortened } from './text.mjs';

/** How wide a character of the label and of the small text is, and what stands free beside them. */
const LABEL_CHARACTER = 7.9;
const SMALL_CHARACTER = 6.7;
const BESIDE = 12;
const LEAST = 30;
const LONGEST_LABEL = 22;

const WIDE = /[\p{Script=Han}\p{Script=Hiragana}\p{Script=Katakana}\p{Script=Hangul}\p{Emoji_Presentation}]/u;

/** How many characters' width a text takes in a font of one width. */
function cells(text) {
  let sum = 0;
  for (const c of text) sum += /[\p{M}\p{Cf}]/u.test(c) ? 0 : WIDE.test(c) ? 2 : 1;
  return sum;
}

/** Two dots alone would not be seen in a dotted box. */
function labelOf({ kind, label }) {
  if (kind !== 'filler') return label;
  return label === '..' ? 'filler' : `filler ${label}`;
}

/** A field's box: what is written in it and under its edges, and the least width in which that can be read. */
function boxOf(field) {
  const known = field.width !== null;
  const bits = known && field.width > 0n && field.from !== null;
  const box = {
    field,
    label: shortened(labelOf(field), LONGEST_LABEL),
    size: `${field.kind[0].toUpperCase()} ${known ? field.width : '?'}`,
    low: bits || (field.from !== null && !known) ? String(field.from) : '',
    high: bits && field.to !== field.from ? String(field.to) : '',
    dashed: !known || field.left,
  };
  box.labelWide = LABEL_CHARACTER * cells(box.label);
  box.sizeWide = SMALL_CHARACTER * box.size.length;
  const edges = SMALL_CHARACTER * (box.low.length + box.high.length + (box.high ? 1 : 0));
  box.least = Math.max(LEAST, box.labelWide, box.sizeWide, edges) + BESIDE;
  return box;
}

/**
 * The rows of a ruler's picture, the highest first, each a list of boxes, the highest first, with x and wide; and whether every box is as
 * wide as its bits ask for.
 */
export function pictureOf({ fields }, width) {
  const boxes = fields.map(boxOf).reverse();
  for (const box of boxes) box.least = Math.min(box.least, width);
  const asked = boxes.reduce((sum, box) => sum + box.least, 0);
  const known = boxes.every(({ field }) => field.width !== null);
  if (asked > width) return { rows: inRows(boxes, width), toScale: false };
  const toScale = known ? inProportion(boxes, width) : evenly(boxes, width);
  placeFromRight(boxes, width);
  return { rows: [boxes], toScale };
}

/** Gives each box its share by bits, but no less than its least; answers whether no box needed more than its share. */
function inProportion(boxes, width) {
  const raised = new Set();
  for (;;) {
    const free = boxes.filter((box) => !raised.has(box));
    const rest = width - [...raised].reduce((sum, box) => sum + box.least, 0);
    const bits = free.reduce((sum, { field }) => sum + Number(field.width), 0);
    for (const box of free) box.wide = bits === 0 ? box.least : (rest * Number(box.field.width)) / bits;
    const narrow = free.filter((box) => box.wide < box.least);
    if (narrow.length === 0) break;
    for (const box of narrow) {
      box.wide = box.least;
      raised.add(box);
    }
  }
  return raised.size === 0;
}

/** Gives each box its least and an equal part of what is over. */
function evenly(boxes, width) {
  const over = (width - boxes.reduce((sum, box) => sum + box.least, 0)) / boxes.length;
  for (const box of boxes) box.wide = box.least + over;
  return false;
}

/** Fills rows from the lowest box up, so that only the highest row is short. */
function inRows(boxes, width) {
  const rows = [];
  let row = [];
  let asked = 0;
  for (const box of boxes.toReversed()) {
    if (asked + box.least > width) {
      rows.unshift(row);
      row = [];
      asked = 0;
    }
    row.unshift(box);
    asked += box.least;
  }
  rows.unshift(row);
  rows.forEach((each, i) => {
    if (i > 0) evenly(each, width);
    else for (const box of each) box.wide = box.least;
    placeFromRight(each, width);
  });
  return rows;
}

function placeFromRight(boxes, width) {
  let right = width;
  for (const box of boxes.toReversed()) {
    right -= box.wide;
    box.x = right;
  }
}
