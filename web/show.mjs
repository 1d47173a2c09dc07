// What the page shows of one line, as elements.
import { ALIGNMENTS } from './answer.mjs';
import { html, svg } from './elements.mjs';
import { pictureOf } from './picture.mjs';
import { rulerRows, spanWords } from './ruler.mjs';
import { apart, counted, shortened, shownBytes, shownConcatenation, shownLine } from './text.mjs';

/** Heights of the drawing: a box, the numbers under it, and what stands free below them. */
const BOX = 46;
const NUMBERS = 16;
const ROW = BOX + NUMBERS + 8;

const upper = (text) => text[0].toUpperCase() + text.slice(1);

/** The line with the named parts marked. */
export function markedLine(line, places) {
  const made = html('pre', { class: 'line' });
  let at = 0;
  for (const place of places.toSorted((a, b) => a.at - b.at)) {
    made.append(shownLine(line.slice(at, place.at)), html('mark', {}, shownLine(line.slice(place.at, place.to))));
    at = place.to;
  }
  made.append(shownLine(line.slice(at)));
  return made;
}

/** A refusal, or what is wrong with the line itself. */
export function refusalPart(line, result) {
  const head = result.state === 'unread' ? 'This line cannot be read' : `Refused, number ${result.number}`;
  const part = html('div', { class: 'refusal' }, html('p', {}, html('strong', {}, `${head}: `), `${result.words}.`));
  for (const more of result.more ?? []) part.append(html('p', {}, `${upper(more)}.`));
  if (result.places.length > 0) {
    const words = result.places.map((place) => place.words).filter((each) => each);
    part.append(html('p', {}, words.length > 0 ? `Marked: ${words.join('; ')}.` : 'Marked in the line:'));
    part.append(markedLine(line, result.places));
  }
  return part;
}

/** What holds of the whole line, in a sentence or two. */
export function summaryPart({ answer }) {
  const width = answer.width === 0n ? 'No common width is fixed.' : `The common width is ${counted(answer.width, 'bit')}.`;
  const count = counted(answer.concatenations.length, 'concatenation');
  const components = counted(answer.components, 'component');
  const alignment = `Alignment: ${ALIGNMENTS[answer.alignment]}.`;
  const start = answer.startingValue === null ? '' : ` Starting value: ${shownBytes(answer.startingValue)}.`;
  return html('p', {}, `${count}, ${components} once neighbouring literals are merged. ${width} ${alignment}${start}`);
}

/** A concatenation: its picture, and the same as a table. */
export function concatenationPart(ruler, i, width) {
  const picture = pictureOf(ruler, width);
  const size = ruler.width === null ? 'width not fixed' : counted(ruler.width, 'bit');
  const head = html('h3', {}, upper(shownConcatenation(i)), html('span', {}, `, ${size}${picture.toScale ? '' : '; not to scale'}`));
  return html('section', {}, head, drawing(picture, ruler, i, width), table(ruler, i));
}

/** The picture's words for who cannot see it. */
function alternative(ruler, i) {
  const fields = ruler.fields.toReversed();
  const begun = `Picture of ${shownConcatenation(i)}, highest field first: `;
  if (fields.length > 8) return `${begun}${fields.length} fields, which the table after it lists.`;
  return begun + fields.map((field) => `${field.kind} ${shortened(field.label, 40)}, ${spanWords(field)}`).join('; ') + '.';
}

function drawing({ rows }, ruler, i, width) {
  const height = ROW * rows.length;
  const size = { viewBox: `-1 -1 ${width + 2} ${height}`, width: width + 2, height };
  const made = svg('svg', { ...size, class: 'picture', role: 'img', 'aria-label': alternative(ruler, i) });
  rows.forEach((boxes, row) => boxes.forEach((box) => made.append(drawnBox(box, ROW * row))));
  return made;
}

function drawnBox(box, y) {
  const { field, x, wide } = box;
  const place = { x, y, width: wide, height: BOX };
  const group = svg('g', { class: `${field.kind}${box.dashed ? ' dashed' : ''}` });
  group.append(svg('title', {}, `${field.kind} ${field.label}: ${spanWords(field)}`));
  group.append(...['ground', 'pattern', 'edge'].map((part) => svg('rect', { ...place, class: part })));
  // an inner drawing cuts off what does not fit its box
  const inner = svg('svg', { ...place, height: BOX + NUMBERS });
  // plates in the box's own colour, so that no dot of the pattern stands between the letters
  inner.append(svg('rect', { x: 3, y: 5, width: box.sizeWide + 4, height: 13, class: 'plate' }));
  inner.append(svg('rect', { x: (wide - box.labelWide) / 2 - 2, y: 23, width: box.labelWide + 4, height: 16, class: 'plate' }));
  inner.append(svg('text', { x: 5, y: 15, class: 'small inside' }, box.size));
  inner.append(svg('text', { x: wide / 2, y: 35, class: 'label inside' }, box.label));
  if (box.high) inner.append(svg('text', { x: 2, y: BOX + 13, class: 'small' }, box.high));
  if (box.low) inner.append(svg('text', { x: wide - 2, y: BOX + 13, class: 'small low' }, box.low));
  group.append(inner);
  return group;
}

function table(ruler, i) {
  const heads = ['kind', 'field', 'from', 'to', 'width'].map((name, k) => html('th', { scope: 'col', class: k > 1 ? 'number' : '' }, name));
  const rows = rulerRows(ruler).map(([kind, label, ...numbers]) => {
    const cells = numbers.map((number) => html('td', { class: /[0-9]{9}/.test(number) ? 'number long' : 'number' }, number));
    return html('tr', {}, html('td', {}, kind), html('th', { scope: 'row' }, ...apart(label).map((part) => html('bdi', {}, part))), ...cells);
  });
  const caption = html('caption', {}, `Bits of ${shownConcatenation(i)}, the highest field first`);
  return html('table', {}, caption, html('thead', {}, html('tr', {}, ...heads)), html('tbody', {}, ...rows));
}
