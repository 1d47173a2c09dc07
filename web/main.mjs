// The page: two lines typed, everything shown anew with each change. GIVEN is what make-page.mjs puts before this: the words of the
// refusals, the first lines, the library.
import { instance } from './reader.mjs';
import { resultOf, verdictOf } from './result.mjs';
import { concatenationPart, refusalPart, summaryPart } from './show.mjs';
import { html } from './elements.mjs';
import { shownLine } from './text.mjs';

/** The width of pictures on paper. */
const PAPER = 680;

const byId = (id) => document.getElementById(id);
const mode = byId('mode');
const lines = ['one', 'two'].map((name) => ({
  field: byId(name),
  message: byId(`${name}-message`),
  picture: byId(`${name}-picture`),
  listing: byId(`${name}-listing`),
  print: byId(`${name}-print`),
  result: null,
}));

const library = await instance(Uint8Array.from(atob(GIVEN.library), (c) => c.charCodeAt(0)));

/** A fault of the page itself is said, so that nothing of an earlier line stays in view as if it were this one's. */
function resultOrFailure(text) {
  try {
    return resultOf(library, Number(mode.value), text, GIVEN.words);
  } catch (error) {
    return { state: 'unread', words: `this page failed (${error})`, places: [] };
  }
}

/** What a line comes to, in its own column. */
function showLine(line) {
  const text = line.field.value;
  line.result = resultOrFailure(text);
  const accepted = line.result.state === 'accepted';
  line.field.setAttribute('aria-invalid', String(!accepted));
  line.print.textContent = shownLine(text);
  line.message.replaceChildren(accepted ? summaryPart(line.result) : refusalPart(text, line.result));
  line.listing.textContent = line.result.listing ?? '';
  line.listing.parentElement.hidden = line.result.state === 'unread';
  drawLine(line);
}

/** The pictures, as wide as asked for or as the column is. */
function drawLine(line, width = Math.floor(line.picture.clientWidth) - 2) {
  line.width = Math.max(240, width);
  const rulers = line.result.state === 'accepted' ? line.result.rulers : [];
  line.picture.replaceChildren(...rulers.map((ruler, i) => concatenationPart(ruler, i, line.width)));
}

function showVerdict() {
  const { kind, words } = verdictOf(lines[0].result, lines[1].result);
  const verdict = byId('verdict');
  verdict.className = kind;
  // a reader aloud is told only of what is new
  if (verdict.textContent !== words) verdict.replaceChildren(html('bdi', {}, words));
}

function showAll() {
  lines.forEach(showLine);
  showVerdict();
}

lines.forEach((line, i) => {
  line.field.value = GIVEN.lines[i];
  line.field.addEventListener('input', () => {
    showLine(line);
    showVerdict();
  });
});
mode.addEventListener('change', showAll);
showAll();
byId('working').hidden = true;
window.addEventListener('beforeprint', () => lines.forEach((line) => drawLine(line, PAPER)));
window.addEventListener('afterprint', () => lines.forEach((line) => drawLine(line)));
new ResizeObserver(() => {
  for (const line of lines) if (Math.abs(line.picture.clientWidth - 2 - line.width) > 1) drawLine(line);
}).observe(byId('lines'));
