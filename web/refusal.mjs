// What a refusal says in words, and which parts of the line it names.
import { DEEPEST, LIMITS, countsOf } from './image.mjs';
import { shownConcatenation } from './text.mjs';

/** What the two places of each number name (document 01, "How each operation refuses"). */
const NAMES_COMPONENT = new Set([10, 11, 12, 13, 14, 15, 16, 17, 20, 21, 22, 23, 24, 25, 26, 27, 28, 30, 31, 32, 40, 44]);
const NAMES_CONCATENATION = new Set([33, 34, 43]);
const NAMES_TWO = new Set([41, 45]);

/** The parts of the line that a refusal names, each { at, to, words }. */
export function placesOf({ number, concatenation, component }, concatenations) {
  if (NAMES_COMPONENT.has(number)) return [componentPlace(concatenations, concatenation, component)];
  if (NAMES_CONCATENATION.has(number)) return [concatenationPlace(concatenations, concatenation)];
  if (NAMES_TWO.has(number)) return [concatenation, component].map((i) => concatenationPlace(concatenations, i));
  if (number === 7) return tooDeep(concatenations);
  return [];
}

function concatenationPlace(concatenations, i) {
  const { at, to } = concatenations[i];
  return { at, to, words: shownConcatenation(i) };
}

/** A component, counted from the right end of its concatenation. */
function componentPlace(concatenations, i, k) {
  const { components } = concatenations[i];
  const { at, to } = components[k];
  const written = components.length - k;
  const words = `component ${written} of ${components.length} as written, in ${shownConcatenation(i)}`;
  return { at, to, words: `${words}; counted from the right, from 0: ${k}` };
}

/** The first component with a group too deep. */
function tooDeep(concatenations) {
  for (const [i, { components }] of concatenations.entries()) {
    const k = components.findIndex(({ records }) => depthOf(records) > DEEPEST);
    if (k >= 0) return [componentPlace(concatenations, i, k)];
  }
  return [];
}

function depthOf(records) {
  let depth = 0;
  let deepest = 0;
  for (const { kind } of records) {
    if (kind === 5) depth--;
    else if (kind !== 0) deepest = Math.max(deepest, ++depth);
  }
  return deepest;
}

/** What can be said beyond the number's words: for a count above its limit, which. */
export function moreWords({ number }, concatenations) {
  if (number !== 3) return [];
  const counts = countsOf(concatenations);
  return LIMITS.map(({ name, most }, i) => ({ name, most, count: counts[i] }))
    .filter(({ most, count }) => count > most)
    .map(({ name, most, count }) => `${count} ${name}, and at most ${most} are read`);
}
