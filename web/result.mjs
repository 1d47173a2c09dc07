// From a line's text to what the page shows of it.
import { LineError } from './tokens.mjs';
import { readLine } from './line.mjs';
import { imageOf } from './image.mjs';
import { runImage } from './reader.mjs';
import { readAnswer } from './answer.mjs';
import { rulers } from './ruler.mjs';
import { firstDifference } from './compare.mjs';
import { moreWords, placesOf } from './refusal.mjs';
import { shortened } from './text.mjs';

/**
 * What becomes of a line: { state: 'unread', words, places } where it cannot be encoded; { state: 'refused', number, words, more,
 * places, listing } where the run refuses it; { state: 'accepted', answer, rulers, listing }.
 */
export function resultOf(library, mode, line, wordsOf) {
  let concatenations;
  try {
    concatenations = readLine(line);
  } catch (error) {
    if (!(error instanceof LineError)) throw error;
    return { state: 'unread', words: error.message, places: error.places };
  }
  const image = imageOf(concatenations);
  const outcome = runImage(library, mode, image);
  if (outcome.accepted) {
    const answer = readAnswer(outcome.answer, image);
    return { state: 'accepted', answer, rulers: rulers(answer), listing: outcome.listing };
  }
  const { number, listing } = outcome;
  const words = wordsOf[number] ?? 'an unknown number';
  const more = [...moreWords(outcome, concatenations), ...widthWords(library, outcome, concatenations)];
  return { state: 'refused', number, words, more, places: placesOf(outcome, concatenations), listing };
}

/** For two concatenations of different widths, how wide they are: each is run alone. */
function widthWords(library, { number, concatenation, component }, concatenations) {
  if (number !== 41) return [];
  const [one, two] = [concatenation, component].map((i) => {
    const image = imageOf([concatenations[i]]);
    const alone = runImage(library, 0, image);
    return alone.accepted ? readAnswer(alone.answer, image).width : null;
  });
  return one === null || two === null ? [] : [`their widths in bits are ${one} and ${two}`];
}

/** Why a line has no answer, in a few words; nothing where it has one. */
function whyNot(which, { state, number, words }) {
  if (state === 'unread') return `The ${which} line cannot be read: ${words}.`;
  if (state === 'refused') return `The ${which} line is refused, ${number}: ${words}.`;
  return '';
}

/** Whether two lines say the same card, in words, and a class for it: same, other or unknown. */
export function verdictOf(one, two) {
  const reasons = [whyNot('first', one), whyNot('second', two)].filter((reason) => reason !== '');
  if (reasons.length > 0) return { kind: 'unknown', words: `The same card: no answer. ${reasons.join(' ')}` };
  const difference = firstDifference(one.answer, two.answer);
  if (difference === null) return { kind: 'same', words: 'The same card: yes.' };
  const { where, what, one: first, two: second } = difference;
  const values = `${shortened(first, 60)} in the first line, ${shortened(second, 60)} in the second`;
  return { kind: 'other', words: `The same card: no. First difference, in ${where}: ${what}, ${values}.` };
}
