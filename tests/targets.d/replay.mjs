// node replay.mjs SIDE LIBRARY DATA: replays the recorded answers of DATA through the library built for another machine and compares.
// SIDE is wasm (LIBRARY a .wasm file), arm (LIBRARY a program for qemu-arm, arm_host.c with the library) or board (for qemu-system-arm,
// board_host.c with the library).
//
// For each run: the outcome, its listing as printed from the answer's bytes, the bytes around and after the answer, the image check's
// number, and the text of layout_listing. For each pair of a line and its cut: both texts.
import { readAnswer } from '../../web/answer.mjs';
import { outcomeOf } from '../../web/reader.mjs';
import { recorded } from './data.mjs';
import { listingOf } from './listing.mjs';
import { wasmSide } from './side_wasm.mjs';
import { armSide } from './side_arm.mjs';
import { boardSide } from './side_board.mjs';

const ANY_AREA = 26976;
const TOO_SHORT = 'refused 8 0 0\n';
const SIDES = {
  wasm: { name: 'wasm32', start: wasmSide },
  arm: { name: 'Cortex-M3', start: armSide },
  board: { name: 'Cortex-M3 board', start: boardSide },
};

/** What a case came to, against what is told: words for each difference. */
function differences({ input, listing, areaTooShort }, { outcome: bits, answer, check, kept, text }) {
  const image = input.subarray(1);
  const told = listing.toString('latin1');
  const outcome = outcomeOf(bits);
  const words = [];
  const { accepted, number, concatenation, component } = outcome;
  const accept = () => listingOf(readAnswer(Uint8Array.from(answer), Uint8Array.from(image)));
  const refused = `refused ${number} ${concatenation} ${component}\n`;
  const got = !accepted ? refused : kept ? accept() : 'an answer that is not read';
  if (got !== told) words.push(`layout_run: ${JSON.stringify(got)}`);
  if (!kept) words.push('layout_run wrote where it must not');
  const checked = number >= 2 && number <= 7 ? number : 0;
  // with a mode above 2 the run does not come to the check
  if (number !== 1 && check !== checked) words.push(`layout_check: ${check}`);
  const listed = text.toString('latin1');
  if (areaTooShort ? !/^(layout|refused) /.test(listed) || listed === TOO_SHORT : listed !== told) {
    words.push(`layout_listing: ${JSON.stringify(listed)}`);
  }
  return words.length === 0 ? [] : [`told ${JSON.stringify(told)}, ${words.join(', ')}`];
}

function casesOf({ runs, pairs }) {
  const ofRuns = runs.map(({ input, areaLength, listing }, i) => ({
    name: `run ${i}`, input, areaLength, listing, areaTooShort: listing.toString('latin1') === TOO_SHORT,
  }));
  const ofPairs = pairs.flatMap(({ inputs, listing }, i) => inputs.map((input, k) => ({
    name: `cut pair ${i}, line ${k + 1}`, pair: i, input, areaLength: ANY_AREA, listing, areaTooShort: false,
  })));
  return [...ofRuns, ...ofPairs];
}

const [sideName, library, folder] = process.argv.slice(2);
const side = SIDES[sideName];
const data = recorded(folder);
const cases = casesOf(data);
const answers = await side.start(library, cases);
const wrong = new Set();
cases.forEach((each, i) => {
  for (const words of differences(each, answers[i])) {
    const entry = each.pair === undefined ? each.name : `cut pair ${each.pair}`;
    if (wrong.size < 5) console.log(`${side.name}: ${each.name}: ${words.slice(0, 400)}`);
    wrong.add(entry);
  }
});
const [runs, pairs] = [data.runs.length, data.pairs.length];
console.log(`${side.name}: ${runs} runs, ${pairs} cut pairs: ${runs + pairs - wrong.size} equal, ${wrong.size} different`);
if (runs < 2600 || pairs < 400) console.log(`${side.name}: at least 2600 runs and 400 pairs are asked for`);
process.exitCode = wrong.size > 0 || runs < 2600 || pairs < 400 ? 1 : 0;
