// node page.mjs CHROMIUM INDEX.html FOLDER: opens the page in headless Chromium, types lines, and checks what it shows. Screenshots and
// a print go to FOLDER, for who wants to look.
import fs from 'node:fs';
import path from 'node:path';
import { pathToFileURL } from 'node:url';
import { Browser } from './browser.mjs';
import { CHECKS } from './page_checks.mjs';
import { LOOKS, crowding } from './page_looks.mjs';

const [chromium, file, folder] = process.argv.slice(2);
const browser = new Browser(chromium);
let passed = 0;
let failed = 0;

function expect(name, got, wanted) {
  if (JSON.stringify(got) === JSON.stringify(wanted)) {
    passed++;
    return;
  }
  failed++;
  console.log(`page: ${name}: FAILED: ${JSON.stringify(got)?.slice(0, 500)}, not ${JSON.stringify(wanted)?.slice(0, 500)}`);
}

/** What the page shows now, in the words that checks ask for. */
const page = {
  type: (id, text) => browser.type(id, text),
  key: (key) => browser.key(key),
  value: (expression) => browser.value(expression),
  text: (id) => browser.value(`document.getElementById('${id}').textContent`),
  verdict: () => page.text('verdict'),
  listing: (line) => page.text(`${line}-listing`),
  marks: (line) => browser.value(`[...document.querySelectorAll('#${line}-message mark')].map((mark) => mark.textContent)`),
  table: (line, i) => {
    const rows = `[...document.querySelectorAll('#${line}-picture table')[${i}].tBodies[0].rows]`;
    return browser.value(`${rows}.map((row) => [...row.cells].map((cell) => cell.textContent))`);
  },
  classes: (line) => browser.value(`[...document.querySelectorAll('#${line}-picture g')].map((box) => box.getAttribute('class'))`),
  heads: (line) => browser.value(`[...document.querySelectorAll('#${line}-picture h3')].map((head) => head.textContent)`),
  media: (media) => browser.send('Emulation.setEmulatedMedia', { media }),
};

async function checkAll() {
  await browser.open(pathToFileURL(path.resolve(file)).href);
  await browser.resize(1280, 900);
  await browser.until("document.getElementById('verdict').textContent !== ''");
  for (const [name, check] of Object.entries(CHECKS)) await check(page, (what, got, wanted) => expect(`${name}, ${what}`, got, wanted));
  fs.mkdirSync(folder, { recursive: true });
  for (const [name, [one, two]] of Object.entries(LOOKS)) {
    for (const width of [1280, 400]) {
      await browser.resize(width, 900);
      await browser.type('one', one);
      await browser.type('two', two);
      await browser.resize(width, 900);
      expect(`${name} at ${width}, what is crowded`, await browser.value(`(${crowding})()`), []);
      await browser.screenshot(path.join(folder, `${name}-${width}.png`));
    }
    await browser.print(path.join(folder, `${name}.pdf`));
  }
  expect('what it loads', browser.requests, [pathToFileURL(path.resolve(file)).href]);
  expect('what it says in the console', browser.messages, []);
}

try {
  await checkAll();
} catch (error) {
  failed++;
  console.log(`page: FAILED: ${error.stack}`);
}
await browser.close();
console.log(`page: ${passed} checks passed, ${failed} failed`);
process.exitCode = failed > 0 ? 1 : 0;
