// node make-page.mjs LAYOUT.wasm INDEX.html: puts the page together, in one file: page.html with the style, the modules of this
// folder one after the other, the words of the refusals, the two first lines and the library.
import { createHash } from 'node:crypto';
import fs from 'node:fs';

const [wasmFile, pageFile] = process.argv.slice(2);
const here = new URL('./', import.meta.url);
const root = new URL('../', here);
const read = (name) => fs.readFileSync(new URL(name, here), 'utf8');

/** Leaves first: each module uses only those before it. */
const MODULES = [
  'tokens.mjs', 'literal.mjs', 'line.mjs', 'image.mjs', 'reader.mjs', 'answer.mjs', 'text.mjs', 'ruler.mjs', 'compare.mjs',
  'refusal.mjs', 'result.mjs', 'picture.mjs', 'elements.mjs', 'show.mjs', 'main.mjs',
];

/** The numbers and words of bindings/src/words.rs, the one place where they stand as data. */
function refusalWords() {
  const source = fs.readFileSync(new URL('bindings/src/words.rs', root), 'utf8');
  const pairs = [...source.matchAll(/^\s*\((\d+), "(.*)"\),$/gm)].map(([, number, words]) => [Number(number), JSON.parse(`"${words}"`)]);
  if (pairs.length !== 40) throw new Error(`bindings/src/words.rs has ${pairs.length} numbers, and documents 01 and 02 have 40`);
  return Object.fromEntries(pairs);
}

/** How many recorded answers of the Rust tests/targets replays. */
function recordedAnswers() {
  const entries = (name, lengths) => {
    const bytes = fs.readFileSync(new URL(`crates/run_replay/data/${name}`, root));
    let count = 0;
    for (let at = 0; at < bytes.length; count++) at += 12 + lengths.reduce((sum, i) => sum + bytes.readUInt32LE(at + 4 * i), 0);
    return count;
  };
  return entries('runs', [0, 2]) + entries('cuts', [0, 1, 2]);
}

/** The modules as one, without their imports and exports; no two may have a name of the top level in common. */
function script() {
  const modules = MODULES.map((name) => read(name).replace(/^import .*$\n/gm, '').replace(/^export /gm, ''));
  const declared = /^(?:const|let|class|function|async function) (\w+)/gm;
  const names = modules.flatMap((text) => [...text.matchAll(declared)].map((found) => found[1]));
  const twice = names.find((name, i) => names.indexOf(name) !== i);
  if (twice) throw new Error(`two modules of web/ have the name ${twice}`);
  const example = (name) => fs.readFileSync(new URL(`examples/${name}.txt`, root), 'utf8').trimEnd();
  const given = {
    words: refusalWords(),
    lines: [example('whole'), example('cut')],
    library: fs.readFileSync(wasmFile).toString('base64'),
  };
  return `const GIVEN = ${JSON.stringify(given)};\n${modules.join('\n')}`;
}

/** The page may load nothing, and runs no script but this one. */
function policy(code, style) {
  const hash = (text) => `'sha256-${createHash('sha256').update(text).digest('base64')}'`;
  return `default-src 'none'; script-src ${hash(code)} 'wasm-unsafe-eval'; style-src ${hash(style)}`;
}

const code = script();
const style = read('page.css');
if (/<\/script|<!--/i.test(code) || /<\/style/i.test(style)) throw new Error('the script or the style would end early');
const parts = { POLICY: policy(code, style), STYLE: style, SCRIPT: code, RECORDED: recordedAnswers().toLocaleString('en') };
const page = read('page.html').replace(/\{\{(\w+)\}\}/g, (_, name) => parts[name]);
fs.writeFileSync(pageFile, page);
console.log(`web/build: ${pageFile}, ${fs.statSync(pageFile).size} bytes; open it in a browser`);
