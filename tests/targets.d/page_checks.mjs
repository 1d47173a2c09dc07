// What page.mjs checks. Each listing and number is worked out from document 01 (README.md has the first listing; the places of 25, 41,
// 42, 43 and 3 are those of "How each operation refuses").

const WHOLE = '0x1234u16, amount[..24]; card[..40]';
const LISTING = `layout 2 3 40 none D Z -
c 0 2 40 none D Z
variable +0 +24 amount
literal +0 +16 1234
c 1 1 40 none D Z
variable +0 +40 card
`;

/** An expression for the page: how far from the left the first such part of an element's text stands, or null. */
const leftOf = (selector, part) => `(() => {
  const texts = document.createTreeWalker(document.querySelector(${JSON.stringify(selector)}), NodeFilter.SHOW_TEXT);
  while (texts.nextNode()) {
    const at = texts.currentNode.data.indexOf(${JSON.stringify(part)});
    if (at < 0) continue;
    const range = document.createRange();
    range.setStart(texts.currentNode, at);
    range.setEnd(texts.currentNode, at + 1);
    return range.getBoundingClientRect().left;
  }
  return null;
})()`;

export const CHECKS = {
  async 'the first lines'(page, expect) {
    expect('verdict', await page.verdict(), 'The same card: yes.');
    expect('first listing', await page.listing('one'), LISTING);
    expect('second listing', await page.listing('two'), LISTING);
    expect('boxes', await page.classes('one'), ['literal', 'variable', 'variable']);
    expect('heads', await page.heads('one'), ['Concatenation 0 (the source), 40 bits', 'Concatenation 1 (copied to), 40 bits']);
    expect('source', await page.table('one', 0), [['literal', '0x1234', '24', '39', '16'], ['variable', 'amount[..24]', '0', '23', '24']]);
    expect('copied to', await page.table('one', 1), [['variable', 'card[..40]', '0', '39', '40']]);
    const wide = await page.value("[...document.querySelectorAll('#one-picture .edge')].map((edge) => edge.width.baseVal.value)");
    expect('16 bits and 24 bits to scale', Math.round((100 * wide[0]) / wide[1]), 67);
  },

  async 'a difference'(page, expect) {
    await page.type('two', '0x1235u16, amount[..24]; card[..40]');
    const where = 'First difference, in concatenation 0 (the source), field 2 from the right: ';
    expect('bits', await page.verdict(), `The same card: no. ${where}the literal's bits, 0x1234 in the first line, 0x1235 in the second.`);
    await page.type('two', '0x1234u16, amount[1..25]; card[..40]');
    const first = 'First difference, in concatenation 0 (the source), field 1 from the right: ';
    expect('start', await page.verdict(), `The same card: no. ${first}the start, 0 in the first line, 1 in the second.`);
    await page.type('two', '0x1234u16, amount[..24]; card[..40]; copy[..40]');
    const count = 'First difference, in the whole line: the number of concatenations, 2 in the first line, 3 in the second.';
    expect('concatenations', await page.verdict(), `The same card: no. ${count}`);
  },

  async 'a refused literal'(page, expect) {
    await page.type('two', '0x1234u16[8..], 0x1234u16[..17],\n amount[..24]; card[..40]');
    expect('listing', await page.listing('two'), 'refused 25 0 1\n');
    expect('marked', await page.marks('two'), ['0x1234u16[..17]']);
    expect('words', (await page.text('two-message')).startsWith("Refused, number 25: a literal's range ends above its width."), true);
    const verdict = "The same card: no answer. The second line is refused, 25: a literal's range ends above its width.";
    expect('verdict', await page.verdict(), verdict);
    expect('no picture', await page.classes('two'), []);
    expect('said of the field', await page.value("document.getElementById('two').getAttribute('aria-invalid')"), 'true');
  },

  async 'other refusals'(page, expect) {
    await page.type('two', 'a[..8], b[5..3], c[..2], d[..1]; e[..9]');
    expect('22', [await page.listing('two'), await page.marks('two')], ['refused 22 0 2\n', ['b[5..3]']]);
    await page.type('two', 'a[..8]; b[..4], 5u4');
    expect('30', [await page.listing('two'), await page.marks('two')], ['refused 30 1 0\n', ['5u4']]);
    expect('30 in words', (await page.text('two-message')).includes('component 2 of 2 as written, in concatenation 1 (copied to)'), true);
    await page.type('two', 'x[..3], a[..8]; b[..9]');
    expect('41', [await page.listing('two'), await page.marks('two')], ['refused 41 0 1\n', ['x[..3], a[..8]', 'b[..9]']]);
    expect('both widths', (await page.text('two-message')).includes('Their widths in bits are 11 and 9.'), true);
    await page.type('two', 'a, ..');
    expect('43', [await page.listing('two'), await page.marks('two')], ['refused 43 0 0\n', ['a, ..']]);
    await page.type('two', Array.from({ length: 17 }, (_, i) => `a${i}[..8]`).join('; '));
    expect('3', [await page.listing('two'), await page.marks('two')], ['refused 3 0 0\n', []]);
    expect('which count', (await page.text('two-message')).includes('17 concatenations, and at most 16 are read.'), true);
    await page.type('two', `a[..8], b${'('.repeat(33)}${')'.repeat(33)}; c[..8]`);
    expect('7', [await page.listing('two'), await page.marks('two')], ['refused 7 0 0\n', [`b${'('.repeat(33)}${')'.repeat(33)}`]]);
  },

  async 'a line that cannot be read'(page, expect) {
    await page.type('two', 'a[..8], b[..8] // the rest\n; c[..16]');
    expect('marked', await page.marks('two'), ['// the rest']);
    const line = await page.value("document.querySelector('#two-message .line').textContent");
    expect('the line', line, 'a[..8], b[..8] // the rest\n; c[..16]');
    expect('verdict', await page.verdict(), 'The same card: no answer. The second line cannot be read: a comment: a line has none.');
    expect('no listing', await page.value("document.getElementById('two-listing').parentElement.hidden"), true);
    await page.type('two', 'a[(1..8], b');
    expect('wrong closer', await page.marks('two'), ['(', ']']);
    await page.type('two', 'a,, b');
    expect('nothing between', await page.marks('two'), [',', ',']);
    await page.type('two', '');
    expect('empty', await page.verdict(), 'The same card: no answer. The second line cannot be read: there is no line.');
  },

  async 'text is text'(page, expect) {
    const evil = '<img src=x onerror=document.title=0>&"<b>"\u200f[..8]';
    const seen = '<img src=x onerror=document.title=0>&"<b>"\\u{200f}[..8]';
    await page.type('one', `<i>: ${evil}; <script>[..8]`);
    expect('field', (await page.table('one', 0))[0][1], seen);
    expect('starting value', (await page.text('one-message')).includes('Starting value: <i>.'), true);
    await page.type('two', `${evil.replace('[..8]', '[..0]')}; c[..8]`);
    expect('marked', await page.marks('two'), [seen.replace('[..8]', '[..0]')]);
    const made = "document.querySelectorAll('main img, main b, main i, main script').length";
    expect('elements made of it', await page.value(made), 0);
    expect('scripts run by it', await page.value('document.title'), 'Layout lines');
  },

  async 'names from right to left'(page, expect) {
    const inOrder = async (selector, ...parts) => {
      const left = [];
      for (const part of parts) left.push(await page.value(leftOf(selector, part)));
      return left.every((x, i) => x !== null && (i === 0 || x > left[i - 1]));
    };
    await page.type('one', 'x[..4], \u05d0\u05d1[3..7], y[\u05d0..8]; c');
    expect('field', (await page.table('one', 0))[1][1], '\u05d0\u05d1[3..7]');
    expect('its range in the table', await inOrder('#one-picture tr:nth-child(2) th', '\u05d0', '3', '7'), true);
    expect('a bound', await inOrder('#one-picture tr:nth-child(3) th', 'y', '\u05d0', '8'), true);
    expect('in the picture', await inOrder('#one-picture g:nth-child(2) .label', '\u05d0', '3', '7'), true);
    await page.type('one', '\u05d0\u05d1[9..8], b; c');
    expect('a refused line', await inOrder('#one-message .line', '\u05d0', 'b', 'c'), true);
  },

  async 'unknown widths'(page, expect) {
    await page.type('one', 'a[..8], b; c[x..y], ..; d[..64]');
    expect('boxes', await page.classes('one'), ['variable', 'variable dashed', 'variable dashed', 'filler dashed', 'variable']);
    expect('heads', await page.heads('one'), [
      'Concatenation 0 (the source), width not fixed; not to scale',
      'Concatenation 1 (copied to), width not fixed; not to scale',
      'Concatenation 2 (copied to), 64 bits',
    ]);
    expect('table', await page.table('one', 0), [
      ['variable', 'a[..8]', 'not known', 'not known', '8'],
      ['variable', 'b', '0', 'not known', 'not known'],
    ]);
    await page.type('one', 'a[..8], .., b[n..n+8]; d[..64]');
    expect('15 for a bound of three tokens', await page.listing('one'), 'refused 15 0 0\n');
    await page.type('one', 'a[..8], .., b[n..(n+8)]; d[..64]');
    expect('what is left', (await page.table('one', 0))[1], ['filler', '..', '8', '55', '48 (what is left)']);
    expect('still dashed', await page.classes('one'), ['variable', 'filler dashed', 'variable', 'variable']);
    const covered = `[...document.querySelectorAll('#one-picture .filler text.inside')].map((text) => {
      const words = text.getBoundingClientRect();
      return [...text.parentElement.querySelectorAll('.plate')].map((plate) => plate.getBoundingClientRect())
        .some((plate) => plate.left <= words.left && plate.right >= words.right && plate.top < words.bottom && plate.bottom > words.top);
    })`;
    expect('no pattern behind its words', await page.value(covered), [true, true]);
  },

  async 'one bit in 4,096'(page, expect) {
    await page.type('one', '1u1, a[..4095]; rec[..4096]');
    expect('head', (await page.heads('one'))[0], 'Concatenation 0 (the source), 4096 bits; not to scale');
    expect('table', (await page.table('one', 0))[0], ['literal', '0x1', '4095', '4095', '1']);
    const box = "document.querySelector('#one-picture .literal')";
    expect('seen', (await page.value(`${box}.querySelector('.edge').width.baseVal.value`)) >= 30, true);
    expect('label', await page.value(`${box}.querySelector('.label').textContent`), '0x1');
    await page.type('one', `0x${'a5'.repeat(512)}u4096; b[..4096]`);
    expect('a literal of 4,096 bits', (await page.table('one', 0))[0][1], `0x${'a5'.repeat(512)}`);
  },

  async '256 components'(page, expect) {
    const names = Array.from({ length: 255 }, (_, i) => `f${i}[..2]`);
    await page.type('one', `${names.join(', ')}; all[..510]`);
    expect('boxes', (await page.classes('one')).length, 256);
    expect('first and last', [(await page.table('one', 0))[0], (await page.table('one', 0)).at(-1)], [
      ['variable', 'f0[..2]', '508', '509', '2'],
      ['variable', 'f254[..2]', '0', '1', '2'],
    ]);
  },

  async 'the mode, by the keyboard'(page, expect) {
    await page.type('one', 'zero: .., a[..8]');
    expect('mode 0', await page.listing('one'), 'refused 43 0 0\n');
    await page.type('one', 'a; b');
    await page.value("document.getElementById('mode').focus()");
    await page.key('ArrowDown');
    await page.key('ArrowDown');
    expect('mode 2', [await page.value("document.getElementById('mode').value"), await page.listing('one')], ['2', 'refused 42 0 0\n']);
    expect('42 marks nothing', await page.marks('one'), []);
    await page.key('Tab');
    expect('Tab goes on', await page.value('document.activeElement.id'), 'one');
    await page.value("document.getElementById('mode').focus()");
    await page.key('ArrowUp');
    await page.key('ArrowUp');
    expect('mode 0 again', await page.value("document.getElementById('mode').value"), '0');
  },

  async 'for who cannot see it'(page, expect) {
    await page.type('one', WHOLE);
    expect('live', await page.value("document.getElementById('verdict').getAttribute('aria-live')"), 'polite');
    const labels = "[...document.querySelectorAll('textarea, select')].map((field) => field.labels[0].textContent)";
    expect('labels', await page.value(labels), ['Mode', 'First line', 'Second line']);
    const alternative = await page.value("document.querySelector('#one-picture svg[role=img]').getAttribute('aria-label')");
    const fields = 'literal 0x1234, bits 24 to 39, 16 wide; variable amount[..24], bits 0 to 23, 24 wide';
    expect('alternative', alternative, `Picture of concatenation 0 (the source), highest field first: ${fields}.`);
  },

  async 'in print'(page, expect) {
    await page.media('print');
    const display = (id) => page.value(`getComputedStyle(document.getElementById('${id}')).display`);
    expect('the line is text', [await display('one'), await display('one-print'), await page.text('one-print')], ['none', 'block', WHOLE]);
    await page.media('');
  },
};
