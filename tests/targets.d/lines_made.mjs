// Lines for lines.mjs: chosen ones, and a generator.

/** What is easily read in two ways: numbers and dots, quotes, marks, white space, colons, literals at the edge of their width. */
export const CHOSEN = [
  'a', 'a b c', 'a as usize[..8]', 'a\tb\nc', 'a,\nb;\nc', 'a\u00a0b', 'a\u0085b', 'a\u2028b', 'a\ufeffb', '\ufeff5u8', ' \ufeff5u8', '\ufeff\ufeff5u8', '\ufeff',
  '\u200fa', 'a\u0301', 'ſ[..3]',
  'Straße[..8], наименование[..8]; 値段[..16]', '\u05d0[..8], \u05d1', '\u{1d4b3}y', '\u0663', 'x\u0663', '²', '½u8', '_', '__', '_1', 'r#match', 'r#', 'r#1',
  'r#"a"#', 'br"x"', 'cr#"x"y"#',
  'b"x"', 'c"x"', 'bc"x"', "b'x'", "'x'", "'\\''", "'\\\\'", "'\\x41'", "'\\u{e9}'", "'\\n'", "'é'", "'😀'", '"a\\"b"',
  '"a;b,c"', '"("', "'('", "','",
  '"', "'", "''", "'ab'", "'a", "'1", "'a,b'", '"a', 'r"a', 'r#"a"', '"a\\"', "'\\", "'\\x41", 'b"', 'rb"x"', 'r##"a"#"##',
  '1..2', '1...2', '1.', '1.a', '1._', '1.5', '1.5.6', '1e5', '1e+5', '1e-5', '1e+', '1e+a', '1E-5u8', '0x1e+5', '0x1.5',
  '0b1.2', '0o7.1', '1.e+5', '1._e', '1.²',
  '0xu8', '0x_u8', '0x_1u8', '1_0u8', '_1u8', '0u1', '1u1', '2u1', '-1u8', '-0u8', '-0i8', '-1i1', '0i1', '1i1', '-128i8',
  '-129i8', '127i8', '128i8', '255u8',
  '256u8', '0xffu8', '0xFFu8', '0x1ffu8', '0o377u8', '0o400u8', '0o8u8', '0b11u2', '0b12u8', '1u0', '1u4096', '1u4097', '1u08',
  '1u', '1i', '1u8u8', '1u8i8', '1u+8',
  '1u99999999999999999999', '000000u8', '0_0u3', '- 1i8', '1 u8', '1u 8', '0 x1u8', '5u8[..4]', '5u8[..4] ', 'a: 5u8', 'a:5u8',
  ':5u8', '::5u8', 'a::b: 5u8[1..]',
  'a:b:5u8', 'a, b: 5u8', 'x; a: 5u8', 'a:[..8]', 'a: -5i8', '(5u8)', '(5u8)[..8]', '5u8(..8)', '5u8[..8][..4]', '5u8{..}',
  '«5u8»', '«5»«u8»', '«5u»8', '« 5u8»',
  `0x${'f'.repeat(1024)}u4096`, `0x${'f'.repeat(1025)}u4096`, `0x${'0'.repeat(3000)}1u8`, `${'9'.repeat(1300)}u4096`,
  `1u${'0'.repeat(40)}8`,
  'a ⟦8:a5⟧', 'a⟦8:a5⟧', 'a ⟦8:5⟧', 'a ⟦8:⟧', 'a ⟦0:⟧', 'a ⟦12:abc⟧', 'a ⟦12:ABC⟧', 'a ⟦8:a5⟧, b ⟦4:f⟧; c', '5u8 ⟦4:1⟧',
  'a ⟦4294967295:⟧', 'a ⟦4294967296:⟧',
  'a ⟦+8:a5⟧', 'a ⟦-8:a5⟧', 'a ⟦8:+5⟧', '«\\+f»', '«\\-f»',
  'a ⟦8⟧', 'a ⟦8:xy⟧', 'a ⟦:ff⟧', 'a ⟦8:a5⟧ b', '⟦8:a5⟧', 'a (⟦8:a5⟧)', 'a ⟦8:a5', 'a ⟦8:a5⟧ ⟦8:a5⟧', '⟧', '»', '⟩', '⟨⟩',
  '⟨ a b ⟩', '⟨a⟩b[..8]', '⟨(a]⟩',
  '«»', '«a b»', '«a;b»', '«a', '«\\41»', '«\\4»', '«\\»', '«\\zz»', '«\\c3\\a9»', '«\\ff»', '«\\00»', '«é»', 'a «b» c',
  'a «b», c', '«a» b c', 'a b «c»',
  '', ' ', '\n', ',', ';', 'a,', 'a;', ',a', ';a', 'a,,b', 'a;;b', 'a,;b', '(a', 'a)', '(a]', '[a)', '((a)', '(a))',
  '(a,b;c), d; e', '[,]', '{;}', '(),[];{}', '()',
  '//', 'a//b', 'a // b\n, c', '/*', '/* a */ b', 'a/b', 'a / / b', 'a/ *b', '"//"', '«//»', '/', '*/',
  'a..b', '..', '...', '..=', 'a[..=8]', '..8, a', 'a[(n+1)..(n+9)]', 'a[-1..]', 'a[1 + 2..]', '<img src=x onerror=alert(1)>',
  '&amp;', '#$%^&*|~`?@!\\',
  '('.repeat(33) + ')'.repeat(33), '('.repeat(1024) + ')'.repeat(1024), '('.repeat(1025) + ')'.repeat(1025),
  'a,'.repeat(300) + 'b', 'a;'.repeat(20) + 'b',
  'x'.repeat(20000), 'x '.repeat(3000) + 'y', '+'.repeat(2100),
];

/** Numbers below n, the same for the same seed. */
function chooser(seed) {
  let state = seed;
  return (n) => {
    state = (state + 0x6d2b79f5) | 0;
    let t = Math.imul(state ^ (state >>> 15), 1 | state);
    t = (t + Math.imul(t ^ (t >>> 7), 61 | t)) ^ t;
    return ((t ^ (t >>> 14)) >>> 0) % n;
  };
}

const WORDS = [
  'a', 'amount', 'card', 'r', 'b', 'br', 'as', 'usize', '_x', 'é', 'ναι', '値', '\u05d0', 'x1', 'r#type', 'e', 'u8', '\u0663x',
  '\ufb01',
];
const NUMBERS = [
  '0', '7', '8', '07', '007', '1_0', '0x1f', '0b1', '0o7', '1.5', '1e-3', '2e5',
  '99999999999999999999999999999999999999999', '5u8', '\u0663',
];
const SIGNS = [
  '+', '-', '..', '..=', '.', ':', '::', '=', '*', '&', '!', '#', '<', '>', '|', '?', '@', '$', '%', '^', '~', '\\',
  '/', '…', '€',
];
const SPACES = ['', '', '', ' ', ' ', '  ', '\n', '\t', '\u00a0', '\u3000', '\u0085'];
const QUOTED = [
  '"x"', '"a;b"', "'c'", 'b"y"', 'r#"q"#', "'\\n'", '"\\""', '«-5»', '«a b»', '«\\c3\\a9»', '«+»',
];
const WRONG = [
  '"', "'", '(', ')', '[', ']', '{', '}', '⟨', '⟩', '«', '⟦', '⟦8:a5⟧', '//', '/*', ',', ';', ',,', "'ab'", "''", 'r"',
  '«»',
];
const GROUPS = [['(', ')'], ['[', ']'], ['{', '}'], ['⟨', '⟩']];

class Maker {
  constructor(seed) {
    this.below = chooser(seed);
  }

  one(list) {
    return list[this.below(list.length)];
  }

  literal() {
    const width = 1 + this.below(this.below(8) === 0 ? 300 : 20);
    const digits = this.one(['', '0x', '0b', '0o']) + this.one(['0', '1', '5', '7', '10', '1_1', '12', '77', 'ff', '101']);
    return this.one(['', '', '', '-']) + digits + this.one(['u', 'u', 'i']) + width;
  }

  bound() {
    if (this.below(3) === 0) return `(${this.tokens(this.below(4), 1)})`;
    return this.one([...NUMBERS, ...WORDS, '', '']);
  }

  range() {
    return `[${this.bound()}${this.one(['..', '..', '..=', ' .. '])}${this.bound()}]`;
  }

  /** So many tokens with white space among them, groups no deeper than left. */
  tokens(count, left) {
    let text = '';
    for (let i = 0; i < count; i++) {
      const [open, close] = this.one(GROUPS);
      const kinds = [WORDS, WORDS, NUMBERS, SIGNS, QUOTED];
      const group = left > 0 && this.below(6) === 0;
      text += group ? open + this.tokens(this.below(4), left - 1) + close : this.one(this.one(kinds));
      text += this.one(SPACES);
    }
    return text;
  }

  component() {
    const ways = [
      () => this.literal(),
      () => this.literal() + this.range(),
      () => this.one(WORDS) + this.one(SPACES) + this.range(),
      () => this.bound() + '..' + this.bound(),
      () => this.tokens(1 + this.below(6), 3),
      () => `${this.one(WORDS)} ⟦${1 + this.below(16)}:${this.one(['0', 'ff', 'a5', 'abc'])}⟧`,
    ];
    return this.one(ways)();
  }

  line() {
    const start = this.below(5) === 0 ? this.one(['zero: ', 'imax:', 'a::b:', ':', 'x y: ', '::']) : '';
    const concatenation = () => Array.from({ length: 1 + this.below(4) }, () => this.component()).join(this.one([',', ', ', ' ,\n']));
    return start + Array.from({ length: 1 + this.below(3) }, concatenation).join(this.one([';', '; ', ' ;\n']));
  }

  /** A line with something put in, taken out or cut off. */
  damaged() {
    const characters = [...this.line()];
    const at = this.below(characters.length + 1);
    const ways = [
      () => characters.splice(at, 0, this.one(WRONG)),
      () => characters.splice(at, 1 + this.below(3)),
      () => characters.splice(at),
    ];
    this.one(ways)();
    return characters.join('');
  }
}

export function* generated(count) {
  const maker = new Maker(1);
  for (let i = 0; i < count; i++) yield i % 6 === 5 ? maker.damaged() : maker.line();
}
