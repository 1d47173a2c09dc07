// The reader of literals: an optional `-`; decimal, or `0x`, `0o`, `0b` digits, with underscores; `u` or `i`; a decimal width of 1 to
// 4,096 bits. What it does not read has no width. It does as the encoder's in Rust does.

const LITERAL = /^(-?)(0x|0o|0b|)([0-9a-fA-F_]+)([ui])([0-9]+)$/;
const DIGITS = { '0x': /^[0-9a-fA-F][0-9a-fA-F_]*$/, '0o': /^[0-7][0-7_]*$/, '0b': /^[01][01_]*$/, '': /^[0-9][0-9_]*$/ };
const WIDEST = 4096;

/** Width and bytes (lowest first) of a literal's text, or null. */
export function readLiteral(text) {
  const parts = LITERAL.exec(text);
  if (!parts) return null;
  const [, minus, prefix, digits, sign, widthText] = parts;
  const width = Number(widthText);
  if (!DIGITS[prefix].test(digits) || width < 1 || width > WIDEST) return null;
  const plain = digits.replaceAll('_', '').replace(/^0+(?=.)/, '');
  if (plain.length > WIDEST) return null; // more bits than the widest literal has, and slow to read
  const value = BigInt(prefix + plain);
  if (!fits(value, BigInt(width), sign === 'i', minus === '-')) return null;
  const modulus = 1n << BigInt(width);
  return { width, bytes: packed(minus ? (modulus - value) % modulus : value, width) };
}

function fits(value, width, signed, negative) {
  if (!signed) return !negative && value < 1n << width;
  const half = 1n << (width - 1n);
  return negative ? value <= half : value < half;
}

function packed(value, width) {
  const hex = value.toString(16).padStart(2 * Math.ceil(width / 8), '0');
  return hex.match(/../g).map((byte) => parseInt(byte, 16)).reverse();
}
