// Lines whose pictures are looked at, at two widths and in print, and what must not be found in them.

const many = Array.from({ length: 255 }, (_, i) => `field_${i}[..${1 + (i % 9)}]`).join(', ');

export const LOOKS = {
  example: ['0x1234u16, amount[..24]; card[..40]', '0x1234u16[8..], 0x1234u16[..8], amount[..24]; card[..40]'],
  refused: ['0x1234u16[8..], 0x1234u16[..17], amount[..24]; card[..40]', 'a[..8], // a comment\n b[..8]; c[..16]'],
  unknown: ['a[..8], b; c[x..y], ..; d[..64]', '0x1234u16, .., amount[..24]; card[..64]'],
  narrow: ['1u1, 0u2, flag[..1], a[..4092]; rec[..4096]', 'an_uncommonly_long_name_of_a_field[..1], x[..1]; 値段の名前[..1], y[..1]'],
  many: [`${many}`, `0x${'a5'.repeat(512)}u4096, x[..1]; y[..4097]`],
  large: [
    'a[..0x7fffffffffffffff], b[..0x7fffffffffffffff]; c[..0xfffffffffffffffe]',
    '<img src=x onerror=alert(1)>\u200f\u05d0\u05d1[..8], .., b; c[..64]',
  ],
};

/** Runs in the page: what goes beyond its box or the page, or lies over its neighbour. */
export function crowding() {
  const found = [];
  const root = document.documentElement;
  if (root.scrollWidth > innerWidth) found.push(`the page is ${root.scrollWidth} wide`);
  for (const picture of document.querySelectorAll('svg.picture')) {
    const edges = [...picture.querySelectorAll('.edge')].map((edge) => edge.getBoundingClientRect());
    edges.forEach((one, i) => edges.slice(i + 1).forEach((two) => {
      const across = Math.min(one.right, two.right) - Math.max(one.left, two.left);
      const down = Math.min(one.bottom, two.bottom) - Math.max(one.top, two.top);
      if (across > 1 && down > 1) found.push('two boxes lie over each other');
    }));
    for (const box of picture.querySelectorAll('g')) {
      const edge = box.querySelector('.edge').getBoundingClientRect();
      const texts = [...box.querySelectorAll('text')].map((text) => ({ text, place: text.getBoundingClientRect() }));
      for (const { text, place } of texts) {
        if (place.left < edge.left - 1 || place.right > edge.right + 1) found.push(`beyond its box: ${text.textContent}`);
      }
      const under = texts.filter(({ place }) => place.top > edge.bottom - 4);
      if (under.length === 2 && under[0].place.right > under[1].place.left) found.push(`over each other: ${under[0].text.textContent}`);
    }
  }
  return found;
}
