//! The images that are timed.

use layout_compare::lent::needed;
use layout_rust::{
    check::check,
    generate::{Class, class_cases},
    image::{Comp, Item, Kind, MAX_DEPTH, Tree, image_of},
    text::tree_of,
};

use crate::stack::Call;

pub struct Image {
    pub name: String,
    pub tree: Tree,
    pub bytes: Vec<u8>,
}

impl Image {
    fn new(name: impl Into<String>, tree: Tree) -> Self {
        let name = name.into();
        let bytes = image_of(&tree);
        assert!(check(&bytes).is_ok(), "{name}: past a limit");
        Self { name, bytes, tree }
    }

    fn of_line(name: &str, line: &str) -> Self {
        Self::new(name, tree_of(line).expect("well written"))
    }

    /// A number of the header.
    pub fn count(&self, i: usize) -> usize {
        u32::from_le_bytes(self.bytes[4 * i..4 * i + 4].try_into().expect("four bytes")) as usize
    }

    pub fn components(&self) -> usize {
        self.count(1)
    }

    pub fn call(&self) -> Call {
        Call {
            image: self.bytes.clone(),
            mode: 0,
            area: needed(&self.bytes),
        }
    }
}

pub fn two() -> Image {
    Image::of_line("2 components", "0x2au8, rec[4..(n+12)]")
}

/// A record of a card: literals, fields with ranges, bounds with texts.
const CARD: &str = "0x7fu8, version[..4], flags[4..8], 3u2, 0b101u3, len[..=15], \
    kind[(k+1)..(k+6)], 0u1, 1u1, id[..32], payload[off..(off+24)], 0xdeadu16, crc[..(n-8)], \
    pad[2..], 0o17u6; \
    a[..8], b[..4], c[4..8], ..2, d[..3], e[0x10..0x20], f[(m-4)..m], ..1, g[7], h[..32], \
    buf[start..(start+24)], i[..16], j[..(n-8)], k[2..], ..6";

pub fn thirty() -> Image {
    Image::of_line("30 components", CARD)
}

/// The same with an unbounded filler.
pub fn open() -> Image {
    let line = CARD.strip_suffix("..6").expect("its last component");
    Image::of_line(
        "30 components with an unbounded filler",
        &format!("{line}.."),
    )
}

fn chars(text: &str) -> Item {
    Item::Chars(text.as_bytes().to_vec())
}

/// 8 records, 64 bytes of text, 512 bits.
fn full_literal(k: usize) -> Comp {
    let digits = format!("0x{:0>49}u512", format!("{:x}", k + 1));
    let range = ["0", ".", ".", "=", "511"].map(chars).to_vec();
    let items = vec![chars(&digits), Item::Group(Kind::Bracket, range)];
    Comp {
        items,
        width: 512,
        bits: (0..64).map(|i| (i * 5 + k + 1) as u8).collect(),
    }
}

/// 8 records, 64 bytes of text: a name, and a text as its end.
fn full_variable(k: usize) -> Comp {
    let end = Item::Group(
        Kind::Parenthesis,
        vec![chars(&format!("length_of_{k:0>18}"))],
    );
    let range = vec![chars("."), chars("."), end];
    let name = format!("record_{k:0>23}");
    Comp {
        items: vec![chars(&name), Item::Group(Kind::Bracket, range)],
        ..Comp::default()
    }
}

/// All counts at their limits. The source has 8 runs of 16 literals, parted by
/// variables; the 15 sinks have 8 variables each.
pub fn largest() -> Image {
    let mut source = vec![];
    for k in 0..136 {
        source.push(if k % 17 == 16 {
            full_variable(k)
        } else {
            full_literal(k)
        });
    }
    let mut concatenations = vec![source];
    for sink in 0..15 {
        concatenations.push((0..8).map(|k| full_variable(136 + 8 * sink + k)).collect());
    }
    let image = Image::new("the largest image", Tree { concatenations });
    assert_eq!(
        [0, 1, 2, 3, 4].map(|i| image.count(i)),
        [16, 256, 2_048, 16_384, 8_192]
    );
    image
}

/// One concatenation of so many variables.
pub fn variables(count: usize) -> Image {
    let line = vec!["rec[4..n]"; count].join(", ");
    Image {
        name: format!("{count:>3}"),
        ..Image::of_line("variables", &line)
    }
}

/// So many variables, each with this number as its start.
pub fn numbers(count: usize, number: &str) -> Image {
    let line = vec![format!("rec[{number}..n]"); count].join(", ");
    Image {
        name: number.to_owned(),
        ..Image::of_line("numbers", &line)
    }
}

/// One concatenation of so many literals of so many bits.
pub fn literals(count: usize, width: usize) -> Image {
    let literal = |k: usize| {
        let mut bits: Vec<u8> = (0..width.div_ceil(8)).map(|i| (i * 7 + k) as u8).collect();
        let spare = 8 * bits.len() - width;
        bits.iter_mut()
            .last()
            .into_iter()
            .for_each(|top| *top &= 0xff >> spare);
        Comp {
            items: vec![chars("0x1fu9")],
            width,
            bits,
        }
    };
    let concatenations = vec![(0..count).map(literal).collect()];
    Image::new(format!("{width:>4} bits"), Tree { concatenations })
}

/// One variable whose end is a group of so many records.
pub fn one_bound(records: usize) -> Image {
    let part = |i: usize| chars(if i.is_multiple_of(2) { "n" } else { "-" });
    let end = Item::Group(Kind::Parenthesis, (0..records).map(part).collect());
    let range = vec![chars("."), chars("."), end];
    let items = vec![chars("a"), Item::Group(Kind::Bracket, range)];
    let concatenations = vec![vec![Comp {
        items,
        ..Comp::default()
    }]];
    Image::new(format!("{records:>4} records"), Tree { concatenations })
}

/// One variable of a text of so many bytes.
pub fn one_text(bytes: usize) -> Image {
    let comp = Comp {
        items: vec![chars(&"a".repeat(bytes))],
        ..Comp::default()
    };
    Image::new(
        format!("{bytes:>5} bytes"),
        Tree {
            concatenations: vec![vec![comp]],
        },
    )
}

/// Groups within groups, as deep as they may be.
pub fn deepest() -> Image {
    let nest = |depth: usize| format!("{}z{}", "(".repeat(depth), ")".repeat(depth));
    let line = format!("{}, a[..{}]", nest(MAX_DEPTH), nest(MAX_DEPTH - 1));
    Image::of_line("groups of depth 32", &line)
}

/// Cases of all kinds, accepted or not, each with the area that it asks for.
pub fn generated(count: usize) -> Vec<Call> {
    let call = |input: Vec<u8>| {
        let (mode, image) = input.split_first()?;
        let area = if check(image).is_ok() {
            needed(image)
        } else {
            64
        };
        Some(Call {
            image: image.to_vec(),
            mode: (*mode).into(),
            area,
        })
    };
    class_cases(Class::Mixed, 1)
        .filter_map(|pair| call(pair.case.input))
        .take(count)
        .collect()
}

/// The thirty with a starting value.
pub fn started() -> Image {
    let (source, sinks) = CARD.split_once(';').expect("two");
    let (front, last) = source.rsplit_once(", ").expect("two");
    Image::of_line(
        "30 components with a starting value",
        &format!("{front}, imm::start(7): {last}; {sinks}"),
    )
}

/// Bounds of several signs, with operators and numbers in all places.
const ODD: &str = "a[(a+b-3)..(a+b-1)], b[(8+n&3)..], c[(x--2)..(x+9)], d[..(n-1-2)], \
    e[(p-q)..=(p-q)], f[(3-m)..(9-m)], g[(-4+k)..(k)], h[(u*v+1)..(u*v+5)], \
    i[(0x10+w)..(w+0x20)], j[..(len(z)-1)]";

pub fn odd() -> Image {
    Image::of_line(
        "30 components with odd bounds",
        &format!("{ODD}, {ODD}; {ODD}"),
    )
}

/// Groups in groups, in names and in bounds.
const NESTED: &str = "a(b(c))[((m))..((m)+4)], x.y[(f(g(h))[2])..(f(g(h))[2]+8)], \
    (q)[..({r}+1)], s{t[u]}[((v)-1)..]";

pub fn nested() -> Image {
    let (n, sinks) = (NESTED, [NESTED; 3].join(", "));
    Image::of_line(
        "28 components with groups in groups",
        &format!("{n}, {n}, {n}, {n}; {sinks}"),
    )
}
